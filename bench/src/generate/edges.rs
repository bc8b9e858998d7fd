//! Captures at the edges: short words of special bytes, no input, no END,
//! and good input that ends anywhere, in the middle of an escape too.

use super::frames;
use super::rows::ROWS;
use crate::outcome::{END, ESC, ESC_END, ESC_ESC};
use crate::random::Random;

/// The letters of the short words.
const LETTERS: [u8; 5] = [END, ESC, ESC_END, ESC_ESC, 0];
/// The greatest length of a short word.
const WORD_MOST: u32 = 4;
/// Lengths of captures without END.
const OPEN_LENGTHS: [usize; 12] = [
    5, 100, 253, 254, 255, 256, 257, 511, 512, 65_535, 65_536, 70_000,
];

/// The words, the captures without END, and the places to end at.
pub fn count() -> usize {
    words() + OPEN_LENGTHS.len() + stream().len()
}

pub fn capture(index: usize, random: &mut Random) -> Vec<u8> {
    let without_end = words();
    let ended = without_end + OPEN_LENGTHS.len();
    if index < without_end {
        word(index)
    } else if index < ended {
        vec![0x11; OPEN_LENGTHS[index - without_end]]
    } else if index < count() {
        stream()[..index - ended].to_vec()
    } else {
        ended_anywhere(random)
    }
}

/// The number of words, the empty one included.
fn words() -> usize {
    (0..=WORD_MOST)
        .map(|length| LETTERS.len().pow(length))
        .sum()
}

/// The words in order of length.
fn word(mut number: usize) -> Vec<u8> {
    let mut length = 0;
    while number >= LETTERS.len().pow(length) {
        number -= LETTERS.len().pow(length);
        length += 1;
    }
    (0..length)
        .map(|place| LETTERS[number / LETTERS.len().pow(place) % LETTERS.len()])
        .collect()
}

/// All rows of the paper in one stream.
fn stream() -> Vec<u8> {
    ROWS.iter().flat_map(|row| row.wire).copied().collect()
}

/// Good frames without their first bytes and without their last ones.
fn ended_anywhere(random: &mut Random) -> Vec<u8> {
    let whole = frames::good_stream(random);
    let start = random.below(whole.len());
    let end = random.between(start, whole.len());
    match random.below(3) {
        0 => whole[start..].to_vec(),
        1 => whole[..end].to_vec(),
        _ => whole[start..end].to_vec(),
    }
}

#[cfg(test)]
mod tests {
    use super::*;

    #[test]
    fn each_word_comes_once() {
        let mut all: Vec<_> = (0..words()).map(word).collect();
        assert_eq!(all[0], []);
        all.sort();
        all.dedup();
        assert_eq!(all.len(), 1 + 5 + 25 + 125 + 625);
    }
}
