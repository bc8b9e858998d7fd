//! Captures around the 255th decoded byte.

use super::frames::{neighbour, rich_byte};
use crate::outcome::{END, ESC, ESC_END, ESC_ESC};
use crate::random::Random;
use crate::sender::{escape, frame, join, mend_check, Ends};

/// Decoded bytes before the tail.
const BEFORE: [usize; 7] = [251, 252, 253, 254, 255, 256, 257];

/// What the bytes before the tail are.
const FORMS: usize = 3;

/// Wire bytes behind them.
const TAILS: [&[u8]; 18] = [
    &[],
    &[1],
    &[1, 1],
    &[ESC],
    &[ESC, 1],
    &[ESC, ESC],
    &[ESC, ESC_END],
    &[ESC, ESC_ESC],
    &[ESC_END],
    &[ESC_ESC],
    &[1, ESC],
    &[1, ESC, 1],
    &[1, ESC, ESC_END],
    &[ESC, ESC_END, 1],
    &[ESC, ESC_END, ESC],
    &[ESC, ESC_ESC, ESC, ESC_END],
    &[ESC, ESC_END, ESC, 1],
    &[ESC, ESC, ESC_END, ESC_END],
];

/// Sizes of frames that are right but perhaps too long.
const SIZES: [usize; 6] = [253, 254, 255, 256, 257, 258];
/// Their check bytes: plain, or escaped in either way.
const CHECKS: [u8; 3] = [1, END, ESC];

fn tailed() -> usize {
    BEFORE.len() * FORMS * TAILS.len()
}

pub fn count() -> usize {
    tailed() + SIZES.len() * CHECKS.len()
}

pub fn capture(index: usize, random: &mut Random) -> Vec<u8> {
    let body = if index < tailed() {
        tailed_body(index)
    } else if index < count() {
        sized_body(index - tailed())
    } else {
        drawn_body(random)
    };
    let bodies = [neighbour(random), body, neighbour(random)];
    let ends = random.pick(&[Ends::Shared, Ends::Doubled]);
    join(&bodies, ends, random)
}

fn tailed_body(number: usize) -> Vec<u8> {
    let tail = TAILS[number % TAILS.len()];
    let form = number / TAILS.len() % FORMS;
    let before = BEFORE[number / TAILS.len() / FORMS];
    [&before_tail(form, before), tail].concat()
}

/// Plain bytes, escapes only, or the start of a frame of 250 data bytes.
fn before_tail(form: usize, before: usize) -> Vec<u8> {
    match form {
        0 => vec![1; before],
        1 => [ESC, ESC_END].repeat(before),
        _ => {
            let mut longest = frame(0x0206, &[0x44; 250]);
            longest.resize(before, 0x44);
            escape(&longest)
        }
    }
}

/// A frame that would be accepted if any size were.
fn sized_body(number: usize) -> Vec<u8> {
    let size = SIZES[number % SIZES.len()];
    let check = CHECKS[number / SIZES.len()];
    let mut frame = vec![0; size];
    frame[1] = (size - 2) as u8;
    mend_check(&mut frame);
    frame[4] = frame[size - 1] ^ check;
    mend_check(&mut frame);
    escape(&frame)
}

/// Rich bytes, right escapes only at first, then anything.
fn drawn_body(random: &mut Random) -> Vec<u8> {
    let before = random.between(240, 258);
    let decoded: Vec<u8> = (0..before).map(|_| rich_byte(random)).collect();
    let mut body = escape(&decoded);
    for _ in 0..random.below(20) {
        let byte = rich_byte(random);
        body.push(if byte == END { ESC_END } else { byte });
    }
    body
}

#[cfg(test)]
mod tests {
    use super::*;
    use crate::outcome::Outcome;
    use crate::paper;

    #[test]
    fn right_frames_up_to_255_bytes_are_accepted() {
        for number in 0..SIZES.len() * CHECKS.len() {
            let mut wire = sized_body(number);
            wire.push(END);
            let listing = paper::read(&wire);
            let accepted = matches!(listing.outcomes[..], [Outcome::Frame { .. }]);
            assert_eq!(accepted, SIZES[number % SIZES.len()] <= 255);
        }
    }
}
