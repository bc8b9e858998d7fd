//! Captures that no single sender wrote.

use super::frames::good_stream;
use crate::outcome::{END, ESC, ESC_END, ESC_ESC};
use crate::random::Random;

/// Two senders write one register, so their bytes mix. In some captures
/// bytes are overwritten before they go out.
pub fn spliced(random: &mut Random) -> Vec<u8> {
    let first = good_stream(random);
    let second = good_stream(random);
    let longest_run = random.pick(&[1, 2, 5, 20, 100]);
    let mut wire = mixed(&first, &second, longest_run, random);
    if random.once_in(4) {
        wire.retain(|_| !random.once_in(40));
    }
    wire
}

/// Takes runs of bytes from both in turn until both are used up.
fn mixed(first: &[u8], second: &[u8], longest_run: usize, random: &mut Random) -> Vec<u8> {
    let (mut now, mut other) = (first, second);
    let mut wire = Vec::new();
    while !now.is_empty() || !other.is_empty() {
        let run = random.between(1, longest_run).min(now.len());
        let (taken, rest) = now.split_at(run);
        wire.extend(taken);
        (now, other) = (other, rest);
    }
    wire
}

/// Drawn bytes. How many are END and how many are special differs by capture.
pub fn rich(random: &mut Random) -> Vec<u8> {
    let length = random.pick(&[20, 100, 400, 1500]);
    let end_once_in = random.pick(&[3, 8, 30, 300]);
    let special_once_in = random.pick(&[2, 4, 20, 1000]);
    (0..random.below(length))
        .map(|_| {
            if random.once_in(end_once_in) {
                END
            } else if random.once_in(special_once_in) {
                random.pick(&[ESC, ESC, ESC_END, ESC_ESC])
            } else {
                random.byte()
            }
        })
        .collect()
}

#[cfg(test)]
mod tests {
    use super::*;

    #[test]
    fn mixing_keeps_every_byte() {
        let random = &mut Random::new(&[5]);
        let mut wire = mixed(&[1; 30], &[2; 50], 4, random);
        wire.sort();
        assert_eq!(wire, [vec![1; 30], vec![2; 50]].concat());
    }
}
