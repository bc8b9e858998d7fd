//! Packets that break in each way, with escapes before, at and behind the
//! place where they do.

use super::frames::{ends, neighbour};
use crate::outcome::{Refusal, END, ESC, ESC_END, ESC_ESC, FRAME_LEAST, PACKET_MOST};
use crate::random::Random;
use crate::sender::{escape, join};

/// How many of some bytes are escaped.
#[derive(Clone, Copy, Debug, PartialEq, Eq)]
pub enum Share {
    None,
    Some,
    All,
}

pub const SHARES: [Share; 3] = [Share::None, Share::Some, Share::All];

/// How a packet breaks. What a refusal does not have is not looked at.
#[derive(Clone, Copy, Debug, PartialEq, Eq)]
pub struct Way {
    pub refusal: Refusal,
    pub before: Share,
    /// Whether the byte at the place is escaped, or special behind an ESC.
    pub at: bool,
    pub behind: Share,
}

/// All ways.
pub const WAYS: usize = Refusal::ALL.len() * SHARES.len() * 2 * SHARES.len();

/// Each way comes so often.
const EACH: usize = 10;

pub const COUNT: usize = EACH * WAYS;

/// The way of a number. The refusals take turns.
pub fn way(number: usize) -> Way {
    let (number, refusal) = (number / Refusal::ALL.len(), number % Refusal::ALL.len());
    Way {
        refusal: Refusal::ALL[refusal],
        before: SHARES[number % 3],
        at: number / 3 % 2 == 1,
        behind: SHARES[number / 6 % 3],
    }
}

/// One broken packet between good frames.
pub fn capture(index: usize, random: &mut Random) -> Vec<u8> {
    let broken = piece(way(index), random);
    let bodies = [neighbour(random), broken, neighbour(random)];
    let ends = ends(random);
    join(&bodies, ends, random)
}

/// A packet that breaks so, on the wire and without ENDs.
pub fn piece(way: Way, random: &mut Random) -> Vec<u8> {
    match way.refusal {
        Refusal::WrongEscape => wrong_escape(way, random),
        Refusal::TooLong => too_long(way, random),
        Refusal::Short => {
            let count = random.between(1, FRAME_LEAST - 1);
            escape(&bytes(count, way.before, random))
        }
        Refusal::Protocol => escape(&wrong_protocol(way, random)),
        Refusal::Shorter => escape(&shorter(way, random)),
        Refusal::Check => escape(&wrong_check(way, random)),
        Refusal::Longer => escape(&longer(way, random)),
    }
}

/// Behind the ESC comes the END, another ESC, or a byte that is not special.
/// What is skipped has escapes, right and wrong ones.
fn wrong_escape(way: Way, random: &mut Random) -> Vec<u8> {
    let count = edged(0, PACKET_MOST, random);
    let mut piece = escape(&bytes(count, way.before, random));
    piece.push(ESC);
    if way.at && random.once_in(2) {
        return piece;
    }
    piece.push(if way.at { ESC } else { other(random) });
    piece.extend(skipped(way.behind, random));
    piece
}

fn too_long(way: Way, random: &mut Random) -> Vec<u8> {
    let mut piece = escape(&bytes(PACKET_MOST, way.before, random));
    piece.extend(escape(&[byte(way.at, random)]));
    piece.extend(skipped(way.behind, random));
    piece
}

fn wrong_protocol(way: Way, random: &mut Random) -> Vec<u8> {
    let count = edged(FRAME_LEAST, PACKET_MOST, random);
    let protocol = match byte(way.at, random) {
        0 => 1,
        protocol => protocol,
    };
    let mut packet = vec![protocol];
    packet.extend(bytes(count - 1, way.behind, random));
    packet
}

/// A frame that lacks one byte, or more.
fn shorter(way: Way, random: &mut Random) -> Vec<u8> {
    let count = edged(FRAME_LEAST, PACKET_MOST, random);
    let any = random.between(count - 1, 255);
    let special = random.pick(&[END, ESC]).into();
    let length = match random.below(4) {
        0 => any,
        1 if special + 2 > count => special,
        _ => count - 1,
    };
    let mut packet = vec![0, length as u8];
    packet.extend(bytes(count - 2, way.before, random));
    packet
}

/// A frame that has one byte too many, or more.
fn longer(way: Way, random: &mut Random) -> Vec<u8> {
    let any = edged(0, PACKET_MOST - 3, random);
    let special = random.pick(&[END, ESC]).into();
    let length = random.pick(&[0, 1, 2, 3, special, any, any, any]);
    let mut packet = vec![0, length as u8];
    packet.extend(bytes(length, way.before, random));
    packet.push(byte(way.at, random));
    let least = FRAME_LEAST.saturating_sub(packet.len());
    let most = PACKET_MOST - packet.len();
    let any = random.between(least, most);
    let behind = random.pick(&[least, least, most, most, any]);
    packet.extend(bytes(behind, way.behind, random));
    packet
}

fn wrong_check(way: Way, random: &mut Random) -> Vec<u8> {
    let any = edged(3, PACKET_MOST - 2, random);
    let special = random.pick(&[END, ESC]).into();
    let length = random.pick(&[special, any, any, any]);
    let mut packet = vec![0, length as u8];
    packet.extend(bytes(length - 1, way.before, random));
    let due = packet.iter().fold(0, |sum, byte| sum ^ byte);
    let wrong = loop {
        let check = byte(way.at, random);
        if check != due {
            break check;
        }
    };
    packet.push(wrong);
    packet
}

/// A number in these bounds, often near one of them.
fn edged(least: usize, most: usize, random: &mut Random) -> usize {
    let few = random.between(least, least + 12);
    let any = random.between(least, most);
    random.pick(&[few, few, any, most, most - 1])
}

/// So many decoded bytes, as many of them escaped as asked for.
fn bytes(count: usize, share: Share, random: &mut Random) -> Vec<u8> {
    let escaped = |random: &mut Random| match share {
        Share::None => false,
        Share::Some => random.once_in(2),
        Share::All => true,
    };
    let mut bytes: Vec<u8> = (0..count).map(|_| byte(escaped(random), random)).collect();
    if share == Share::Some && count > 1 {
        let place = random.below(count);
        bytes[place] = byte(true, random);
        bytes[(place + 1) % count] = byte(false, random);
    }
    bytes
}

/// A byte that is escaped, or one that is not.
fn byte(escaped: bool, random: &mut Random) -> u8 {
    if escaped {
        random.pick(&[END, ESC])
    } else {
        let any = other(random);
        random.pick(&[any, any, 0, 1, ESC_END, ESC_ESC])
    }
}

/// A byte without a meaning of its own.
fn other(random: &mut Random) -> u8 {
    loop {
        let byte = random.byte();
        if ![END, ESC, ESC_END, ESC_ESC].contains(&byte) {
            return byte;
        }
    }
}

/// Wire bytes behind a fault, escapes right and wrong among them if asked for.
fn skipped(share: Share, random: &mut Random) -> Vec<u8> {
    let count = random.pick(&[0, 1, 1, 2, 5, 40, 300]);
    let mut wire = escape(&bytes(count, share, random));
    if share != Share::None {
        let tail: &[u8] = random.pick(&[&[], &[ESC], &[ESC, 7], &[ESC, ESC]]);
        wire.extend(tail);
    }
    wire
}

#[cfg(test)]
mod tests {
    use super::*;
    use crate::breaks::{self, Breaks};
    use crate::outcome::Outcome;
    use crate::paper;

    /// Each way has its refusal, and all cases are reached.
    #[test]
    fn packets_break_as_asked() {
        let mut reached = Breaks::default();
        for number in 0..COUNT {
            let random = &mut Random::new(&[6, number as u64]);
            let piece = piece(way(number), random);
            let wire = [&piece[..], &[END]].concat();
            match paper::read(&wire).outcomes[..] {
                [Outcome::Refused(broken)] if broken.refusal == way(number).refusal => {
                    reached.count(broken.refusal, breaks::cases(&piece, broken));
                }
                _ => panic!("{:?} {piece:02X?}", way(number)),
            }
        }
        let missing: Vec<_> = reached.missing().collect();
        assert!(missing.is_empty(), "{missing:?}");
    }

    #[test]
    fn each_way_has_its_number() {
        for number in 0..WAYS {
            let same = (0..WAYS).filter(|&other| way(other) == way(number));
            assert_eq!(same.count(), 1);
        }
    }
}
