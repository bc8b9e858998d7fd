//! Captures of whole frames: good ones, ones with special bytes at special
//! places, and wrong ones.

use crate::outcome::{DATA_MOST, END, ESC, ESC_END, ESC_ESC};
use crate::random::Random;
use crate::sender::{escape, frame, join, mend_check, Ends};

/// The bytes that mean something to a reader.
pub const SPECIAL: [u8; 4] = [END, ESC, ESC_END, ESC_ESC];

/// One good capture for each data length.
pub const GOOD_COUNT: usize = DATA_MOST + 1;
/// One special capture for each length byte, check byte and way to send.
pub const SPECIAL_COUNT: usize = LENGTHS.len() * CHECKS.len() * 2;
/// One wrong capture for each way to be wrong.
pub const WRONG_COUNT: usize = 9;

/// Length bytes of special frames: END, ESC, any.
const LENGTHS: [Option<u8>; 3] = [Some(END), Some(ESC), None];
/// Check bytes of special frames: END, ESC, any.
const CHECKS: [Option<u8>; 3] = [Some(END), Some(ESC), None];

/// A byte that is special half of the time.
pub fn rich_byte(random: &mut Random) -> u8 {
    if random.once_in(2) {
        random.pick(&SPECIAL)
    } else {
        random.byte()
    }
}

/// Data that is either rich in special bytes or drawn evenly.
pub fn data(length: usize, random: &mut Random) -> Vec<u8> {
    let rich = random.once_in(2);
    (0..length)
        .map(|_| {
            if rich {
                rich_byte(random)
            } else {
                random.byte()
            }
        })
        .collect()
}

pub fn command(random: &mut Random) -> u16 {
    u16::from_be_bytes([rich_byte(random), rich_byte(random)])
}

/// A data length. Short ones come more often.
pub fn data_length(random: &mut Random) -> usize {
    let most = random.pick(&[4, 40, DATA_MOST]);
    random.between(0, most)
}

/// A good frame with so many data bytes.
pub fn frame_of(length: usize, random: &mut Random) -> Vec<u8> {
    let data = data(length, random);
    frame(command(random), &data)
}

/// A short good frame, escaped.
pub fn neighbour(random: &mut Random) -> Vec<u8> {
    let length = random.between(0, 6);
    escape(&frame_of(length, random))
}

pub fn ends(random: &mut Random) -> Ends {
    random.pick(&[Ends::Shared, Ends::Doubled, Ends::Mixed])
}

/// Two to six good frames of drawn lengths on the wire.
pub fn good_stream(random: &mut Random) -> Vec<u8> {
    let first = data_length(random);
    let more = random.between(1, 5);
    good_frames(first, more, random)
}

/// Good frames. The first has the data length of the index.
pub fn good_capture(index: usize, random: &mut Random) -> Vec<u8> {
    let more = random.below(4);
    good_frames(index % GOOD_COUNT, more, random)
}

fn good_frames(first: usize, more: usize, random: &mut Random) -> Vec<u8> {
    let mut bodies = vec![escape(&frame_of(first, random))];
    for _ in 0..more {
        let length = data_length(random);
        bodies.push(escape(&frame_of(length, random)));
    }
    let ends = ends(random);
    join(&bodies, ends, random)
}

/// A frame whose length byte or check byte is special, between good ones.
/// Every second capture sends one special byte of it without its escape.
pub fn special_capture(index: usize, random: &mut Random) -> Vec<u8> {
    let length = LENGTHS[index / 2 % LENGTHS.len()];
    let check = CHECKS[index / 2 / LENGTHS.len() % CHECKS.len()];
    let frame = special_frame(length, check, random);
    let body = if index.is_multiple_of(2) {
        escape(&frame)
    } else {
        escape_all_but_one(&frame, random)
    };
    between_good(body, random)
}

fn special_frame(length: Option<u8>, check: Option<u8>, random: &mut Random) -> Vec<u8> {
    let data = match length {
        Some(length) => usize::from(length) - 3,
        None => random.between(1, 30),
    };
    let mut frame = frame_of(data, random);
    if let Some(check) = check {
        let turned = frame[frame.len() - 1] ^ check;
        let place = random.between(2, frame.len() - 2);
        frame[place] ^= turned;
        mend_check(&mut frame);
    }
    frame
}

/// The escaped frame, save that one special byte goes as it is.
fn escape_all_but_one(frame: &[u8], random: &mut Random) -> Vec<u8> {
    let places: Vec<_> = (0..frame.len())
        .filter(|&place| matches!(frame[place], END | ESC))
        .collect();
    if places.is_empty() {
        return escape(frame);
    }
    let place = random.pick(&places);
    let mut body = escape(&frame[..place]);
    body.push(frame[place]);
    body.extend(escape(&frame[place + 1..]));
    body
}

/// A wrong frame between good ones.
pub fn wrong_capture(index: usize, random: &mut Random) -> Vec<u8> {
    let wrong = wrong_frame(index % WRONG_COUNT, random);
    between_good(escape(&wrong), random)
}

fn wrong_frame(way: usize, random: &mut Random) -> Vec<u8> {
    let length = data_length(random);
    let mut frame = frame_of(length, random);
    let other = random.between(1, 255) as u8;
    let last = frame.len() - 1;
    match way {
        0 => frame[0] ^= other,
        1 => frame[1] ^= other,
        2 => frame[last] ^= other,
        3 => frame[random.below(last)] ^= other,
        4 => return several_wrong(frame, random),
        5 => frame.truncate(random.between(1, 4)),
        6 => frame[1] = (escape(&frame).len() as u8).wrapping_sub(2),
        7 => frame.insert(random.below(last), other),
        _ => {
            frame.remove(random.below(last));
        }
    }
    if way != 2 && random.once_in(2) {
        mend_check(&mut frame);
    }
    frame
}

/// Any of protocol, length, check byte and size may be wrong at once.
fn several_wrong(mut frame: Vec<u8>, random: &mut Random) -> Vec<u8> {
    let last = frame.len() - 1;
    for place in [0, 1, last] {
        if random.once_in(2) {
            frame[place] = rich_byte(random);
        }
    }
    if random.once_in(3) {
        frame.truncate(random.between(1, last));
    }
    frame
}

fn between_good(body: Vec<u8>, random: &mut Random) -> Vec<u8> {
    let bodies = [neighbour(random), body, neighbour(random)];
    let ends = ends(random);
    join(&bodies, ends, random)
}

#[cfg(test)]
mod tests {
    use super::*;

    #[test]
    fn special_frames_have_the_bytes_asked_for() {
        let random = &mut Random::new(&[1]);
        for length in LENGTHS {
            for check in CHECKS {
                let frame = special_frame(length, check, random);
                assert!(length.is_none_or(|length| frame[1] == length));
                assert!(check.is_none_or(|check| frame.ends_with(&[check])));
            }
        }
    }
}
