//! Where packets break: both readers held to CR 2's rules, to one another and
//! to what stands at the places that they tell.

use std::collections::HashSet;

use bench::generate::damage::{damaged, other_value, Damage};
use bench::generate::frames::rich_byte;
use bench::generate::{self, Kind};
use bench::outcome::{
    Broken, DecodedPlace, Outcome, Refusal, WirePlace, END, ESC, ESC_END, ESC_ESC, FRAME_LEAST,
    PACKET_MOST,
};
use bench::paper;
use bench::plain::{Mode, Reader};
use bench::random::Random;
use bench::sender::{self, escape, mend_check};
use Refusal::{Check, Longer, Protocol, Short, Shorter, TooLong, WrongEscape};

/// C0 and DB on the wire.
const C: [u8; 2] = [ESC, ESC_END];
const D: [u8; 2] = [ESC, ESC_ESC];

/// Pieces up to this length are cut at every place.
const FEW: usize = 12;

/// How many of 255 bytes are escaped: none, some and all.
const ESCAPED: [usize; 7] = [0, 1, 2, 100, 253, 254, 255];

fn at(refusal: Refusal, wire: usize, decoded: usize) -> Broken {
    Broken {
        refusal,
        wire: WirePlace(wire),
        decoded: DecodedPlace(decoded),
    }
}

/// Whether some bytes leave a record that skips with this fault and these
/// places.
///
/// So many decoded bytes came as one or two wire bytes each. A wrong escape
/// has its ESC behind them; of the packet that is too long, 255 were held.
fn is_possible(number: u8, wire: usize, decoded: usize) -> bool {
    match number {
        1 => decoded <= 255 && (decoded + 1..=2 * decoded + 1).contains(&wire),
        2 => decoded == 255 && (255..=510).contains(&wire),
        _ => false,
    }
}

/// The outcomes of some bytes, one byte at a time. What a record holds while
/// it skips is possible.
fn feed(reader: &mut Reader, bytes: &[u8]) -> Vec<Outcome> {
    let mut told = Vec::new();
    for &byte in bytes {
        told.extend(reader.push(byte));
        if let Mode::Skipping(broken) = reader.mode() {
            let number = broken.refusal as u8;
            assert!(is_possible(number, broken.wire.0, broken.decoded.0));
            assert_eq!(reader.held(), []);
        }
    }
    told
}

/// The outcomes of a capture by the plain reader.
fn read(capture: &[u8]) -> Vec<Outcome> {
    feed(&mut Reader::new(), capture)
}

/// The one outcome of a piece, on which both readers agree. What stands at its
/// places is looked at, and short pieces are cut.
fn check(piece: &[u8]) -> Outcome {
    let wire = [piece, &[END]].concat();
    let told = paper::read(&wire).outcomes;
    assert_eq!(told.len(), 1, "{piece:02X?}");
    let mut reader = Reader::new();
    assert_eq!(feed(&mut reader, &wire), told, "{piece:02X?}");
    assert!(reader.is_between_packets());
    if let Outcome::Refused(broken) = told[0] {
        check_places(piece, broken);
    }
    if piece.len() <= FEW {
        check_cuts(piece, told[0]);
    }
    told[0]
}

/// The decoded place is the wire place without the ESCs before it, and only a
/// wrong escape is told behind its ESC.
fn check_places(piece: &[u8], broken: Broken) {
    let (wire, decoded) = (broken.wire.0, broken.decoded.0);
    let before = &piece[..wire];
    let escapes = before.iter().filter(|&&byte| byte == ESC).count();
    assert_eq!(decoded, before.len() - escapes, "{piece:02X?}");
    let behind_esc = before.ends_with(&[ESC]);
    assert_eq!(behind_esc, broken.refusal == WrongEscape, "{piece:02X?}");
    let mut reader = Reader::new();
    feed(&mut reader, piece);
    let packet = reader.held();
    let claimed = || usize::from(packet[1]) + 2;
    let right = match broken.refusal {
        WrongEscape => !matches!(piece.get(wire), Some(&(ESC_END | ESC_ESC))),
        TooLong => decoded == 255 && wire < piece.len(),
        Short => decoded == packet.len() && decoded < 5 && wire == piece.len(),
        Protocol => decoded == 0 && packet[0] != 0,
        Shorter => decoded == packet.len() && decoded < claimed() && wire == piece.len(),
        Longer => decoded == claimed() && wire < piece.len(),
        Check => decoded + 1 == claimed() && decoded + 1 == packet.len() && wire < piece.len(),
    };
    assert!(right, "{piece:02X?}");
}

/// Behind each cut the number of wire bytes follows from the record, a record
/// that skips has the places told, and the rest gives the same.
fn check_cuts(piece: &[u8], told: Outcome) {
    for cut in 0..=piece.len() {
        let (first, rest) = piece.split_at(cut);
        let mut reader = Reader::new();
        assert_eq!(feed(&mut reader, first), []);
        let wire = escape(reader.held()).len();
        match reader.mode() {
            Mode::Taking => assert_eq!(wire, cut, "{piece:02X?}"),
            Mode::Escaped => assert_eq!(wire + 1, cut, "{piece:02X?}"),
            Mode::Skipping(broken) => assert_eq!(Outcome::Refused(broken), told, "{piece:02X?}"),
        }
        let rest = [rest, &[END]].concat();
        assert_eq!(feed(&mut reader, &rest), [told], "{piece:02X?} {cut}");
    }
}

/// A piece of these parts has this refusal at these places.
fn breaks(parts: &[&[u8]], refusal: Refusal, wire: usize, decoded: usize) {
    let piece = parts.concat();
    let broken = at(refusal, wire, decoded);
    assert_eq!(check(&piece), Outcome::Refused(broken), "{piece:02X?}");
}

/// So many decoded bytes on the wire, the first few of them escaped.
fn body(count: usize, escaped: usize) -> Vec<u8> {
    [C.repeat(escaped), vec![1; count - escaped]].concat()
}

#[test]
fn a_wrong_escape_is_told_at_the_byte_after_its_esc() {
    breaks(&[&[ESC, 7]], WrongEscape, 1, 0);
    breaks(&[&[5, ESC, 7]], WrongEscape, 2, 1);
    breaks(&[&C, &[ESC, 7]], WrongEscape, 3, 1);
    breaks(&[&[5], &D, &C, &[ESC, 7]], WrongEscape, 6, 3);
    breaks(&[&[5, ESC, ESC]], WrongEscape, 2, 1);
    breaks(&[&[5, ESC], &C], WrongEscape, 2, 1);
    breaks(&[&[5, ESC, 7], &D], WrongEscape, 2, 1);
    breaks(&[&C, &[ESC, ESC], &C, &[ESC, 7]], WrongEscape, 3, 1);
    breaks(&[&[ESC, 7], &[1; 300]], WrongEscape, 1, 0);
}

#[test]
fn esc_then_end_is_told_at_the_end() {
    breaks(&[&[ESC]], WrongEscape, 1, 0);
    breaks(&[&[5, ESC]], WrongEscape, 2, 1);
    breaks(&[&C, &[ESC]], WrongEscape, 3, 1);
    breaks(&[&[5, ESC_END], &D, &[ESC]], WrongEscape, 5, 3);
}

#[test]
fn too_few_bytes_are_told_at_the_end() {
    breaks(&[&[7]], Short, 1, 1);
    breaks(&[&C], Short, 2, 1);
    breaks(&[&[0, 3, 0]], Short, 3, 3);
    breaks(&[&C, &[3, 0]], Short, 4, 3);
    breaks(&[&[0, 3], &D], Short, 4, 3);
    breaks(&[&C, &D, &C, &D], Short, 8, 4);
    breaks(&[&[ESC_END, ESC_ESC]], Short, 2, 2);
}

#[test]
fn a_wrong_protocol_is_told_at_0_0() {
    breaks(&[&[1, 3, 0, 1, 3]], Protocol, 0, 0);
    breaks(&[&C, &[3, 0, 1, 3]], Protocol, 0, 0);
    breaks(&[&D, &C, &C, &C, &C, &C], Protocol, 0, 0);
    breaks(&[&[1], &C, &D, &[1, 3]], Protocol, 0, 0);
}

#[test]
fn a_shorter_frame_is_told_at_the_end() {
    breaks(&[&[0, 4, 0, 1, 5]], Shorter, 5, 5);
    breaks(&[&[0, 4], &C, &[1, 5]], Shorter, 6, 5);
    breaks(&[&[0, 4, 0, 1], &D], Shorter, 6, 5);
    breaks(&[&[0, 255], &C, &C, &C], Shorter, 8, 5);
    breaks(&[&[0], &C, &[0, 1, 5]], Shorter, 6, 5);
    breaks(&[&[0], &C, &body(191, 0)], Shorter, 194, 193);
    breaks(&[&[0], &C, &body(191, 191)], Shorter, 385, 193);
}

#[test]
fn a_longer_frame_is_told_at_the_first_byte_too_many() {
    breaks(&[&[0, 3, 0, 1, 2, 9]], Longer, 5, 5);
    breaks(&[&[0, 3], &C, &[1, 2, 9]], Longer, 6, 5);
    breaks(&[&[0, 3, 0, 1, 2], &C], Longer, 5, 5);
    breaks(&[&[0, 3, 0, 1, 2, 9], &D, &C], Longer, 5, 5);
    breaks(&[&[0, 3], &C, &D, &C, &D, &C], Longer, 8, 5);
    breaks(&[&[0], &C, &body(193, 0)], Longer, 195, 194);
    breaks(&[&[0], &C, &body(193, 193)], Longer, 387, 194);
}

#[test]
fn a_wrong_check_byte_is_told_at_itself() {
    breaks(&[&[0, 3, 0, 1, 3]], Check, 4, 4);
    breaks(&[&[0, 3], &C, &[1, 3]], Check, 5, 4);
    breaks(&[&[0, 3, 0, 1], &C], Check, 4, 4);
    breaks(&[&[0, 3], &C, &D, &D], Check, 6, 4);
    breaks(&[&[0, 5, 2, 6], &C, &[0, 0xC2]], Check, 7, 6);
    breaks(&[&[0], &C, &body(192, 0)], Check, 194, 193);
    breaks(&[&[0], &C, &body(192, 192)], Check, 385, 193);
}

/// Both lengths are judged behind the protocol byte and before the check byte.
#[test]
fn lengths_are_judged_in_their_place() {
    breaks(&[&[0, 0, 0, 1]], Short, 4, 4);
    breaks(&[&[1, 0, 0, 1, 1]], Protocol, 0, 0);
    breaks(&[&[1, 9, 0, 1, 1]], Protocol, 0, 0);
    for check in [2, 3] {
        breaks(&[&[0, 4, 0, 1, check]], Shorter, 5, 5);
        breaks(&[&[0, 2, 0, 1, check]], Longer, 4, 4);
    }
}

#[test]
fn lengths_that_no_frame_has() {
    for length in [0, 1, 2] {
        let place = usize::from(length) + 2;
        breaks(&[&[0, length, 1, 1, 1]], Longer, place, place);
        breaks(&[&[0, length], &C, &C, &C], Longer, 2 * place - 2, place);
    }
    breaks(&[&[0, 0], &C, &[1, 1]], Longer, 2, 2);
    breaks(&[&[0, 1, 1], &C, &[1]], Longer, 3, 3);
    breaks(&[&[0, 1], &C, &[1, 1]], Longer, 4, 3);
    breaks(&[&[0, 2, 1, 1], &D], Longer, 4, 4);
    for length in [254, 255] {
        breaks(&[&[0, length], &body(253, 0)], Shorter, 255, 255);
        breaks(&[&[0, length], &body(253, 253)], Shorter, 508, 255);
        breaks(&[&[0, length], &body(254, 0)], TooLong, 255, 255);
    }
}

/// Too small and too large by one among them.
#[test]
fn every_length_byte_with_every_length() {
    for count in FRAME_LEAST..=PACKET_MOST {
        for length in 0..=255 {
            let mut packet = vec![0xC1; count];
            (packet[0], packet[1]) = (0, length);
            mend_check(&mut packet);
            let piece = escape(&packet);
            let more = usize::from(matches!(length, END | ESC));
            let expected = match usize::from(length) + 2 {
                claimed if claimed > count => at(Shorter, piece.len(), count),
                claimed if claimed < count => at(Longer, claimed + more, claimed),
                _ => {
                    assert!(matches!(check(&piece), Outcome::Frame { .. }));
                    continue;
                }
            };
            let expected = Outcome::Refused(expected);
            assert_eq!(check(&piece), expected, "{length} {count}");
        }
    }
}

#[test]
fn byte_255_is_judged() {
    for escaped in [0, 1, 100, 251, 252] {
        let inner = [vec![END; escaped], vec![1; 252 - escaped]].concat();
        let right = sender::frame(u16::from_be_bytes([inner[0], inner[1]]), &inner[2..]);
        assert_eq!(right.len(), 255);
        assert!(matches!(check(&escape(&right)), Outcome::Frame { .. }));
        for wrong in [right[254] ^ 1, END, ESC] {
            let piece = |length| {
                let packet = [&[0, length], &inner[..], &[wrong]].concat();
                escape(&packet)
            };
            breaks(&[&piece(253)], Check, 254 + escaped, 254);
            breaks(&[&piece(252)], Longer, 254 + escaped, 254);
            let end = 254 + escaped + escape(&[wrong]).len();
            breaks(&[&piece(254)], Shorter, end, 255);
        }
    }
    for escaped in ESCAPED {
        breaks(&[&body(255, escaped)], Protocol, 0, 0);
    }
}

#[test]
fn byte_256_is_refused_at_itself() {
    let tails: [&[u8]; 7] = [
        &[1],
        &C,
        &D,
        &[1, ESC],
        &[1, ESC, 7],
        &[ESC, ESC_END, ESC, ESC],
        &[ESC_END; 300],
    ];
    for escaped in ESCAPED {
        for tail in tails {
            breaks(&[&body(255, escaped), tail], TooLong, 255 + escaped, 255);
        }
    }
    breaks(&[&[1; 256]], TooLong, 255, 255);
    breaks(&[&C.repeat(256)], TooLong, 510, 255);
}

#[test]
fn a_wrong_escape_behind_255_bytes() {
    let tails: [&[u8]; 4] = [&[ESC], &[ESC, 7], &[ESC, ESC], &[ESC, 7, 1, ESC, ESC_END]];
    for escaped in ESCAPED {
        for tail in tails {
            breaks(
                &[&body(255, escaped), tail],
                WrongEscape,
                256 + escaped,
                255,
            );
        }
    }
    breaks(&[&D.repeat(255), &[ESC]], WrongEscape, 511, 255);
}

/// The places count from the last END, not from the start of a part.
#[test]
fn a_fault_in_the_part_behind_a_cut() {
    let cases: [(&[&[u8]], Broken); 10] = [
        (&[&[END, 5, ESC], &[7, END]], at(WrongEscape, 2, 1)),
        (&[&[END, 5, ESC], &[END]], at(WrongEscape, 2, 1)),
        (&[&[5, ESC], &[ESC], &[ESC_END, END]], at(WrongEscape, 2, 1)),
        (
            &[&[5, ESC], &[ESC_END, ESC], &[7], &[END]],
            at(WrongEscape, 4, 2),
        ),
        (&[&[1; 255], &[1], &[1], &[END]], at(TooLong, 255, 255)),
        (&[&[1; 255], &[ESC], &[ESC_ESC, END]], at(TooLong, 255, 255)),
        (
            &[&[1; 255], &[ESC], &[7], &[END]],
            at(WrongEscape, 256, 255),
        ),
        (&[&[1; 255], &[ESC], &[END]], at(WrongEscape, 256, 255)),
        (
            &[&[0, 3, ESC], &[ESC_END, 1], &[3], &[END]],
            at(Check, 5, 4),
        ),
        (&[&[0, 2, 0, 1, ESC], &[ESC_END, END]], at(Longer, 4, 4)),
    ];
    for before in [&[][..], &[END], &[1, 2, 3, END], &[ESC, 7, END]] {
        for (parts, broken) in cases {
            let mut reader = Reader::new();
            feed(&mut reader, before);
            let told = parts.iter().flat_map(|part| feed(&mut reader, part));
            let told: Vec<_> = told.collect();
            assert_eq!(told, [Outcome::Refused(broken)], "{parts:02X?}");
        }
    }
}

#[test]
fn all_short_pieces() {
    let bytes = [0, 1, 3, ESC, ESC_END, ESC_ESC];
    for length in 1..=6 {
        for number in 0..bytes.len().pow(length) {
            let digit = |place| number / bytes.len().pow(place) % bytes.len();
            let piece: Vec<_> = (0..length).map(|place| bytes[digit(place)]).collect();
            check(&piece);
        }
    }
}

/// A packet that is nearly a frame, escaped and perhaps damaged.
fn drawn(random: &mut Random) -> Vec<u8> {
    let (least, greatest) = match random.below(8) {
        0 => (250, 258),
        1 => (190, 225),
        2 | 3 => (5, 40),
        _ => (1, 12),
    };
    let count = random.between(least, greatest);
    let special = random.pick(&[1, 4, 1000]);
    let mut packet: Vec<u8> = (0..count)
        .map(|_| match random.once_in(special) {
            true => rich_byte(random),
            false => random.byte(),
        })
        .collect();
    if !random.once_in(8) {
        packet[0] = 0;
    }
    if count > 1 && !random.once_in(8) {
        let near = random.pick(&[2, 2, 2, 0, 1, 3, 4]);
        packet[1] = (count - near) as u8;
    }
    if !random.once_in(3) {
        mend_check(&mut packet);
    }
    let piece = escape(&packet);
    if piece.len() == 1 || random.once_in(2) {
        return piece;
    }
    let way = random.pick(&[Damage::Replaced, Damage::Inserted, Damage::Lost]);
    let place = random.below(piece.len());
    let value = other_value(Some(piece[place]), random);
    damaged(way, &piece, place, value)
}

#[test]
fn drawn_pieces() {
    let random = &mut Random::new(&[18]);
    let mut reached = [0; 16];
    for _ in 0..200_000 {
        let number = match check(&drawn(random)) {
            Outcome::Frame { .. } => 0,
            Outcome::Refused(broken) => broken.refusal as usize,
        };
        reached[number] += 1;
    }
    for number in [0, 1, 2, 3, 4, 5, 6, 15] {
        assert!(reached[number] > 4_000, "{reached:?}");
    }
}

#[test]
fn captures_break_as_their_pieces() {
    for kind in Kind::ALL {
        for index in 0..200 {
            let capture = generate::capture(kind, 18, index);
            let pieces = paper::closed_pieces(&capture).into_iter();
            let each: Vec<_> = pieces.map(|piece| check(&capture[piece])).collect();
            assert_eq!(read(&capture), each, "{} {index}", kind.name());
        }
    }
}

/// What a record holds that skips behind these bytes.
fn skipping(bytes: &[u8]) -> (u8, usize, usize) {
    let mut reader = Reader::new();
    assert_eq!(feed(&mut reader, bytes), []);
    match reader.mode() {
        Mode::Skipping(broken) => (broken.refusal as u8, broken.wire.0, broken.decoded.0),
        mode => panic!("{mode:?}"),
    }
}

/// Each bound: an example that meets it, and the record one beyond.
#[test]
fn bounds_of_a_record_that_skips() {
    let wrong = |count, escaped| [&body(count, escaped)[..], &[ESC, 7]].concat();
    let long = |escaped| [&body(255, escaped)[..], &[1]].concat();
    let bounds = [
        (wrong(0, 0), (1, 1, 0), (1, 0, 0)),
        (wrong(0, 0), (1, 1, 0), (1, 2, 0)),
        (wrong(1, 0), (1, 2, 1), (1, 1, 1)),
        (wrong(1, 1), (1, 3, 1), (1, 4, 1)),
        (wrong(100, 0), (1, 101, 100), (1, 100, 100)),
        (wrong(100, 100), (1, 201, 100), (1, 202, 100)),
        (wrong(255, 0), (1, 256, 255), (1, 255, 255)),
        (wrong(255, 255), (1, 511, 255), (1, 512, 255)),
        (wrong(255, 100), (1, 356, 255), (1, 356, 256)),
        (long(0), (2, 255, 255), (2, 254, 255)),
        (long(255), (2, 510, 255), (2, 511, 255)),
        (long(100), (2, 355, 255), (2, 355, 254)),
        (long(100), (2, 355, 255), (2, 355, 256)),
    ];
    for (bytes, met, beyond) in bounds {
        assert_eq!(skipping(&bytes), met);
        assert!(is_possible(met.0, met.1, met.2), "{met:?}");
        assert!(!is_possible(beyond.0, beyond.1, beyond.2), "{beyond:?}");
    }
}

/// Every record that skips and is possible is left by some bytes.
#[test]
fn all_that_is_possible_is_reached() {
    let mut reached = HashSet::new();
    for escaped in 0..=255 {
        reached.insert(skipping(&[&body(255, escaped)[..], &[1]].concat()));
        for count in escaped..=255 {
            reached.insert(skipping(&[&body(count, escaped)[..], &[ESC, 7]].concat()));
        }
    }
    let mut count = 0;
    for number in 0..=20 {
        for wire in 0..=600 {
            let places = (0..=300).filter(|&decoded| is_possible(number, wire, decoded));
            for decoded in places {
                assert!(reached.contains(&(number, wire, decoded)));
                count += 1;
            }
        }
    }
    assert_eq!(count, reached.len());
}
