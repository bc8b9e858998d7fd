//! Rooms: refusal 9 exactly where the reply is longer than the room.

use super::*;
use crate::outcome::ESC;

/// Rooms to try with a reply of this length: around it, and some fixed ones.
fn rooms(reply: usize) -> Vec<usize> {
    let mut rooms = vec![0, 1, 6, 7, 8, 9, 10, 300, 511, 512, 8192];
    rooms.extend([reply.saturating_sub(1), reply, reply + 1]);
    rooms
}

/// Feeds the bytes with each room, always on the same hub. A room that is too
/// short is refused and leaves every byte as it was; then the same bytes with
/// a room that fits exactly are served as if nothing had been. Tells the
/// reply.
fn try_rooms(before: &Whole, line: u8, bytes: &[u8]) -> Vec<u8> {
    let mut enough = before.clone();
    let told = enough.feed(line, bytes);
    let reply = told.2.len();
    for room in rooms(reply) {
        let mut whole = before.clone();
        let mut got = whole.feed_lent(line, bytes, room);
        if room < reply {
            assert_eq!(got, Err(9), "room {room}");
            assert!(whole.same_bytes(before), "room {room}");
            got = whole.feed_lent(line, bytes, reply);
        }
        assert_eq!(got.as_ref(), Ok(&told), "room {room}");
        assert!(whole.same_bytes(&enough), "room {room}");
    }
    told.2
}

/// The same for a frame that comes at once, cut anywhere, or with bytes
/// before and behind it. The reply is this one.
fn try_frame(before: &Whole, line: u8, frame: &[u8], expected: &[u8]) {
    assert_eq!(try_rooms(before, line, frame), expected);
    for cut in [1, 2, frame.len() / 2, frame.len() - 1] {
        let mut whole = before.clone();
        let (first, rest) = frame.split_at(cut);
        let nothing = (cut, None, Vec::new());
        assert_eq!(whole.feed_lent(line, first, 0), Ok(nothing));
        assert_eq!(try_rooms(&whole, line, rest), expected);
    }
    let more = [&[END, END][..], frame, &[END, 0, 3, 0, 1, 2, END]].concat();
    assert_eq!(try_rooms(before, line, &more), expected);
}

fn try_request(before: &Whole, line: u8, request: (u16, &[u8]), reply: (u16, &[u8])) {
    let expected = wire(reply.0, reply.1);
    try_frame(before, line, &wire(request.0, request.1), &expected);
}

/// Nodes 0 to 29 and 190 to 199 in use, lines 0 and 1 logged in, four
/// sessions open.
fn prepared() -> Whole {
    let mut whole = Whole::ready();
    for node in 190..199 {
        whole.hub.enrol(node, 0xC0DB, &mut whole.table).unwrap();
    }
    for (number, node) in [(0x0102, 1), (0xC0DB, 2), (0xC0C0, 3), (0xDB24, 4)] {
        assert_eq!(whole.mode_send((number % 2) as u8, number, &[node]), 0);
    }
    whole
}

#[test]
fn errors() {
    let whole = prepared();
    try_frame(&whole, 2, ROWS[10].wire, &error(2));
    try_frame(&whole, 0, &wire(0x0005, &[]), &error(1));
    try_frame(&whole, 0, &wire(0x0200, &[]), &error(2));
    try_frame(&whole, 2, &wire(0x0200, &[1]), &error(12));
    try_frame(&whole, 0, &wire(0x0201, &[1, 1]), &error(1));
    try_frame(&whole, 0, &wire(0x0322, &[END; 250]), &error(1));
    for row in ROWS.iter().filter(|row| row.told.starts_with("refused")) {
        assert_eq!(try_rooms(&whole, 3, row.wire), error(2), "{}", row.name);
    }
    assert_eq!(error(12).len(), 8);
}

#[test]
fn passwords() {
    let whole = prepared();
    let mut other = PASSWORD;
    other[2] = END;
    let mut stale = PASSWORD;
    stale[31] = END;
    try_request(&whole, 2, (0x3000, &PASSWORD), (0x3001, &[0]));
    try_request(&whole, 0, (0x3000, &PASSWORD), (0x3001, &[0]));
    try_request(&whole, 2, (0x3000, &stale), (0x3001, &[0]));
    try_request(&whole, 2, (0x3000, &other), (0x3001, &[1]));
    try_request(&whole, 0, (0x3000, &other), (0x3001, &[1]));
    let change = |old: [u8; 32], new| [old, new].concat();
    try_request(
        &whole,
        0,
        (0x3002, &change(PASSWORD, other)),
        (0x3003, &[0]),
    );
    try_request(
        &whole,
        0,
        (0x3002, &change(PASSWORD, PASSWORD)),
        (0x3003, &[0]),
    );
    try_request(&whole, 0, (0x3002, &change(stale, stale)), (0x3003, &[0]));
    try_request(
        &whole,
        0,
        (0x3002, &change(other, PASSWORD)),
        (0x3003, &[1]),
    );
}

/// All nodes, so that the node and the check byte come to END and ESC too.
#[test]
fn node_fields() {
    let whole = prepared();
    let mut escapes = [0; 4];
    for node in 0..=255 {
        let status = if nodes::in_use(&whole.table, node) {
            0
        } else {
            2
        };
        for (variation, wrong) in [(4, status), (5, status.max(1))] {
            let reply = wire(0x0207, &[wrong, node]);
            assert_eq!(
                try_rooms(&whole, 0, &wire(0x0206, &[node, variation])),
                reply
            );
            escapes[reply.len() - 9] += 1;
        }
        let name = [&[node][..], &[END; 64]].concat();
        let reply = wire(0x0209, &[status, node]);
        assert_eq!(try_rooms(&whole, 0, &wire(0x0208, &name)), reply);
        let reply = wire(0x020E, &[status, node]);
        let order = [node, END, ESC, END];
        assert_eq!(try_rooms(&whole, 0, &wire(0x020D, &order)), reply);
    }
    // Node C0 with status 0 has the check byte C0.
    assert!(escapes[0] > 0 && escapes[1] > 0 && escapes[2] > 0 && escapes[3] == 0);
    try_request(&whole, 0, (0x0206, &[0xC0, 1]), (0x0207, &[0, 0xC0]));
    try_request(&whole, 0, (0x0206, &[0xDB, 1]), (0x0207, &[2, 0xDB]));
    try_request(&whole, 0, (0x0206, &[0xC1, 9]), (0x0207, &[1, 0xC1]));
}

/// Both frames of get node information or none of them.
#[test]
fn get_node_information() {
    let mut whole = prepared();
    for node in [0, 191, 0xC0, 0xC6] {
        let name = [&[node][..], &[END; 60], &[ESC; 4]].concat();
        whole.ask(0, 0x0208, &name);
    }
    whole.ask(0, 0x020D, &[0xC0, END, ESC, END]);
    for node in 0..=255 {
        let reply = try_rooms(&whole, 0, &wire(0x0200, &[node]));
        let used = nodes::in_use(&whole.table, node);
        let confirm = wire(0x0201, &[if used { 0 } else { 2 }, node]);
        assert!(reply.starts_with(&confirm));
        assert_eq!(used, reply.len() > confirm.len());
        for room in confirm.len()..reply.len() {
            let mut other = whole.clone();
            let told = other.feed_lent(0, &wire(0x0200, &[node]), room);
            assert_eq!(told, Err(9));
            assert!(other.same_bytes(&whole));
        }
    }
    let both = whole.ask(0, 0x0200, &[0xC0]);
    try_frame(&whole, 0, &wire(0x0200, &[0xC0]), &both);
}

/// Get node information has the longest reply. Its frames have 9 and 131
/// bytes; escaped may be the node twice, order, placement, name, type and the
/// notice's check byte, but not all of these at once: that leaves 211. A table
/// with another variation than 0 to 4 in it, which no calls make, gives 212.
#[test]
fn the_longest_reply() {
    let mut whole = Whole::ready();
    let mut longest = 0;
    for node in [0xC0, 0xC6, 0] {
        if !nodes::in_use(&whole.table, node) {
            whole.hub.enrol(node, 0xC0C0, &mut whole.table).unwrap();
        }
        for last in [END, ESC] {
            let name = [&[node][..], &[END; 63], &[last]].concat();
            whole.ask(0, 0x0208, &name);
            whole.ask(0, 0x020D, &[node, END, END, END]);
            for variation in 0..5 {
                whole.ask(0, 0x0206, &[node, variation]);
                longest = longest.max(try_rooms(&whole, 0, &wire(0x0200, &[node])).len());
            }
        }
    }
    assert_eq!(longest, 211);
    let name = [&[0xC0][..], &[END; 64]].concat();
    whole.ask(0, 0x0208, &name);
    nodes::record_mut(&mut whole.table, 0xC0)[VARIATION] = END;
    let get = wire(0x0200, &[0xC0]);
    assert_eq!(try_rooms(&whole, 0, &get).len(), 212);
    for (room, told) in [(210, Err(9)), (211, Err(9)), (212, Ok(()))] {
        assert_eq!(whole.feed_lent(0, &get, room).map(|_| ()), told);
    }
}

#[test]
fn remove_and_virgin_state() {
    let mut whole = prepared();
    let mut one = [0; 26];
    one[0] = 0b10;
    try_request(&whole, 0, (0x0106, &[0; 26]), (0x0107, &[0]));
    try_request(&whole, 0, (0x0106, &one), (0x0107, &[0]));
    try_request(&whole, 1, (0x0106, &[0xFF; 26]), (0x0107, &[0]));
    // The shortest reply.
    assert_eq!(wire(0x0109, &[]).len(), 7);
    try_request(&whole, 0, (0x0108, &[]), (0x0109, &[]));
    whole.ask(0, 0x0108, &[]);
    try_request(&whole, 1, (0x0108, &[]), (0x0109, &[]));
}

/// Sessions whose bytes and check byte come to END, ESC or neither, with each
/// status.
#[test]
fn mode_sends() {
    let open = prepared();
    let mut full = prepared();
    for number in 0..4 {
        full.mode_send(0, number, &[20 + number as u8]);
    }
    let bytes = [0, 1, 0x24, 0x25, 0xC0, 0xDB, 0xDC, 0xE4, 0xE5, 0xFF];
    let mut escapes = [0; 4];
    for session in bytes.map(|high| bytes.map(|low| [high, low])).concat() {
        let number = u16::from_be_bytes(session);
        let taken = open.hub.sessions.slot_of(number).is_some();
        let also = full.hub.sessions.slot_of(number).is_some();
        let tries = [
            (&open, [10, 11], if taken { 3 } else { 0 }),
            (&open, [10, 2], if taken { 3 } else { 1 }),
            (&open, [10, 100], 5),
            (&full, [10, 11], if also { 3 } else { 4 }),
        ];
        for (whole, nodes, status) in tries {
            let request = wire(0x0320, &mode_send(number, &nodes));
            let reply = wire(0x0321, &[session[0], session[1], status]);
            assert_eq!(try_rooms(whole, 1, &request), reply);
            escapes[reply.len() - 10] += 1;
        }
    }
    assert!(escapes[..3].iter().all(|&count| count > 0) && escapes[3] == 0);
    let request = wire(0x0320, &mode_send(0xC024, &[10]));
    let reply = [END, 0, 6, 3, 0x21, ESC, 0xDC, 0x24, 0, ESC, 0xDC, END];
    try_frame(&open, 0, &request, &reply);
}

/// A part of a packet, ENDs alone and no bytes are never refused.
#[test]
fn nothing_to_write_needs_no_room() {
    let long = [7; 300];
    let parts: [&[u8]; 9] = [
        &[],
        &[END],
        &[END; 9],
        &[1],
        &[END, 0, 3, 0],
        &[END, 0, ESC],
        &[ESC, 0, 1],
        &long[..255],
        &long,
    ];
    for before in parts {
        for part in parts {
            let ends = !before.is_empty() && before[before.len() - 1] != END;
            let mut whole = prepared();
            let told = whole.feed_lent(2, before, 0);
            assert_eq!(told, Ok((before.len(), None, Vec::new())));
            let mut enough = whole.clone();
            if ends && part.starts_with(&[END]) {
                assert_eq!(try_rooms(&whole, 2, part), error(2));
                continue;
            }
            let expected = enough.feed(2, part);
            assert_eq!(expected, (part.len(), None, Vec::new()));
            assert_eq!(try_rooms(&whole, 2, part), []);
        }
    }
}

/// A refused feed leaves the record in the state in which it was.
#[test]
fn reading_states_stay() {
    let states: [&[u8]; 5] = [&[1, 2], &[ESC], &[3, ESC], &[ESC, 0], &[1; 256]];
    for state in states {
        let mut whole = prepared();
        whole.feed(2, state);
        let before = whole.clone();
        for bytes in [&[END][..], &[5, END], &[ESC, 0xDC, END, 4], &[0; 300]] {
            if let Err(refusal) = whole.feed_lent(2, bytes, 7) {
                assert_eq!(refusal, 9);
                assert!(whole.same_bytes(&before));
            } else {
                assert!(!bytes.contains(&END));
            }
            whole = before.clone();
            try_rooms(&whole, 2, bytes);
        }
    }
}

/// A feed that is refused again and again leaves no trace, and a shorter part
/// of the same bytes is taken meanwhile.
#[test]
fn refused_again_and_again() {
    let mut whole = prepared();
    let mut enough = whole.clone();
    let frame = wire(0x0208, &[&[5][..], b"East vent", &[0; 55]].concat());
    let expected = enough.feed(0, &frame);
    for room in (0..9).rev().chain(0..9) {
        assert_eq!(whole.feed_lent(0, &frame, room), Err(9));
    }
    for byte in &frame[..frame.len() - 1] {
        assert_eq!(whole.feed_lent(0, &[*byte], 0), Ok((1, None, Vec::new())));
        // An END behind the first one closes nothing.
        let told = if *byte == END {
            Ok((1, None, Vec::new()))
        } else {
            Err(9)
        };
        assert_eq!(whole.feed_lent(0, &[END], 7), told);
    }
    let (_, outcome, reply) = whole.feed_lent(0, &[END, 1], 9).unwrap();
    assert_eq!((outcome, reply), (expected.1, expected.2));
    assert!(whole.same_as(&enough));
}

/// Lists of feeds on all lines, one of them with rooms that are often too
/// short: without the refused feeds, all others are answered the same, and
/// the end is the same.
#[test]
fn others_see_nothing_of_a_refused_feed() {
    let random = &mut Random::new(&[21]);
    let mut refused = 0;
    for _ in 0..300 {
        let (mut with, mut without) = (prepared(), prepared());
        let short = random.below(LINES) as u8;
        for _ in 0..60 {
            let line = random.below(LINES) as u8;
            let bytes = any_request(random);
            let bytes = &bytes[..random.pick(&[bytes.len(), bytes.len(), bytes.len() / 2])];
            let room = if line == short {
                random.pick(&[0, 6, 7, 8, 9, 10, 140, 300])
            } else {
                300
            };
            match with.feed_lent(line, bytes, room) {
                Err(refusal) => {
                    assert_eq!((refusal, line), (9, short));
                    refused += 1;
                }
                told => assert_eq!(told, without.feed_lent(line, bytes, 300)),
            }
            assert!(with.same_bytes(&without));
        }
    }
    assert!(refused > 1000);
}

fn any_request(random: &mut Random) -> Vec<u8> {
    let node = random.pick(&[0, 1, 5, 0xC0, 0xC6, 199, 250]);
    let session = random.pick(&[0x0102, 0xC0DB, 7, 8]);
    match random.below(8) {
        0 => wire(0x3000, &PASSWORD),
        1 => wire(0x0200, &[node]),
        2 => wire(0x0206, &[node, 3]),
        3 => wire(0x020D, &[node, random.byte(), 0, END]),
        4 => wire(0x0320, &mode_send(session, &[node])),
        5 => wire(0x0005, &[]),
        6 => ROWS[random.below(ROWS.len())].wire.to_vec(),
        _ => wire(0x3002, &[PASSWORD, PASSWORD].concat()),
    }
}

/// All sessions: the frame has 9 bytes and one more for each escape. One that
/// is not open is refused 13 with every room.
#[test]
fn finish() {
    let mut whole = prepared();
    let escaped = |byte: &u8| [END, ESC].contains(byte);
    let mut lengths = [0; 3];
    for number in 0..=65535u16 {
        let [high, low] = number.to_be_bytes();
        let escapes = [high, low, 2 ^ high ^ low].into_iter().filter(escaped);
        let length = 9 + escapes.count();
        lengths[length - 9] += 1;
        whole.hub.sessions.slots = Default::default();
        for room in [0, length - 1, length, 300] {
            assert_eq!(whole.finish_lent(number, room), Err(13));
        }
        let session = sessions::Session {
            number,
            line: 3,
            nodes: vec![7],
        };
        whole.hub.sessions.slots[5] = Some(session.clone());
        for room in [0, 7, 8, length - 1] {
            assert_eq!(whole.finish_lent(number, room), Err(9));
            assert_eq!(whole.hub.sessions.slots[5].as_ref(), Some(&session));
        }
        let frame = wire(0x0304, &[high, low]);
        assert_eq!(frame.len(), length);
        let room = length + usize::from(number % 2);
        assert_eq!(whole.finish_lent(number, room), Ok((3, frame)));
        assert_eq!(whole.hub.sessions.open().count(), 0);
    }
    assert!(lengths.iter().all(|&count| count > 0));
}

/// Refused 9, nothing else is closed; then the lowest slot that has it.
#[test]
fn finish_refused_closes_nothing() {
    let mut whole = prepared();
    let before = whole.clone();
    for (number, length) in [(0x0102, 9), (0xC0DB, 11), (0xC0C0, 11), (0xDB24, 10)] {
        for room in [0, 7, 8, length - 1] {
            assert_eq!(whole.finish_lent(number, room), Err(9));
        }
        assert!(whole.same_bytes(&before));
    }
    assert_eq!(whole.finish_lent(0x0103, 0), Err(13));
    let frame = [END, 0, 5, 3, 4, 1, 2, 1, END].to_vec();
    assert_eq!(whole.finish_lent(0x0102, 9), Ok((0, frame)));
    assert_eq!(whole.finish_lent(0x0102, 0), Err(13));
    assert_eq!(whole.hub.sessions.open().count(), 3);
}
