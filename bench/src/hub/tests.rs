use super::nodes::{NAME, ORDER, PLACEMENT, RECORD, TABLE, VARIATION};
use super::*;
use crate::generate::{self, rows::ROWS};
use crate::outcome::{Broken, DecodedPlace, Refusal, WirePlace, END};
use crate::paper;
use crate::random::Random;
use crate::sender::wire;

const PASSWORD: [u8; 32] = *b"hub\0\0\0\0\0\0\0\0\0\0\0\0\0\0\0\0\0\0\0\0\0\0\0\0\0\0\0\0\0";
const FILL: u8 = 0xA5;

mod passwords;
mod rooms;

/// What a feed tells: bytes used, the outcome and the reply.
type Answer = (usize, Option<Outcome>, Vec<u8>);

/// A hub and all that it is lent.
#[derive(Clone)]
struct Whole {
    hub: Hub,
    table: Vec<u8>,
    records: Vec<Reader>,
}

impl Whole {
    /// Started, nodes 0 to 29 and 199 enrolled, lines 0 and 1 logged in.
    fn ready() -> Whole {
        let mut whole = Whole {
            hub: Hub::new(),
            table: vec![0xFF; TABLE],
            records: vec![Reader::new(); LINES],
        };
        whole.hub.start(&PASSWORD, &mut whole.table).unwrap();
        for node in (0..30).chain([199]) {
            whole.hub.enrol(node, 0x0102, &mut whole.table).unwrap();
        }
        for line in 0..2 {
            assert_eq!(whole.ask(line, 0x3000, &PASSWORD), wire(0x3001, &[0]));
        }
        whole
    }

    /// Feeds bytes with this room. Only the reply is written to it.
    fn feed_lent(&mut self, line: u8, bytes: &[u8], room: usize) -> Result<Answer, u32> {
        let room = &mut vec![FILL; room];
        let record = &mut self.records[usize::from(line)];
        let fed = self.hub.feed(line, bytes, &mut self.table, record, room);
        let written = fed.as_ref().map_or(0, |fed| fed.reply);
        assert!(room[written..].iter().all(|&byte| byte == FILL));
        match fed {
            Ok(fed) => Ok((fed.used, fed.outcome, room[..written].to_vec())),
            Err(refusals) => Err(refusals.given()),
        }
    }

    /// Feeds bytes with room enough.
    fn feed(&mut self, line: u8, bytes: &[u8]) -> Answer {
        self.feed_lent(line, bytes, ROOM_ENOUGH).unwrap()
    }

    /// Finishes a session with this room; tells its line and the reply.
    fn finish_lent(&mut self, session: u16, room: usize) -> Result<(u8, Vec<u8>), u32> {
        let room = &mut vec![FILL; room];
        let finished = self.hub.finish(session, room);
        let written = finished.as_ref().map_or(0, |finished| finished.reply);
        assert!(room[written..].iter().all(|&byte| byte == FILL));
        match finished {
            Ok(finished) => Ok((finished.line, room[..written].to_vec())),
            Err(refusals) => Err(refusals.given()),
        }
    }

    /// The reply to a frame.
    fn ask(&mut self, line: u8, command: u16, data: &[u8]) -> Vec<u8> {
        let frame = wire(command, data);
        let (used, outcome, reply) = self.feed(line, &frame);
        assert_eq!(used, frame.len());
        assert_eq!(
            outcome,
            Some(Outcome::Frame {
                command,
                data: data.len()
            })
        );
        reply
    }

    /// The status of a request that is confirmed with a status and the node.
    fn node_status(&mut self, command: u16, data: &[u8]) -> u8 {
        let reply = self.ask(0, command, data);
        let status = reply[5];
        assert_eq!(reply, wire(command + 1, &[status, data[0]]));
        status
    }

    fn mode_send(&mut self, line: u8, session: u16, nodes: &[u8]) -> u8 {
        self.mode_send_data(line, &mode_send(session, nodes))
    }

    fn mode_send_data(&mut self, line: u8, data: &[u8]) -> u8 {
        let reply = self.ask(line, 0x0320, data);
        let replies = |status: &u8| reply == wire(0x0321, &[data[0], data[1], *status]);
        (0..=5).find(replies).unwrap()
    }

    fn field(&self, node: u8, field: std::ops::Range<usize>) -> &[u8] {
        &nodes::record(&self.table, node)[field]
    }

    /// Whether all is the same, byte for byte.
    fn same_bytes(&self, other: &Whole) -> bool {
        let mut records = self.records.iter().zip(&other.records);
        self.hub == other.hub
            && self.table == other.table
            && records.all(|(one, other)| one.same_bytes(other))
    }

    fn same_as(&self, other: &Whole) -> bool {
        let records = self.records.iter().zip(&other.records);
        self.hub == other.hub
            && self.table == other.table
            && records
                .into_iter()
                .all(|(one, other)| one.mode() == other.mode() && one.held() == other.held())
    }
}

fn mode_send(session: u16, nodes: &[u8]) -> Vec<u8> {
    let mut data = session.to_be_bytes().to_vec();
    data.extend([1, 7, 99, 99, nodes.len() as u8]);
    data.extend(nodes);
    data.resize(27, 250);
    data.extend([1, 99, 99, 99]);
    data
}

fn error(byte: u8) -> Vec<u8> {
    wire(0x0000, &[byte])
}

fn given<T>(result: Result<T, Refusals>) -> Option<u32> {
    result.err().map(Refusals::given)
}

#[test]
fn worked_bytes_p1_to_p11() {
    for row in &ROWS {
        let mut whole = Whole::ready();
        let (used, outcome, reply) = whole.feed(3, row.wire);
        assert_eq!(used, row.wire.len());
        let told = outcome.map_or("left 0\n".to_string(), |outcome| {
            format!("{outcome}\nleft 0\n")
        });
        assert_eq!(told, row.told, "{}", row.name);
        let expected = match outcome {
            None => Vec::new(),
            Some(Outcome::Frame { .. }) => error(12),
            Some(Outcome::Refused(_)) => error(2),
        };
        assert_eq!(reply, expected, "{}", row.name);
    }
}

#[test]
fn worked_replies() {
    let mut whole = Whole::ready();
    let p12 = [0xC0, 0x00, 0x03, 0x00, 0x08, 0x0B, 0xC0];
    let reply = whole.feed(2, &p12).2;
    assert_eq!(reply, [0xC0, 0x00, 0x04, 0x00, 0x00, 0x0C, 0x08, 0xC0]);
    let reply = whole.ask(2, 0x3000, &PASSWORD);
    assert_eq!(reply, [0xC0, 0x00, 0x04, 0x30, 0x01, 0x00, 0x35, 0xC0]);
    let reply = whole.ask(2, 0x0320, &mode_send(0x0102, &[1]));
    assert_eq!(
        reply,
        [0xC0, 0x00, 0x06, 0x03, 0x21, 0x01, 0x02, 0x00, 0x27, 0xC0]
    );
    let (line, reply) = whole.finish_lent(0x0102, ROOM_ENOUGH).unwrap();
    assert_eq!(line, 2);
    assert_eq!(
        reply,
        [0xC0, 0x00, 0x05, 0x03, 0x04, 0x01, 0x02, 0x01, 0xC0]
    );
}

#[test]
fn refusals_come_in_order() {
    let Whole {
        mut hub, mut table, ..
    } = Whole::ready();
    let mut long = vec![0; TABLE + 1];
    let record = &mut Reader::new();
    assert_eq!(given(hub.start(&PASSWORD, &mut table[1..])), Some(7));
    assert_eq!(given(hub.start(&PASSWORD, &mut long)), Some(7));
    assert_eq!(given(hub.start(&[0; 31], &mut [])), Some(7));
    assert_eq!(given(hub.start(&[0; 31], &mut table)), Some(14));
    assert_eq!(given(hub.start(&[0; 33], &mut table)), Some(14));
    assert_eq!(given(hub.start(&[], &mut table)), Some(14));
    assert_eq!(given(hub.enrol(200, 1, &mut [])), Some(7));
    assert_eq!(given(hub.enrol(0, 1, &mut table[..TABLE - 1])), Some(7));
    assert_eq!(given(hub.enrol(200, 1, &mut table)), Some(11));
    assert_eq!(given(hub.enrol(199, 1, &mut table)), Some(12));
    assert_eq!(given(hub.enrol(198, 1, &mut table)), None);
    assert_eq!(given(hub.close(4, record)), Some(8));
    let refused = ROWS[10].wire;
    let mut fed = |line, table: &mut [u8], room: usize| {
        let room = &mut [0; ROOM_ENOUGH][..room];
        given(hub.feed(line, refused, table, record, room))
    };
    for room in [0, 7, 8, ROOM_ENOUGH] {
        assert_eq!(fed(4, &mut long, room), Some(7));
        assert_eq!(fed(3, &mut table[1..], room), Some(7));
        assert_eq!(fed(4, &mut table, room), Some(8));
        assert_eq!(fed(255, &mut table, room), Some(8));
    }
    assert_eq!(fed(3, &mut table, 7), Some(9));
    assert_eq!(fed(3, &mut table, 8), None);
    for room in [0, 8, 9, ROOM_ENOUGH] {
        assert_eq!(given(hub.finish(1, &mut vec![0; room])), Some(13));
    }
}

#[test]
fn a_refused_call_changes_nothing() {
    let mut whole = Whole::ready();
    whole.mode_send(0, 5, &[1]);
    whole.feed(2, &[END, 1, 2]);
    let before = whole.clone();
    let frame = wire(0x0108, &[]);
    assert!(whole.hub.start(&[0; 31], &mut whole.table).is_err());
    assert!(whole.hub.enrol(1, 9, &mut whole.table).is_err());
    assert!(whole.hub.close(9, &mut whole.records[2]).is_err());
    assert_eq!(whole.finish_lent(6, ROOM_ENOUGH), Err(13));
    assert_eq!(whole.finish_lent(5, 8), Err(9));
    assert_eq!(whole.feed_lent(0, &frame, 6), Err(9));
    let room = &mut vec![FILL; ROOM_ENOUGH];
    let record = &mut whole.records[0];
    let table = &mut whole.table;
    assert!(whole
        .hub
        .feed(0, &frame, &mut table[1..], record, room)
        .is_err());
    assert!(whole.hub.feed(4, &frame, table, record, room).is_err());
    assert!(whole.same_bytes(&before));
    assert!(room.iter().all(|&byte| byte == FILL));
}

#[test]
fn errors_are_judged_in_order() {
    let mut whole = Whole::ready();
    assert_eq!(whole.feed(2, ROWS[10].wire).2, error(2));
    assert_eq!(whole.ask(2, 0x0005, &[]), error(1));
    assert_eq!(whole.ask(2, 0x0200, &[]), error(2));
    assert_eq!(whole.ask(2, 0x0200, &[1]), error(12));
    assert_eq!(whole.ask(2, 0x0201, &[1, 1]), error(12));
    assert_eq!(whole.ask(2, 0x3000, &[0; 31]), error(2));
    assert_eq!(whole.ask(2, 0x3000, &[0; 32]), wire(0x3001, &[1]));
    assert_eq!(whole.ask(0, 0x0005, &[]), error(1));
    assert_eq!(whole.ask(0, 0x0201, &[1]), error(2));
    assert_eq!(whole.ask(0, 0x0201, &[1, 1]), error(1));
    assert_eq!(whole.ask(0, 0x0001, &[]), error(1));
}

#[test]
fn node_fields() {
    let mut whole = Whole::ready();
    for command in [0x0206, 0x0208, 0x020D] {
        let length = crate::directory::find(command).unwrap().least;
        for node in [30, 200, 255] {
            let mut data = vec![9; length];
            data[0] = node;
            let before = whole.clone();
            assert_eq!(whole.node_status(command, &data), 2);
            assert!(whole.same_as(&before));
        }
    }
    assert_eq!(whole.node_status(0x0206, &[199, 4]), 0);
    assert_eq!(whole.node_status(0x0206, &[199, 5]), 1);
    let name: Vec<u8> = (0..65).map(|byte| 199 - byte).collect();
    assert_eq!(whole.node_status(0x0208, &name), 0);
    assert_eq!(whole.node_status(0x020D, &[199, 1, 2, 3]), 0);
    assert_eq!(whole.field(199, 0..3), [1, 1, 2]);
    assert_eq!(whole.field(199, NAME), &name[1..]);
    assert_eq!(whole.field(199, ORDER), [1, 2]);
    assert_eq!(whole.field(199, PLACEMENT..RECORD), [3, 4, 0]);
    assert_eq!(whole.field(198, 0..RECORD), [0; RECORD]);
    assert_eq!(PLACEMENT + 1, VARIATION);
}

#[test]
fn get_node_information() {
    let mut whole = Whole::ready();
    for node in [30, 200, 255] {
        assert_eq!(whole.ask(0, 0x0200, &[node]), wire(0x0201, &[2, node]));
    }
    whole.node_status(0x0206, &[7, 3]);
    whole.node_status(0x020D, &[7, 0x11, 0x12, 0x13]);
    let name: Vec<u8> = [7].into_iter().chain(100..164).collect();
    whole.node_status(0x0208, &name);
    let notice = [
        &[7, 0x11, 0x12, 0x13][..],
        &name[1..],
        &[0, 1, 2, 0, 0, 3],
        &[0; 50],
    ]
    .concat();
    let expected = [wire(0x0201, &[0, 7]), wire(0x0210, &notice)].concat();
    assert_eq!(whole.ask(0, 0x0200, &[7]), expected);
}

#[test]
fn in_use_is_exactly_1() {
    let mut whole = Whole::ready();
    let place = 50 * RECORD;
    whole.table[place..place + RECORD].fill(2);
    assert_eq!(whole.node_status(0x0206, &[50, 1]), 2);
    assert_eq!(whole.mode_send(0, 1, &[50]), 5);
    whole.ask(0, 0x0106, &[0xFF; 26]);
    assert_eq!(whole.field(50, 0..RECORD), [2; RECORD]);
    whole.hub.enrol(50, 0x0304, &mut whole.table).unwrap();
    assert_eq!(whole.field(50, 0..5), [1, 3, 4, 0, 0]);
}

#[test]
fn mode_send_5() {
    let mut whole = Whole::ready();
    whole.mode_send(0, 1, &[1]);
    let right = mode_send(1, &[1, 2]);
    let spoiled = [
        (6, 0),
        (6, 21),
        (6, 255),
        (7, 200),
        (8, 30),
        (8, 1),
        (3, 8),
        (27, 2),
        (2, 0),
        (2, 4),
        (2, 6),
        (2, 7),
        (2, 10),
        (2, 14),
        (2, 254),
    ];
    for (place, value) in spoiled {
        let mut data = right.clone();
        data[place] = value;
        assert_eq!(whole.mode_send_data(0, &data), 5, "{value} at {place}");
    }
    assert_eq!(whole.hub.sessions.open().count(), 1);
}

#[test]
fn mode_send_0_1_3_4() {
    let mut whole = Whole::ready();
    let twenty: Vec<u8> = (10..30).rev().collect();
    assert_eq!(whole.mode_send(0, 0, &twenty), 0);
    let taken = whole.hub.sessions.slots[0].clone().unwrap();
    assert_eq!((taken.number, taken.line), (0, 0));
    assert_eq!(taken.nodes, Vec::from_iter(10..30));
    assert_eq!(whole.mode_send(1, 0, &[1]), 3);
    assert_eq!(whole.mode_send(0, 1, &[1, 29]), 1);
    assert_eq!(whole.mode_send(1, 1, &[29]), 1);
    for slot in 1..8 {
        assert_eq!(whole.mode_send(1, 0x0100 + slot, &[slot as u8]), 0);
    }
    assert_eq!(whole.mode_send(0, 0x0200, &[9]), 4);
    assert_eq!(whole.mode_send(0, 0x0200, &[1]), 4);
    assert_eq!(whole.mode_send(0, 0x0107, &[9]), 3);
    assert_eq!(whole.mode_send(0, 0x0107, &[200]), 5);
}

#[test]
fn all_originators() {
    for originator in [1, 2, 3, 5, 8, 9, 11, 12, 13, 255] {
        let mut whole = Whole::ready();
        let mut data = mode_send(1, &[1]);
        data[2] = originator;
        assert_eq!(whole.mode_send_data(0, &data), 0);
    }
}

#[test]
fn freed_slots_and_nodes_are_used_again() {
    let mut whole = Whole::ready();
    for slot in 0..4 {
        let line = (slot % 2) as u8;
        assert_eq!(whole.mode_send(line, slot, &[slot as u8]), 0);
    }
    whole.hub.close(1, &mut whole.records[1]).unwrap();
    assert_eq!(whole.hub.logins, [true, false, false, false]);
    assert_eq!(whole.mode_send(0, 9, &[3]), 0);
    assert_eq!(whole.hub.sessions.slot_of(9), Some(1));
    assert!(whole.finish_lent(0, ROOM_ENOUGH).is_ok());
    assert_eq!(whole.mode_send(0, 0, &[0, 1]), 0);
    assert_eq!(whole.hub.sessions.slot_of(0), Some(0));
    let mut bits = [0; 26];
    bits[0] = 0b10;
    assert_eq!(whole.ask(0, 0x0106, &bits), wire(0x0107, &[0]));
    assert_eq!(whole.hub.sessions.slot_of(0), None);
    assert_eq!(whole.hub.sessions.slot_of(9), Some(1));
    assert_eq!(whole.mode_send(0, 7, &[1]), 5);
    assert_eq!(whole.mode_send(0, 7, &[0]), 0);
    assert_eq!(whole.hub.sessions.slot_of(7), Some(0));
}

#[test]
fn remove_takes_the_named_nodes() {
    let mut whole = Whole::ready();
    let mut bits = [0; 26];
    bits[24] = 0x80;
    bits[25] = 0xFF;
    bits[3] = 0b0100_0001;
    assert_eq!(whole.ask(0, 0x0106, &bits), wire(0x0107, &[0]));
    let left = nodes::all_in_use(&whole.table);
    let expected: Vec<u8> = (0..30).filter(|&node| node != 24).collect();
    assert_eq!(left, expected);
    assert_eq!(whole.field(199, 0..RECORD), [0; RECORD]);
}

#[test]
fn virgin_state_and_start() {
    let mut whole = Whole::ready();
    whole.mode_send(1, 1, &[1]);
    whole.feed(3, &[END, 1]);
    let mut expected = whole.clone();
    expected.table.fill(0);
    expected.hub.sessions = Sessions::default();
    assert_eq!(whole.ask(0, 0x0108, &[]), wire(0x0109, &[]));
    assert!(whole.same_as(&expected));
    whole.hub.start(&[9; 32], &mut whole.table).unwrap();
    assert_eq!(whole.hub.logins, [false; 4]);
    assert_eq!(whole.hub.password, [9; 32]);
    assert_eq!(whole.records[3].held(), [1]);
}

/// Cutting captures into feeds anywhere changes no outcome, no reply and no
/// end state, and the outcomes are the paper's.
#[test]
fn cutting_changes_nothing() {
    let random = &mut Random::new(&[3]);
    for index in 0..600 {
        let kind = random.pick(&generate::Kind::ALL);
        let capture = generate::capture(kind, 3, index);
        let outcomes = paper::read(&capture).outcomes;
        let (mut one, mut other) = (Whole::ready(), Whole::ready());
        let whole = fed(&mut one, &capture, usize::MAX, random);
        let cut = fed(&mut other, &capture, random.pick(&[1, 5, 60]), random);
        assert!(
            whole == cut && one.same_as(&other),
            "{} {index}",
            kind.name()
        );
        assert!(whole.iter().map(|told| &told.0).eq(&outcomes));
        for (outcome, reply) in whole {
            let refused = matches!(outcome, Outcome::Refused(_));
            assert!(!refused || reply == error(2));
        }
    }
}

/// All outcomes and replies of a capture fed in parts.
fn fed(
    whole: &mut Whole,
    capture: &[u8],
    longest: usize,
    random: &mut Random,
) -> Vec<(Outcome, Vec<u8>)> {
    let mut told = Vec::new();
    let mut rest = capture;
    while !rest.is_empty() {
        let length = rest.len().min(longest);
        let lent = &rest[..random.between(1, length)];
        let lent = if longest == usize::MAX { rest } else { lent };
        let (used, outcome, reply) = whole.feed(0, lent);
        assert!(used > 0);
        told.extend(outcome.map(|outcome| (outcome, reply)));
        rest = &rest[used..];
    }
    told
}

/// Pieces with escapes before, at and behind the place where they break.
const PIECES: [(&[u8], Refusal, usize, usize); 8] = [
    (
        &[5, 0xDB, 0xDC, 0xDB, 7, 0xDB, 0xDD],
        Refusal::WrongEscape,
        4,
        2,
    ),
    (&[5, 0xDB], Refusal::WrongEscape, 2, 1),
    (&[0xDB, 0xDC, 3, 0xDB, 0xDD], Refusal::Short, 5, 3),
    (&[0xDB, 0xDD, 3, 0, 1, 0xDB, 0xDC], Refusal::Protocol, 0, 0),
    (&[0, 4, 0xDB, 0xDC, 1, 5], Refusal::Shorter, 6, 5),
    (&[0, 3, 0xDB, 0xDC, 1, 0xDB, 0xDD], Refusal::Check, 5, 4),
    (
        &[0, 3, 0xDB, 0xDC, 1, 2, 0xDB, 0xDD, 9],
        Refusal::Longer,
        6,
        5,
    ),
    (&[0, 0, 0xDB, 0xDC, 1, 2], Refusal::Longer, 2, 2),
];

/// Feed tells the places from the last END on, however the packet is cut and
/// whatever came before. Feeds that are refused meanwhile do not move them. The
/// reply is the same for every refusal.
#[test]
fn feed_tells_where_a_packet_broke() {
    for (piece, refusal, wire, decoded) in PIECES {
        let broken = Outcome::Refused(Broken {
            refusal,
            wire: WirePlace(wire),
            decoded: DecodedPlace(decoded),
        });
        for before in [&[][..], &[END], &[1, 2, END], &[0xDB, 7, END]] {
            for cut in 0..=piece.len() {
                let (first, rest) = piece.split_at(cut);
                let rest = [rest, &[END, 3]].concat();
                let mut whole = Whole::ready();
                whole.feed(0, before);
                whole.feed(0, first);
                assert_eq!(whole.feed_lent(0, &rest, 7), Err(9));
                let told = (rest.len() - 1, Some(broken), error(2));
                assert_eq!(whole.feed(0, &rest), told, "{piece:02X?} {cut}");
            }
        }
    }
}

#[test]
fn reading_states() {
    let mut whole = Whole::ready();
    whole.feed(0, &[1; 255]);
    assert_eq!(whole.feed(0, &[0xDB]), (1, None, vec![]));
    assert_eq!(whole.records[0].held().len(), 255);
    whole.feed(0, &[0xDC]);
    assert!(whole.records[0].held().is_empty());
    let refused = Outcome::Refused(Broken {
        refusal: Refusal::TooLong,
        wire: WirePlace(255),
        decoded: DecodedPlace(255),
    });
    let told = (3, Some(refused), error(2));
    assert_eq!(whole.feed(0, &[0xDB, 0, END, 7]), told);
    assert!(whole.records[0].is_between_packets());
}
