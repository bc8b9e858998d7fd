//! A tour through every call, refusal, status, error byte and bad word: the
//! script of `examples/all.script`, in parts with names.

mod passwords;
mod places;

use crate::generate::rows::ROWS;
use crate::hub::commands::{
    GET_NODE, MODE_SEND, PASSWORD_CHANGE, PASSWORD_ENTER, REMOVE_NODES, SET_NAME, SET_ORDER,
    SET_VARIATION, VIRGIN_STATE,
};
use crate::hub::nodes::TABLE;
use crate::hub::ROOM_ENOUGH;
use crate::outcome::{DATA_MOST, END, ESC, ESC_END};
use crate::replay::call::Call;
use crate::sender::wire;

/// A part of the script.
pub struct Part {
    pub name: &'static str,
    pub lines: Vec<String>,
}

/// The whole script.
pub fn script() -> String {
    let parts = parts();
    let lines = parts.iter().flat_map(|part| &part.lines);
    lines.map(|line| format!("{line}\n")).collect()
}

/// The parts with their first and last lines, as a table.
pub fn contents() -> String {
    let mut text = "| Lines | Part |\n|---|---|\n".to_string();
    let mut first = 1;
    for part in parts() {
        let next = first + part.lines.len();
        text += &format!("| {first} to {} | {} |\n", next - 1, part.name);
        first = next;
    }
    text
}

pub fn parts() -> Vec<Part> {
    let mut tour = Tour { parts: Vec::new() };
    tour.before_any_start();
    tour.starts();
    tour.enrols();
    tour.refused_feeds();
    tour.rows();
    tour.reading_states();
    tour.longest();
    tour.errors();
    tour.passwords();
    tour.nodes();
    tour.mode_sends_refused();
    tour.mode_sends();
    tour.finishes();
    tour.closes();
    tour.removes();
    tour.virgin();
    tour.start_again();
    tour.names();
    tour.remarks();
    tour.bad_lines();
    tour.good_lines();
    tour.rooms();
    tour.rooms_of_sessions();
    tour.rooms_of_get();
    tour.refused_for_room();
    tour.places();
    tour.places_of_255();
    tour.places_behind_esc();
    tour.cut_everywhere();
    tour.passwords_entered();
    tour.wrong_passwords();
    tour.passwords_changed();
    tour.parts
}

const PASSWORD: [u8; 32] = *b"window hub\0\0\0\0\0\0\0\0\0\0\0\0\0\0\0\0\0\0\0\0\0\0";
/// Differs in the last byte before the zero.
const OTHER: [u8; 32] = *b"window hut\0\0\0\0\0\0\0\0\0\0\0\0\0\0\0\0\0\0\0\0\0\0";
/// END, ESC and the bytes behind ESC, with stale bytes behind a zero.
const NEW_PASSWORD: [u8; 32] = [
    0xC0, 0xDB, 0xDC, 0xDD, 0, 1, 2, 3, 4, 5, 6, 7, 8, 9, 10, 11, 12, 13, 14, 15, 16, 17, 18, 19,
    20, 21, 22, 23, 24, 25, 26, 255,
];

/// Lines with a bad word, by call and by word. Nothing else is wrong with
/// most of them.
const BAD_LINES: [&str; 134] = [
    // Word 1.
    " ",
    " show",
    "\r",
    "show\r",
    "close\t0",
    "Show",
    "START -",
    "stop",
    "feeds 0 512 C0",
    "fee 0 512 C0",
    "-",
    // Behind the last word.
    "show ",
    "show 0",
    "table ",
    "table # names",
    "close 0 ",
    "close 0 0",
    "start - 14400 ",
    "start - 14400 0",
    "enrol 1 1 14400 ",
    "enrol 1 1 14400 1",
    "feed 0 512 C0 14400 ",
    "feed 0 512 C0 14400 0",
    "finish 0003 512 ",
    "finish 0003 512 14400",
    // Words of close.
    "close",
    "close ",
    "close  0",
    "close 0\r",
    "close 0\t",
    "close -1",
    "close +1",
    "close -",
    "close 0x1",
    "close 00",
    "close 01",
    "close 000001",
    "close 100000",
    "close 4294967296",
    "close 256",
    // Words of start.
    "start",
    "start  -",
    "start -\r",
    "start \t-",
    "start 0g",
    "start 0",
    "start - ",
    "start - 14400\r",
    "start - 14400\t",
    "start - -",
    "start - C0",
    "start - 014400",
    "start - 144000",
    "start - 16385",
    // Words of enrol.
    "enrol",
    "enrol  1",
    "enrol 1\r 1",
    "enrol \t1 1",
    "enrol -1 1",
    "enrol one 1",
    "enrol 01 1",
    "enrol 000100000 1",
    "enrol 100000 1",
    "enrol 256 1",
    "enrol 1",
    "enrol 1  1",
    "enrol 1 1\r",
    "enrol 1 1\t",
    "enrol 1 +1",
    "enrol 1 0101h",
    "enrol 1 0257",
    "enrol 1 655360",
    "enrol 1 65536",
    "enrol 1 1 ",
    "enrol 1 1 14400\r",
    "enrol 1 1 14400\t",
    "enrol 1 1 -1",
    "enrol 1 1 x",
    "enrol 1 1 00",
    "enrol 1 1 100000",
    "enrol 1 1 16385",
    // Words of feed, left to right.
    "feed",
    "feed  512 C0",
    "feed 0\r 512 C0",
    "feed 0\t512 C0",
    "feed +0 512 C0",
    "feed x 512 C0",
    "feed 00 512 C0",
    "feed 100000 512 C0",
    "feed 256 512 C0",
    "feed 0",
    "feed 0  C0",
    "feed 0 512\r C0",
    "feed 0 512\tC0",
    "feed 0 -512 C0",
    "feed 0 C0",
    "feed 0 0512 C0",
    "feed 0 512000 C0",
    "feed 0 8193 C0",
    "feed 0 512",
    "feed 0 512 ",
    "feed 0 512 C0\r",
    "feed 0 512 C0\t",
    "feed 0 512 CG",
    "feed 0 512 --",
    "feed 0 512 C0C",
    "feed 4 0 C 0",
    "feed 0 512 C0 ",
    "feed 0 512 C0 14400\r",
    "feed 0 512 C0 14400\t",
    "feed 0 512 C0 -1",
    "feed 0 512 C0 00h",
    "feed 0 512 C0 00",
    "feed 0 512 C0 100000",
    "feed 0 512 C0 16385",
    "feed 256 8193 CG 16385 0",
    "feed 0 8193 CG 16385 0",
    // Words of finish.
    "finish",
    "finish  512",
    "finish 0003\r 512",
    "finish 0003\t512",
    "finish 000G 512",
    "finish -003 512",
    "finish 3 512",
    "finish 00003 512",
    "finish 0003",
    "finish 0003 ",
    "finish 0003 512\r",
    "finish 0003 512\t",
    "finish 0003 -1",
    "finish 0003 512,",
    "finish 0003 0512",
    "finish 0003 100000",
    "finish 0003 8193",
];

/// Names of nodes, as `table` writes them: with zero bytes behind them, with
/// other bytes, or all 64.
const NAMES: [&[u8]; 6] = [
    b"East vent",
    b"\"Attic\" C:\\roof",
    b"\x01\t\n\x1F~\x7F",
    b"S\xC3\xBCd \x80\xFF",
    b"\0behind the zero byte",
    b"0123456789012345678901234567890123456789012345678901234567890123",
];

/// What a mode send names; the other fields are fixed.
#[derive(Clone, Copy)]
struct ModeSend<'a> {
    session: u16,
    originator: u8,
    priority: u8,
    count: u8,
    nodes: &'a [u8],
    lock: u8,
}

impl<'a> ModeSend<'a> {
    fn of(session: u16, nodes: &'a [u8]) -> Self {
        ModeSend {
            session,
            originator: 1,
            priority: 3,
            count: nodes.len() as u8,
            nodes,
            lock: 0,
        }
    }

    /// Indices behind the named ones are 255, which is ignored.
    fn data(&self) -> Vec<u8> {
        let mut data = self.session.to_be_bytes().to_vec();
        data.extend([self.originator, self.priority, 0, 0, self.count]);
        data.extend(self.nodes);
        data.resize(27, 255);
        data.extend([self.lock, 0, 0, 0]);
        data
    }
}

/// A remove of these nodes and bits.
fn bits(numbers: &[u8]) -> Vec<u8> {
    let mut bits = vec![0; 26];
    for number in numbers {
        bits[usize::from(number / 8)] |= 1 << (number % 8);
    }
    bits
}

struct Tour {
    parts: Vec<Part>,
}

impl Tour {
    /// Begins a part with its name as a remark, behind an empty line.
    fn part(&mut self, name: &'static str) {
        let mut lines = vec![format!("# {name}")];
        if !self.parts.is_empty() {
            lines.insert(0, String::new());
        }
        self.parts.push(Part { name, lines });
    }

    fn line(&mut self, line: &str) {
        let part = self.parts.last_mut().expect("a part is begun first");
        part.lines.push(line.to_string());
    }

    fn call(&mut self, call: Call) {
        self.line(&call.to_string());
    }

    fn show(&mut self) {
        self.call(Call::Show);
    }

    fn start(&mut self, password: &[u8], table: usize) {
        let password = password.to_vec();
        self.call(Call::Start { password, table });
    }

    fn enrol(&mut self, node: u8, kind: u16) {
        let table = TABLE;
        self.call(Call::Enrol { node, kind, table });
    }

    fn feed(&mut self, line: u8, bytes: &[u8]) {
        self.feed_lent(line, ROOM_ENOUGH, bytes, TABLE);
    }

    fn feed_lent(&mut self, line: u8, room: usize, bytes: &[u8], table: usize) {
        self.call(Call::Feed {
            line,
            room,
            bytes: bytes.to_vec(),
            table,
        });
    }

    fn send(&mut self, line: u8, command: u16, data: &[u8]) {
        self.feed(line, &wire(command, data));
    }

    fn enter(&mut self, line: u8, password: &[u8]) {
        self.send(line, PASSWORD_ENTER, password);
    }

    fn mode_send(&mut self, line: u8, request: ModeSend) {
        self.send(line, MODE_SEND, &request.data());
    }

    fn finish(&mut self, session: u16, room: usize) {
        self.call(Call::Finish { session, room });
    }

    fn before_any_start(&mut self) {
        self.part("before any start: empty state, P12, the password is 32 zero bytes");
        self.show();
        self.line("table");
        self.send(0, 0x0008, &[]);
        self.enter(0, &[0; 32]);
        self.send(0, 0x0008, &[]);
        self.enrol(7, 0x0101);
        self.mode_send(0, ModeSend::of(1, &[7]));
        self.feed(1, &[END, 0, 3]);
        self.show();
    }

    fn starts(&mut self) {
        self.part("start: refusals 7 and 14 change nothing; done keeps the reading records");
        for table in [0, 72, TABLE - 1, TABLE + 1, 16384] {
            self.start(&PASSWORD, table);
        }
        for length in [0, 31, 33] {
            self.start(&vec![7; length], TABLE);
        }
        self.start(&[7; 31], TABLE - 1);
        self.show();
        self.start(&PASSWORD, TABLE);
        self.show();
        self.enter(0, &[0; 32]);
    }

    fn enrols(&mut self) {
        self.part("enrol: nodes 0 and 199; refusals 7, 11, 12");
        self.enrol(0, 0);
        self.enrol(199, 65535);
        self.enrol(200, 1);
        self.enrol(255, 1);
        self.enrol(199, 1);
        for (node, table) in [(1, TABLE - 1), (1, TABLE + 1), (200, 0), (199, 16384)] {
            let kind = 1;
            self.call(Call::Enrol { node, kind, table });
        }
        self.enrol(1, 0x0080);
        self.show();
    }

    fn refused_feeds(&mut self) {
        self.part("feed: refusals 7, 8, 9 and their order; room 0, 7 and 8 for an error reply");
        // P12: the line is not logged in.
        let bytes = &[END, 0, 3, 0, 8, 0x0B, END];
        for table in [0, TABLE - 1, TABLE + 1] {
            self.feed_lent(2, ROOM_ENOUGH, bytes, table);
        }
        for line in [4, 255] {
            self.feed(line, bytes);
        }
        for room in [0, 7] {
            self.feed_lent(2, room, bytes, TABLE);
        }
        self.feed_lent(4, 512, bytes, 0);
        self.feed_lent(2, 0, bytes, 0);
        self.feed_lent(4, 0, bytes, TABLE);
        self.feed_lent(4, 0, bytes, 0);
        self.feed_lent(2, 0, &[], TABLE);
        self.show();
        self.feed_lent(2, 0, &bytes[..4], TABLE);
        self.feed_lent(2, 8, &bytes[4..], TABLE);
    }

    fn rows(&mut self) {
        self.part("P1 to P11 on line 3, then P3 and P11 in one feed and the rest fed again");
        for row in &ROWS {
            self.feed(3, row.wire);
        }
        // One bit of the check byte; a byte more than the length says.
        self.feed(3, &[END, 0, 3, 0, 1, 0x82, END]);
        self.feed(3, &[END, 0, 3, 0, 1, 0, 2, END]);
        let both = [ROWS[2].wire, ROWS[10].wire].concat();
        self.feed(3, &both);
        self.feed(3, &both[7..]);
    }

    fn reading_states(&mut self) {
        self.part("reading states: held, escaped, skip1, skip2; a frame in three feeds");
        self.feed(0, &[END, 0, 5, 2, 6]);
        self.feed(1, &[END, 1, ESC]);
        self.feed(1, &[1, ESC]);
        self.feed(2, &[END, ESC, ESC, 5]);
        self.feed(3, &[1; 256]);
        self.show();
        self.feed(0, &[ESC]);
        self.feed(0, &[ESC_END, 0, 0xC1, END, 1, 2]);
        self.feed(1, &[END]);
        self.feed(2, &[0, ESC, END]);
        self.feed(3, &[ESC, 0, END]);
        self.feed(3, &[]);
        self.show();
    }

    fn longest(&mut self) {
        self.part("255 decoded bytes are judged, 256 refused; ESC behind 255 bytes");
        let longest = wire(0x0322, &[0x55; DATA_MOST]);
        self.feed(0, &longest);
        let longer = [&longest[..256], &[0x55][..], &longest[256..]].concat();
        self.feed(0, &longer);
        self.feed(0, &[ESC, ESC_END].repeat(255));
        self.feed(0, &[END]);
        for tail in [&[ESC][..], &[ESC, 0], &[ESC, ESC_END]] {
            self.feed(0, &[1; 255]);
            self.feed(0, tail);
            self.show();
            self.feed(0, &[END]);
        }
    }

    fn errors(&mut self) {
        self.part("error bytes in their order: 2, 1, 2, 12, 1");
        self.feed(1, ROWS[10].wire);
        self.send(1, 0x0005, &[]);
        self.send(1, 0x020A, &[0; 3]);
        self.send(1, GET_NODE, &[]);
        self.send(1, GET_NODE, &[0, 0]);
        self.send(1, PASSWORD_ENTER, &PASSWORD[..31]);
        self.send(1, GET_NODE, &[0]);
        self.send(1, 0x0201, &[0, 0]);
        self.enter(1, &PASSWORD);
        self.send(1, 0x0201, &[0, 0]);
        self.send(1, 0x0008, &[]);
        self.send(1, 0x0008, &[0]);
        self.send(1, 0x0005, &[]);
        self.send(1, 0x0449, &[]);
    }

    fn passwords(&mut self) {
        self.part("password enter 0 and 1, change 0 and 1; logins are per line");
        self.enter(0, &[7; 32]);
        self.enter(0, &OTHER);
        self.send(0, PASSWORD_CHANGE, &[PASSWORD, NEW_PASSWORD].concat());
        self.enter(0, &PASSWORD);
        self.enter(0, &OTHER);
        self.send(0, PASSWORD_CHANGE, &[OTHER, NEW_PASSWORD].concat());
        self.send(0, PASSWORD_CHANGE, &[PASSWORD, PASSWORD].concat());
        self.send(0, PASSWORD_CHANGE, &[PASSWORD, NEW_PASSWORD].concat());
        self.enter(2, &PASSWORD);
        self.enter(2, &NEW_PASSWORD);
        self.show();
    }

    fn nodes(&mut self) {
        self.part("get, variation, name, order: each status");
        self.send(0, GET_NODE, &[200]);
        self.send(0, GET_NODE, &[255]);
        self.send(0, GET_NODE, &[50]);
        self.send(0, GET_NODE, &[199]);
        let mut name = vec![1; 65];
        name[1..].fill(0);
        name[1..12].copy_from_slice(b"East vent\xC0\xDB");
        name[64] = b'!';
        self.send(0, SET_NAME, &name);
        for node in [50, 200] {
            name[0] = node;
            self.send(0, SET_NAME, &name);
        }
        for (node, variation) in [(1, 4), (1, 5), (0, 0), (50, 9), (200, 9), (199, 255)] {
            self.send(0, SET_VARIATION, &[node, variation]);
        }
        for node in [1, 50, 200] {
            self.send(0, SET_ORDER, &[node, 0xDB, 0xC0, 9]);
        }
        self.send(0, GET_NODE, &[1]);
        self.show();
    }

    fn names(&mut self) {
        self.part("table: names with all kinds of bytes, order, placement, variation");
        for (node, name) in (10..).zip(NAMES) {
            self.enrol(node, 0x0101);
            let mut data = vec![node];
            data.extend(name);
            data.resize(65, 0);
            self.send(0, SET_NAME, &data);
        }
        self.send(0, SET_ORDER, &[11, 0x12, 0x34, 200]);
        self.send(0, SET_VARIATION, &[11, 4]);
        self.line("table");
    }

    fn mode_sends_refused(&mut self) {
        self.part("mode send 5: count 0, 21, 255, node 200, not in use, twice, priority, lock, originator, several");
        for node in [2, 3, 4, 5, 6, 8, 9] {
            self.enrol(node, 0x0080);
        }
        let right = ModeSend::of(0x0102, &[2, 1]);
        for count in [0, 21, 255] {
            self.mode_send(0, ModeSend { count, ..right });
        }
        self.mode_send(0, ModeSend::of(0x0102, &[1, 200]));
        self.mode_send(0, ModeSend::of(0x0102, &[1, 50]));
        self.mode_send(0, ModeSend::of(0x0102, &[1, 2, 1]));
        self.mode_send(
            0,
            ModeSend {
                priority: 8,
                ..right
            },
        );
        self.mode_send(0, ModeSend { lock: 2, ..right });
        for originator in [0, 4, 6, 7, 10, 14, 254] {
            self.mode_send(
                0,
                ModeSend {
                    originator,
                    ..right
                },
            );
        }
        self.mode_send(
            0,
            ModeSend {
                priority: 255,
                lock: 255,
                ..right
            },
        );
    }

    fn mode_sends(&mut self) {
        self.part("mode send 0 (session 0102 first), 3, 1, 20 nodes, eight slots, 4");
        self.mode_send(0, ModeSend::of(0x0102, &[2, 1]));
        self.mode_send(0, ModeSend::of(0x0102, &[3]));
        self.mode_send(1, ModeSend::of(0x0102, &[3]));
        self.mode_send(0, ModeSend::of(0x0103, &[3, 1]));
        self.mode_send(1, ModeSend::of(0x0103, &[2]));
        let priority = 7;
        let lock = 1;
        self.mode_send(
            1,
            ModeSend {
                priority,
                lock,
                ..ModeSend::of(0xC0DB, &[3])
            },
        );
        let many: Vec<u8> = (100..120).rev().collect();
        for &node in &many {
            self.enrol(node, 0x00C0);
        }
        self.mode_send(
            2,
            ModeSend {
                originator: 255,
                ..ModeSend::of(0, &many)
            },
        );
        for (session, node) in [(3, 4), (4, 5), (5, 6), (6, 8), (65535, 9)] {
            let line = (session % 3) as u8;
            self.mode_send(line, ModeSend::of(session, &[node]));
        }
        self.show();
        self.mode_send(1, ModeSend::of(0x0200, &[0]));
        self.mode_send(1, ModeSend::of(0x0200, &[1]));
        self.mode_send(1, ModeSend::of(0x0102, &[0]));
        self.mode_send(1, ModeSend::of(0x0102, &[200]));
    }

    fn finishes(&mut self) {
        self.part("finish: 0102, refusals 13 and 9; its slot and nodes are used again");
        // A refused packet closes nothing.
        self.feed(0, ROWS[10].wire);
        self.finish(0x0102, 8);
        self.finish(0x0102, 9);
        self.finish(0x0102, 9);
        self.finish(0x0102, 0);
        self.finish(0xC0DB, 11);
        self.show();
        self.mode_send(2, ModeSend::of(0x0102, &[1, 2]));
        self.show();
    }

    fn closes(&mut self) {
        self.part("close: refusal 8; login, reading state and sessions of the line only");
        self.feed(2, &[END, 1, 2]);
        self.line("close 4");
        self.line("close 255");
        self.show();
        self.line("close 2");
        self.show();
        self.send(2, VIRGIN_STATE, &[]);
        self.mode_send(0, ModeSend::of(0x0102, &[1, 2]));
        self.mode_send(0, ModeSend::of(0x0300, &[100, 119]));
        self.mode_send(1, ModeSend::of(0x0301, &[199, 0]));
        self.show();
    }

    fn removes(&mut self) {
        self.part("remove: no node, bits 200 to 207, not in use, one in a session, some, all");
        self.send(0, REMOVE_NODES, &bits(&[]));
        self.send(0, REMOVE_NODES, &bits(&[200, 201, 207]));
        self.send(0, REMOVE_NODES, &bits(&[50]));
        self.show();
        self.send(0, REMOVE_NODES, &bits(&[2, 120, 119]));
        self.show();
        self.mode_send(1, ModeSend::of(0x0400, &[1]));
        self.mode_send(1, ModeSend::of(0x0401, &[100]));
        self.send(0, REMOVE_NODES, &[0xFF; 26]);
        self.send(0, REMOVE_NODES, &[0xFF; 26]);
        self.show();
    }

    fn virgin(&mut self) {
        self.part("virgin state: table and sessions; logins, password and reading states stay");
        self.send(0, VIRGIN_STATE, &[]);
        self.enrol(20, 1);
        self.enrol(21, 2);
        self.mode_send(0, ModeSend::of(1, &[20]));
        self.mode_send(1, ModeSend::of(2, &[21]));
        self.feed(3, &[END, 0, ESC]);
        self.send(1, VIRGIN_STATE, &[]);
        self.show();
        self.enter(2, &NEW_PASSWORD);
        self.enrol(22, 3);
        self.mode_send(0, ModeSend::of(3, &[22]));
    }

    fn start_again(&mut self) {
        self.part("start again: nobody logged in, no session, no node, another password");
        self.start(&PASSWORD, TABLE);
        self.show();
        self.enter(0, &NEW_PASSWORD);
        self.enter(0, &PASSWORD);
        self.enrol(22, 3);
        self.mode_send(0, ModeSend::of(3, &[22]));
        self.feed(3, &[ESC_END, END]);
    }

    fn remarks(&mut self) {
        self.part("remarks and empty lines: no answer");
        for line in ["", "#", "#show", "# show\r", "##\t close 0 ", "", ""] {
            self.line(line);
        }
        self.line("close 9");
    }

    fn bad_lines(&mut self) {
        self.part("bad lines: each kind of bad word at each place; nothing changes");
        for line in BAD_LINES {
            self.line(line);
        }
        self.show();
    }

    fn good_lines(&mut self) {
        self.part("small hexadecimal digits are good; a session is four digits");
        self.line("feed 0 512 c000030008");
        self.line("feed 0 512 0bC0");
        self.finish(3, 512);
        self.mode_send(0, ModeSend::of(0xABCD, &[22]));
        self.line("finish aBcD 512");
        self.line("finish abcd 512");
        self.show();
    }

    /// One packet with rooms one byte short, exact and one byte more. The
    /// first is refused; the others are served.
    fn rooms_for(&mut self, line: u8, bytes: &[u8], reply: usize) {
        for room in [reply - 1, reply, reply + 1] {
            self.feed_lent(line, room, bytes, TABLE);
        }
    }

    /// The same for a request.
    fn rooms_of(&mut self, line: u8, command: u16, data: &[u8], reply: usize) {
        self.rooms_for(line, &wire(command, data), reply);
    }

    fn rooms(&mut self) {
        self.part("rooms one byte short (refused 9), exact, one more: each error, password and node reply");
        self.start(&PASSWORD, TABLE);
        for node in 1..9 {
            self.enrol(node, 0x0080);
        }
        self.enrol(0xC0, 0xC0DB);
        self.enrol(0xC1, 0x0080);
        self.rooms_of(0, 0x0008, &[], 8);
        self.rooms_of(0, 0x0005, &[], 8);
        self.rooms_for(0, ROWS[10].wire, 8);
        self.rooms_of(0, PASSWORD_ENTER, &OTHER, 8);
        self.rooms_of(0, PASSWORD_ENTER, &PASSWORD, 8);
        self.rooms_of(0, PASSWORD_CHANGE, &[OTHER, PASSWORD].concat(), 8);
        self.rooms_of(0, PASSWORD_CHANGE, &[PASSWORD, PASSWORD].concat(), 8);
        // Nodes C0 and DB are escaped; DB is above 199. The check byte comes to
        // C0 for node C1 with status 1, and for node C0 with a variation.
        let name = |node| [&[node][..], &[END; 64]].concat();
        self.rooms_of(0, SET_NAME, &name(0xC0), 10);
        self.rooms_of(0, SET_NAME, &name(0xDB), 10);
        self.rooms_of(0, SET_ORDER, &[0xC0, END, ESC, END], 10);
        self.rooms_of(0, SET_ORDER, &[0xDB, END, ESC, END], 10);
        self.rooms_of(0, GET_NODE, &[0xDB], 10);
        self.rooms_of(0, SET_VARIATION, &[0xDB, 4], 10);
        self.rooms_of(0, SET_VARIATION, &[0xC1, 5], 10);
        self.rooms_of(0, SET_VARIATION, &[0xC0, 4], 11);
        self.rooms_of(0, REMOVE_NODES, &bits(&[0xC1]), 8);
    }

    fn rooms_of_sessions(&mut self) {
        self.part("rooms of mode send 0, 1, 3, 4, 5 and of finish; refusal 13 with short rooms");
        let send = |session, node| ModeSend::of(session, &[node]).data();
        self.rooms_of(0, MODE_SEND, &send(0xC0DB, 200), 12);
        self.feed_lent(0, 11, &wire(MODE_SEND, &send(0xC0DB, 1)), TABLE);
        self.show();
        self.feed_lent(0, 12, &wire(MODE_SEND, &send(0xC0DB, 1)), TABLE);
        self.rooms_of(0, MODE_SEND, &send(0xC0DB, 2), 12);
        self.rooms_of(0, MODE_SEND, &send(0xDBC0, 1), 12);
        for session in 2..9 {
            let room = if session == 2 { 11 } else { 10 };
            let data = send(session, session as u8);
            self.feed_lent(0, room, &wire(MODE_SEND, &data), TABLE);
        }
        self.rooms_of(0, MODE_SEND, &send(0xDBC0, 1), 12);
        for room in [0, 8, 9, 10, 11] {
            self.finish(0xDBC0, room);
            self.finish(0xC0DB, room);
        }
        for (session, room) in [(2, 0), (2, 8), (2, 10), (3, 300), (4, 511), (5, 512)] {
            self.finish(session, room);
        }
        self.show();
    }

    fn rooms_of_get(&mut self) {
        self.part(
            "rooms of get: both frames or none; the longest reply has 211 bytes, the shortest 7",
        );
        for room in [
            0, 7, 8, 9, 10, 140, 210, 211, 212, 300, 400, 511, 512, 513, 8192,
        ] {
            self.feed_lent(0, room, &wire(GET_NODE, &[0xC0]), TABLE);
        }
        for room in [130, 139, 140, 141] {
            self.feed_lent(0, room, &wire(GET_NODE, &[1]), TABLE);
        }
        self.rooms_of(0, VIRGIN_STATE, &[], 7);
        self.show();
    }

    fn refused_for_room(&mut self) {
        self.part(
            "refused 9: reading states stay, other lines go on; nothing to write needs no room",
        );
        for before in [&[END, 1, 2][..], &[END, 1, ESC], &[END, ESC, 0], &[1; 256]] {
            self.feed_lent(1, 0, before, TABLE);
            self.feed_lent(1, 0, &[END, END], TABLE);
            self.feed_lent(1, 7, &[END, END], TABLE);
            self.show();
            self.enter(0, &OTHER);
            self.feed_lent(1, 8, &[END, END], TABLE);
        }
        for bytes in [&[][..], &[END], &[END; 3], &[END, 0, 3, 0]] {
            self.feed_lent(1, 0, bytes, TABLE);
        }
        self.show();
    }
}

#[cfg(test)]
mod tests {
    use super::*;
    use crate::reach::Reach;

    /// What needs 200 nodes, a line of 40000 bytes, a last line without LF or
    /// several hundred feeds of one packet is left out.
    #[test]
    fn everything_is_reached() {
        let mut reach = Reach::default();
        reach.answer(script().as_bytes());
        let mut missing = reach.missing_rows();
        let left_out = [
            "40000 bytes",
            "too long",
            "without LF",
            "all nodes",
            "packet 2: cut at every place",
        ];
        missing.retain(|row| !left_out.iter().any(|words| row.contains(words)));
        assert!(missing.is_empty(), "{missing:?}");
    }

    #[test]
    fn the_stored_example_is_the_tour() {
        let answers = Reach::default().answer(script().as_bytes());
        assert!(include_str!("../examples/all.script") == script());
        assert!(include_bytes!("../examples/all.answers")[..] == answers);
    }

    #[test]
    fn the_parts_are_listed() {
        assert!(include_str!("../README.md").contains(&contents()));
    }

    #[test]
    fn the_script_is_short() {
        assert!(script().lines().count() < 900);
        assert!(script().lines().all(|line| line.len() < 1200));
    }
}
