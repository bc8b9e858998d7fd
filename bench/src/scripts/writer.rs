//! Writes a script and runs the model beside it.

use crate::hub::nodes::TABLE;
use crate::hub::{LINES, ROOM_ENOUGH};
use crate::random::Random;
use crate::replay::call::Call;
use crate::replay::{Replay, Told, ROOM_BUFFER, TABLE_BUFFER};

/// One feed in so many is lent something that may be refused.
const REFUSED_ONCE_IN: usize = 12;
/// One feed in so many has a room that its reply mostly does not fit, and one
/// send in so many has a line where most feeds have.
const SHORT_ONCE_IN: usize = 12;
const SHORT_LINE_ONCE_IN: usize = 8;
/// One feed in so many has no bytes.
const EMPTY_ONCE_IN: usize = 40;
/// The longest parts to draw from. Short ones make many calls.
pub const LONGEST_PARTS: [usize; 8] = [3, 20, 100, 100, 600, 600, 600, 600];

pub struct Writer {
    pub script: Vec<u8>,
    /// Lines of the script so far.
    pub calls: usize,
    pub replay: Replay,
    pub random: Random,
    /// A line whose rooms are mostly too short.
    short_line: Option<u8>,
    answer: Vec<u8>,
}

impl Writer {
    pub fn new(random: Random) -> Self {
        Writer {
            script: Vec::new(),
            calls: 0,
            replay: Replay::new(),
            random,
            short_line: None,
            answer: Vec::new(),
        }
    }

    /// The numbers of the open sessions, by slot.
    pub fn open_sessions(&self) -> Vec<u16> {
        let sessions = &self.replay.hub.sessions;
        sessions.open().map(|open| open.number).collect()
    }

    /// Writes a call.
    pub fn call(&mut self, call: Call) -> Told {
        self.line(call.to_string().as_bytes())
    }

    /// Writes any line.
    pub fn line(&mut self, line: &[u8]) -> Told {
        self.script.extend(line);
        self.script.push(b'\n');
        self.calls += 1;
        self.answer.clear();
        self.replay.line(line, &mut self.answer)
    }

    /// Sends bytes on one line.
    pub fn send_one(&mut self, line: u8, wire: Vec<u8>) {
        let mut waiting: [Vec<u8>; LINES] = Default::default();
        waiting[usize::from(line)] = wire;
        self.send(waiting);
    }

    /// Sends bytes on all lines, in parts of drawn lengths and in drawn
    /// order. What a feed does not use is fed again.
    pub fn send(&mut self, mut waiting: [Vec<u8>; LINES]) {
        let longest = self.random.pick(&LONGEST_PARTS);
        let short = self.random.once_in(SHORT_LINE_ONCE_IN);
        self.short_line = short.then(|| self.random.below(LINES) as u8);
        while let Some(line) = self.drawn_line(&waiting) {
            let part = self.part(&waiting[line], longest);
            let used = self.feed(line as u8, part);
            waiting[line].drain(..used);
        }
        self.short_line = None;
    }

    /// The first bytes of what waits, sometimes none.
    pub fn part(&mut self, waiting: &[u8], longest: usize) -> Vec<u8> {
        let length = if self.random.once_in(EMPTY_ONCE_IN) {
            0
        } else {
            self.random.between(1, longest)
        };
        waiting[..length.min(waiting.len())].to_vec()
    }

    /// One of the lines that have bytes waiting.
    fn drawn_line(&mut self, waiting: &[Vec<u8>; LINES]) -> Option<usize> {
        let lines: Vec<usize> = (0..LINES)
            .filter(|&line| !waiting[line].is_empty())
            .collect();
        (!lines.is_empty()).then(|| self.random.pick(&lines))
    }

    /// Feeds a line and tells how many bytes were used. Sometimes the lent
    /// lengths are wrong, or the same bytes go to a line above 3. What was
    /// refused for its room is often fed again at once.
    pub fn feed(&mut self, line: u8, bytes: Vec<u8>) -> usize {
        let right = !self.random.once_in(REFUSED_ONCE_IN);
        let fed_line = if right { line } else { self.any_line(line) };
        let table = if right { TABLE } else { self.any_table() };
        let reply = self.reply_to(line, &bytes);
        let room = if self.is_short(line) {
            self.short_room(reply)
        } else if right {
            self.right_room(reply)
        } else {
            self.any_room(reply)
        };
        let told = self.feed_lent(fed_line, room, &bytes, table);
        match told {
            Told::Fed(fed) if fed_line == line => fed.used,
            Told::Refused(refusals) if refusals.given() == 9 && self.random.once_in(2) => {
                let room = self.right_room(reply);
                match self.feed_lent(line, room, &bytes, TABLE) {
                    Told::Fed(fed) => fed.used,
                    _ => 0,
                }
            }
            _ => 0,
        }
    }

    /// Writes a feed with these lent lengths.
    pub fn feed_lent(&mut self, line: u8, room: usize, bytes: &[u8], table: usize) -> Told {
        self.call(Call::Feed {
            line,
            room,
            bytes: bytes.to_vec(),
            table,
        })
    }

    /// The length of the reply to a feed of these bytes, 0 for none.
    pub fn reply_to(&self, line: u8, bytes: &[u8]) -> usize {
        let coming = self.replay.coming(line, bytes);
        coming.map_or(0, |coming| coming.reply.len())
    }

    fn is_short(&mut self, line: u8) -> bool {
        if self.short_line == Some(line) {
            !self.random.once_in(4)
        } else {
            self.random.once_in(SHORT_ONCE_IN)
        }
    }

    /// A room that a reply of this length fits, often exactly.
    pub fn right_room(&mut self, reply: usize) -> usize {
        let any = self.random.between(ROOM_ENOUGH, ROOM_BUFFER);
        let less = self.random.between(reply, ROOM_ENOUGH);
        let rooms = [300, 511, ROOM_ENOUGH, ROOM_ENOUGH, ROOM_BUFFER, any, less];
        let near = [reply, reply, reply + 1];
        let room = if self.random.once_in(3) {
            self.random.pick(&near)
        } else {
            self.random.pick(&rooms)
        };
        room.max(reply)
    }

    /// A room that a reply of this length mostly does not fit. The first frame
    /// of two has 9 or 10 bytes.
    pub fn short_room(&mut self, reply: usize) -> usize {
        let below = self.random.below(reply.max(1));
        let last = reply.saturating_sub(1);
        self.random
            .pick(&[0, 0, 1, 6, 7, 8, 9, 10, last, last, last, last, below])
    }

    /// A room that fits half of the time.
    pub fn any_room(&mut self, reply: usize) -> usize {
        if self.random.once_in(2) {
            self.right_room(reply)
        } else {
            self.short_room(reply)
        }
    }

    /// A table length that is right half of the time.
    pub fn any_table(&mut self) -> usize {
        let any = self.random.between(0, TABLE_BUFFER);
        let wrong = self
            .random
            .pick(&[0, 72, TABLE - 1, TABLE + 1, TABLE_BUFFER, any]);
        self.random.pick(&[TABLE, wrong])
    }

    /// This line half of the time, else one above 3.
    fn any_line(&mut self, line: u8) -> u8 {
        let above = self.random.between(LINES, 255) as u8;
        self.random.pick(&[line, line, line, 4, 255, above])
    }
}
