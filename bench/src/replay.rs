//! The replay format, second edition: a script of calls in, an answer for
//! each out. `docs/REPLAY.md` has the format.
//!
//! One hub, one table, four reading records and a reply buffer. Memory does
//! not grow with the script.

pub mod call;
pub mod lines;

use std::io::{self, Read, Write};

use crate::hub::nodes::{self, KIND, NAME, NODES, ORDER, PLACEMENT, TABLE, VARIATION};
use crate::hub::refusals::Refusals;
use crate::hub::{Coming, Fed, Finished, Hub, LINES};
use crate::outcome::{Outcome, Refusal};
use crate::plain::{Mode, Reader};
use call::{is_remark, Bad, Call};
use lines::Lines;

/// The table buffer; the part in use is a right table.
pub const TABLE_BUFFER: usize = 16384;
/// The reply buffer, and what it is filled with before each call.
pub const ROOM_BUFFER: usize = 8192;
const FILL: u8 = 0xA5;

/// Answers that are kept before they are written.
const OUTPUT: usize = 64 * 1024;

/// What a line of a script came to.
pub enum Told {
    Remark,
    Bad(Bad),
    Refused(Refusals),
    Done,
    Fed(Fed),
    Finished(Finished),
    Shown,
    Listed,
}

pub struct Replay {
    pub hub: Hub,
    pub records: [Reader; LINES],
    table: Vec<u8>,
    room: [u8; ROOM_BUFFER],
    /// Lines taken so far.
    lines: u64,
}

impl Default for Replay {
    fn default() -> Self {
        Self::new()
    }
}

impl Replay {
    pub fn new() -> Self {
        Replay {
            hub: Hub::new(),
            records: [const { Reader::new() }; LINES],
            table: vec![0; TABLE_BUFFER],
            room: [FILL; ROOM_BUFFER],
            lines: 0,
        }
    }

    /// The part of the table buffer that is a right table.
    pub fn table(&self) -> &[u8] {
        &self.table[..TABLE]
    }

    /// The first bytes of the reply buffer, as the last call left them.
    pub fn written(&self, count: usize) -> &[u8] {
        &self.room[..count]
    }

    /// What a feed of a line up to 3 comes to if its reply fits.
    pub fn coming(&self, line: u8, bytes: &[u8]) -> Option<Coming> {
        let record = self.records.get(usize::from(line))?;
        Some(self.hub.coming(line, bytes, self.table(), record))
    }

    /// Takes one line of a script and writes its answer.
    pub fn line(&mut self, line: &[u8], answer: &mut Vec<u8>) -> Told {
        self.lines += 1;
        if is_remark(line) {
            return Told::Remark;
        }
        match Call::parse(line) {
            Ok(call) => self.call(&call, answer),
            Err(bad) => {
                let told = Told::Bad(bad);
                self.write(&told, 0, answer);
                told
            }
        }
    }

    /// Makes one call and writes its answer.
    fn call(&mut self, call: &Call, answer: &mut Vec<u8>) -> Told {
        self.room.fill(FILL);
        let told = self.made(call).unwrap_or_else(Told::Refused);
        self.write(&told, lent_room(call), answer);
        told
    }

    fn made(&mut self, call: &Call) -> Result<Told, Refusals> {
        let (hub, table, room) = (&mut self.hub, &mut self.table, &mut self.room);
        // A line above 3 has no record of its own.
        let mut other = Reader::new();
        let record = match call {
            Call::Feed { line, .. } | Call::Close { line } => {
                self.records.get_mut(usize::from(*line))
            }
            _ => None,
        };
        let record = record.unwrap_or(&mut other);
        match *call {
            Call::Start {
                ref password,
                table: lent,
            } => hub.start(password, &mut table[..lent])?,
            Call::Enrol {
                node,
                kind,
                table: lent,
            } => hub.enrol(node, kind, &mut table[..lent])?,
            Call::Close { line } => hub.close(line, record)?,
            Call::Feed {
                line,
                room: lent_room,
                ref bytes,
                table: lent,
            } => {
                let (table, room) = (&mut table[..lent], &mut room[..lent_room]);
                return hub.feed(line, bytes, table, record, room).map(Told::Fed);
            }
            Call::Finish {
                session,
                room: lent,
            } => return hub.finish(session, &mut room[..lent]).map(Told::Finished),
            Call::Show => return Ok(Told::Shown),
            Call::Table => return Ok(Told::Listed),
        }
        Ok(Told::Done)
    }

    /// Writes the answer of a line that is no remark. The call was lent so
    /// much room.
    fn write(&self, told: &Told, lent: usize, answer: &mut Vec<u8>) {
        let room = &self.room[..lent];
        // What the call may not have written.
        let mut kept = room;
        match told {
            Told::Fed(fed) => {
                let (reply, behind) = room.split_at(fed.reply);
                write_fed(fed, reply, answer);
                kept = behind;
            }
            Told::Finished(finished) => {
                let (reply, behind) = room.split_at(finished.reply);
                put(answer, format_args!("finished {} reply ", finished.line));
                write_bytes(reply, answer);
                kept = behind;
            }
            Told::Refused(refusals) => put(answer, format_args!("refused {}", refusals.given())),
            Told::Bad(Bad::TooLong) => {
                put(answer, format_args!("bad line {} too long", self.lines));
            }
            Told::Bad(Bad::Word(word)) => {
                let (line, word) = (self.lines, word.number);
                put(answer, format_args!("bad line {line} word {word}"));
            }
            Told::Done => answer.extend(b"done"),
            Told::Shown => self.show(answer),
            Told::Listed => self.list(answer),
            Told::Remark => {}
        }
        if kept.iter().any(|&byte| byte != FILL) {
            answer.extend(b" spilled");
        }
        answer.push(b'\n');
    }

    /// The state, but for the LF behind `end`.
    fn show(&self, answer: &mut Vec<u8>) {
        answer.extend(b"login ");
        answer.extend(self.hub.logins.map(|login| b'0' + u8::from(login)));
        answer.push(b'\n');
        for (slot, session) in self.hub.sessions.slots.iter().enumerate() {
            let Some(session) = session else { continue };
            let (number, line) = (session.number, session.line);
            put(
                answer,
                format_args!("slot {slot} session {number:04X} line {line} nodes"),
            );
            for node in &session.nodes {
                put(answer, format_args!(" {node}"));
            }
            answer.push(b'\n');
        }
        for node in 0..NODES as u8 {
            let record = nodes::record(&self.table, node);
            if record.iter().any(|&byte| byte != 0) {
                put(answer, format_args!("node {node} "));
                write_bytes(record, answer);
                answer.push(b'\n');
            }
        }
        for (line, record) in self.records.iter().enumerate() {
            let mode = record.mode();
            put(answer, format_args!("line {line} {} ", mode_name(mode)));
            write_bytes(record.held(), answer);
            if let Mode::Skipping(broken) = mode {
                put(answer, format_args!(" {}", broken.places()));
            }
            answer.push(b'\n');
        }
        answer.extend(b"end");
    }

    /// The nodes in use for people, but for the LF behind `end`.
    fn list(&self, answer: &mut Vec<u8>) {
        for node in nodes::all_in_use(&self.table) {
            let record = nodes::record(&self.table, node);
            let (kind, order) = (nodes::two(record, KIND), nodes::two(record, ORDER));
            let (placement, variation) = (record[PLACEMENT], record[VARIATION]);
            put(
                answer,
                format_args!(
                    "node {node} type {kind:04X} order {order} placement {placement} \
                    variation {variation} name \""
                ),
            );
            write_text(&record[NAME], answer);
            answer.extend(b"\"\n");
        }
        answer.extend(b"end");
    }
}

/// Answers a whole script. What it has to say is written before it waits for
/// more input.
pub fn run(input: impl Read, mut output: impl Write) -> io::Result<()> {
    let mut replay = Replay::new();
    let mut lines = Lines::new(input);
    let mut line = Vec::new();
    let mut answer = Vec::new();
    loop {
        let more = lines.next(&mut line, || write_out(&mut answer, &mut output))?;
        if !more {
            return Ok(());
        }
        replay.line(&line, &mut answer);
        if answer.len() >= OUTPUT {
            write_out(&mut answer, &mut output)?;
        }
    }
}

fn write_out(answer: &mut Vec<u8>, output: &mut impl Write) -> io::Result<()> {
    output.write_all(answer)?;
    answer.clear();
    output.flush()
}

fn lent_room(call: &Call) -> usize {
    match *call {
        Call::Feed { room, .. } | Call::Finish { room, .. } => room,
        _ => 0,
    }
}

pub fn mode_name(mode: Mode) -> &'static str {
    match mode {
        Mode::Taking => "plain",
        Mode::Escaped => "escaped",
        Mode::Skipping(broken) if broken.refusal == Refusal::WrongEscape => "skip1",
        Mode::Skipping(_) => "skip2",
    }
}

fn write_fed(fed: &Fed, reply: &[u8], answer: &mut Vec<u8>) {
    put(answer, format_args!("used {} ", fed.used));
    match fed.outcome {
        None => answer.extend(b"none"),
        Some(Outcome::Frame { command, data }) => {
            put(answer, format_args!("frame {command:04X} data {data}"));
        }
        Some(Outcome::Refused(broken)) => put(answer, format_args!("packet {broken}")),
    }
    answer.extend(b" reply ");
    write_bytes(reply, answer);
}

fn put(answer: &mut Vec<u8>, text: std::fmt::Arguments) {
    answer.write_fmt(text).expect("a vector takes every byte");
}

/// Bytes as capital hexadecimal digits, `-` for none.
pub fn write_bytes(bytes: &[u8], text: &mut Vec<u8>) {
    const DIGITS: &[u8; 16] = b"0123456789ABCDEF";
    if bytes.is_empty() {
        text.push(b'-');
    }
    let pair = |byte: &u8| {
        let (high, low) = (byte >> 4, byte & 15);
        [DIGITS[usize::from(high)], DIGITS[usize::from(low)]]
    };
    text.reserve(2 * bytes.len());
    text.extend(bytes.iter().flat_map(pair));
}

/// A name as text: up to its first zero byte, between quotes.
fn write_text(name: &[u8], text: &mut Vec<u8>) {
    for &byte in name.iter().take_while(|&&byte| byte != 0) {
        match byte {
            b'"' | b'\\' => text.extend([b'\\', byte]),
            0..=0x1F | 0x7F => put(text, format_args!("\\x{byte:02X}")),
            _ => text.push(byte),
        }
    }
}

#[cfg(test)]
mod tests;
