//! A plain reader that takes one byte at a time, and the listing by it.
//!
//! It is the other side of the benchmark. Its array is cleared once, when
//! the reader is made, and never between packets.

use std::io::{self, ErrorKind, Read, Write};

use crate::outcome::{
    Broken, DecodedPlace, Outcome, Refusal, WirePlace, END, ESC, ESC_END, ESC_ESC, FRAME_LEAST,
    PACKET_MOST,
};

/// The size of the buffers on both sides of the listing.
const BUFFER: usize = 64 * 1024;
/// More bytes than a line of the listing has.
const LINE_MOST: usize = 32;

/// What the next byte means.
#[derive(Clone, Copy, Debug, PartialEq, Eq)]
pub enum Mode {
    Taking,
    Escaped,
    Skipping(Broken),
}

/// The reading state of one line.
///
/// It counts no wire bytes: how many an open piece has follows from the bytes
/// held. A piece that is skipped holds none, but the places of its fault.
#[derive(Clone)]
pub struct Reader {
    held: [u8; PACKET_MOST],
    count: usize,
    mode: Mode,
}

impl Default for Reader {
    fn default() -> Self {
        Self::new()
    }
}

impl Reader {
    /// A reader between packets.
    pub const fn new() -> Self {
        Reader {
            held: [0; PACKET_MOST],
            count: 0,
            mode: Mode::Taking,
        }
    }

    pub fn mode(&self) -> Mode {
        self.mode
    }

    /// The decoded bytes of the open piece. A settled piece holds none.
    pub fn held(&self) -> &[u8] {
        match self.mode {
            Mode::Skipping(_) => &[],
            Mode::Taking | Mode::Escaped => &self.held[..self.count],
        }
    }

    pub fn is_between_packets(&self) -> bool {
        self.mode == Mode::Taking && self.count == 0
    }

    /// Whether all bytes are the same, those not held too.
    #[cfg(test)]
    pub fn same_bytes(&self, other: &Reader) -> bool {
        (self.held, self.count, self.mode) == (other.held, other.count, other.mode)
    }

    /// Takes bytes up to the first outcome, and tells how many were used.
    pub fn read(&mut self, bytes: &[u8]) -> (usize, Option<Outcome>) {
        for (place, &byte) in bytes.iter().enumerate() {
            if let Some(outcome) = self.push(byte) {
                return (place + 1, Some(outcome));
            }
        }
        (bytes.len(), None)
    }

    /// The data of the frame that was the last outcome, so many bytes. They
    /// stay until the next byte is taken.
    pub fn data(&self, count: usize) -> &[u8] {
        &self.held[4..4 + count]
    }

    /// Takes one wire byte. An END that closes a piece gives its outcome.
    #[inline]
    pub fn push(&mut self, byte: u8) -> Option<Outcome> {
        if byte == END {
            return self.close();
        }
        match self.mode {
            Mode::Taking if byte == ESC => self.mode = Mode::Escaped,
            Mode::Taking => self.hold(byte),
            Mode::Escaped => self.unescape(byte),
            Mode::Skipping(_) => {}
        }
        None
    }

    fn unescape(&mut self, byte: u8) {
        self.mode = Mode::Taking;
        match byte {
            ESC_END => self.hold(END),
            ESC_ESC => self.hold(ESC),
            _ => self.mode = Mode::Skipping(wrong_escape(&self.held[..self.count])),
        }
    }

    #[inline]
    fn hold(&mut self, byte: u8) {
        if let Some(place) = self.held.get_mut(self.count) {
            *place = byte;
            self.count += 1;
        } else {
            self.mode = Mode::Skipping(broken(Refusal::TooLong, &self.held));
        }
    }

    #[inline]
    fn close(&mut self) -> Option<Outcome> {
        let outcome = match self.mode {
            Mode::Taking if self.count == 0 => None,
            Mode::Taking => Some(judge(&self.held[..self.count])),
            Mode::Escaped => Some(Outcome::Refused(wrong_escape(&self.held[..self.count]))),
            Mode::Skipping(broken) => Some(Outcome::Refused(broken)),
        };
        self.count = 0;
        self.mode = Mode::Taking;
        outcome
    }
}

#[inline]
fn judge(packet: &[u8]) -> Outcome {
    let count = packet.len();
    let (refusal, place) = match *packet {
        _ if count < FRAME_LEAST => (Refusal::Short, count),
        [protocol, ..] if protocol != 0 => (Refusal::Protocol, 0),
        [_, length, ..] if length as usize + 2 > count => (Refusal::Shorter, count),
        [_, length, ..] if length as usize + 2 < count => (Refusal::Longer, length as usize + 2),
        _ if packet.iter().fold(0, |sum, byte| sum ^ byte) != 0 => (Refusal::Check, count - 1),
        _ => {
            return Outcome::Frame {
                command: u16::from(packet[2]) << 8 | u16::from(packet[3]),
                data: count - FRAME_LEAST,
            }
        }
    };
    Outcome::Refused(broken(refusal, &packet[..place]))
}

/// A refusal told at the byte behind these decoded ones, or at the END.
fn broken(refusal: Refusal, before: &[u8]) -> Broken {
    Broken {
        refusal,
        wire: WirePlace(wire_bytes(before)),
        decoded: DecodedPlace(before.len()),
    }
}

/// The wrong escape whose ESC stands behind these decoded bytes. It is told
/// at the byte after ESC.
fn wrong_escape(before: &[u8]) -> Broken {
    Broken {
        wire: WirePlace(wire_bytes(before) + 1),
        ..broken(Refusal::WrongEscape, before)
    }
}

/// The number of wire bytes that decoded ones came as: two for an END or ESC,
/// one for each other.
fn wire_bytes(decoded: &[u8]) -> usize {
    let escaped = decoded.iter().filter(|&&byte| byte == END || byte == ESC);
    decoded.len() + escaped.count()
}

/// Lists a capture: a line for each outcome, then the bytes left.
pub fn list(mut input: impl Read, mut output: impl Write) -> io::Result<()> {
    let mut lines = Vec::with_capacity(BUFFER);
    let mut buffer = vec![0; BUFFER];
    let mut reader = Reader::new();
    let mut left = 0;
    loop {
        let count = match input.read(&mut buffer) {
            Ok(0) => break,
            Ok(count) => count,
            Err(error) if error.kind() == ErrorKind::Interrupted => continue,
            Err(error) => {
                output.write_all(&lines)?;
                return Err(error);
            }
        };
        list_part(&mut reader, &buffer[..count], &mut lines, &mut output)?;
        left = left_behind(left, &buffer[..count]);
    }
    writeln!(lines, "left {left}")?;
    output.write_all(&lines)?;
    output.flush()
}

fn list_part(
    reader: &mut Reader,
    part: &[u8],
    lines: &mut Vec<u8>,
    output: &mut impl Write,
) -> io::Result<()> {
    for &byte in part {
        if let Some(outcome) = reader.push(byte) {
            if lines.len() + LINE_MOST > BUFFER {
                output.write_all(lines)?;
                lines.clear();
            }
            add_line(outcome, lines);
        }
    }
    Ok(())
}

/// The bytes since the last END, behind one more part.
fn left_behind(left: u64, part: &[u8]) -> u64 {
    match part.iter().rposition(|&byte| byte == END) {
        Some(end) => (part.len() - end - 1) as u64,
        None => left + part.len() as u64,
    }
}

/// Adds the line of an outcome, byte by byte to keep formatting cheap.
#[inline]
fn add_line(outcome: Outcome, lines: &mut Vec<u8>) {
    match outcome {
        Outcome::Frame { command, data } => {
            let digit = |bits| b"0123456789ABCDEF"[usize::from(command >> bits) & 15];
            lines.extend(b"frame ");
            lines.extend([12, 8, 4, 0].map(digit));
            lines.extend(b" data ");
            add_number(data, lines);
        }
        Outcome::Refused(broken) => {
            lines.extend(b"refused ");
            add_number(broken.refusal as usize, lines);
            lines.extend(b" at ");
            add_number(broken.wire.0, lines);
            lines.push(b' ');
            add_number(broken.decoded.0, lines);
        }
    }
    lines.push(b'\n');
}

/// Adds a number below 1000 in decimal.
#[inline]
fn add_number(number: usize, lines: &mut Vec<u8>) {
    let digit = |number: usize| b'0' + (number % 10) as u8;
    if number >= 100 {
        lines.push(digit(number / 100));
    }
    if number >= 10 {
        lines.push(digit(number / 10));
    }
    lines.push(digit(number));
}

#[cfg(test)]
mod tests {
    use super::*;
    use crate::generate::rows::ROWS;
    use crate::generate::{self, Kind};
    use crate::paper;
    use crate::random::Random;

    /// A source that gives its bytes in parts of 1 to 7.
    struct Parts<'a>(&'a [u8], Random);

    impl Read for Parts<'_> {
        fn read(&mut self, buffer: &mut [u8]) -> io::Result<usize> {
            let count = self.1.between(1, 7).min(self.0.len()).min(buffer.len());
            let (part, rest) = self.0.split_at(count);
            buffer[..count].copy_from_slice(part);
            self.0 = rest;
            Ok(count)
        }
    }

    fn listing(input: impl Read) -> String {
        let mut text = Vec::new();
        list(input, &mut text).unwrap();
        String::from_utf8(text).unwrap()
    }

    #[test]
    fn the_rows_of_the_paper() {
        for row in &ROWS {
            assert_eq!(listing(row.wire), row.told, "{}", row.name);
        }
    }

    #[test]
    fn the_same_as_the_paper_on_each_kind() {
        for kind in Kind::ALL {
            for index in 0..kind.systematic() + 500 {
                let capture = generate::capture(kind, 11, index);
                let expected = paper::render(&paper::read(&capture));
                assert_eq!(listing(&capture[..]), expected, "{} {index}", kind.name());
            }
        }
    }

    #[test]
    fn cutting_the_input_changes_nothing() {
        for kind in Kind::ALL {
            for index in 0..100 {
                let capture = generate::capture(kind, 12, index);
                let parts = Parts(&capture, Random::new(&[index as u64]));
                assert_eq!(
                    listing(parts),
                    listing(&capture[..]),
                    "{} {index}",
                    kind.name()
                );
            }
        }
    }
}
