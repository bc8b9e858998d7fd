//! Raw captures of several lines turned into a replay script.
//!
//! A mix is text in time order. A line is one of:
//!
//! - `LINE BYTES`: these bytes came in on this line, 0 to 255; there may be
//!   spaces between the bytes;
//! - a call of the replay format other than `feed`, which stands as it is;
//! - empty, or a remark that begins with `#`, which stand as they are.
//!
//! Captures as `socat -x` writes them are merged by their times.
//!
//! A feed stops after its first outcome, so what it does not use is fed
//! again. The reader tells how much that is.

pub mod socat;

use std::error::Error;
use std::io::{self, BufRead, Write};

use crate::hub::nodes::TABLE;
use crate::hub::{LINES, ROOM_ENOUGH};
use crate::plain::Reader;
use crate::replay::call::{self, is_remark, Call};
use socat::Block;

/// The most bytes of one feed, far below what a line of a script can hold.
const FEED_MOST: usize = 1024;

/// Writes one script of several parts.
pub struct Mixer<Output> {
    records: [Reader; LINES],
    output: Output,
}

impl<Output: Write> Mixer<Output> {
    pub fn new(output: Output) -> Self {
        Mixer {
            records: [const { Reader::new() }; LINES],
            output,
        }
    }

    /// Adds a mix.
    pub fn add_mix(&mut self, input: impl BufRead) -> Result<(), Box<dyn Error>> {
        for (line, number) in input.split(b'\n').zip(1..) {
            let line = line?;
            if is_remark(&line) {
                self.output.write_all(&[&line[..], b"\n"].concat())?;
                continue;
            }
            let calls = calls(&line, &mut self.records)
                .ok_or_else(|| format!("line {number}: neither bytes of a line nor a call"))?;
            self.write(&calls)?;
        }
        Ok(())
    }

    /// Adds captures of some lines, merged by time. Each block has its time
    /// as a remark.
    pub fn add_captures(&mut self, captures: Vec<(u8, Vec<Block>)>) -> io::Result<()> {
        for (line, block) in socat::merged(captures) {
            writeln!(self.output, "# {} line {line}", block.time)?;
            let feeds = feeds(line, &block.bytes, &mut self.records);
            self.write(&feeds)?;
        }
        Ok(())
    }

    pub fn end(mut self) -> io::Result<()> {
        self.output.flush()
    }

    fn write(&mut self, calls: &[Call]) -> io::Result<()> {
        for call in calls {
            writeln!(self.output, "{call}")?;
        }
        Ok(())
    }
}

/// The calls that a line of a mix stands for.
fn calls(line: &[u8], records: &mut [Reader; LINES]) -> Option<Vec<Call>> {
    match Call::parse(line) {
        Ok(Call::Feed { .. }) => None,
        Ok(call) => {
            if let Call::Close { line } = call {
                if let Some(record) = records.get_mut(usize::from(line)) {
                    *record = Reader::new();
                }
            }
            Some(vec![call])
        }
        Err(_) => {
            let text = std::str::from_utf8(line).ok()?;
            let (number, bytes) = text.split_once(' ')?;
            let number = number.parse().ok()?;
            Some(feeds(number, &spaced(bytes)?, records))
        }
    }
}

/// Bytes as `-` or as pairs of digits with any spaces between them.
fn spaced(text: &str) -> Option<Vec<u8>> {
    let groups = text.split([' ', '\t']).filter(|group| !group.is_empty());
    let groups: Option<Vec<_>> = groups
        .map(|group| call::bytes(group.as_bytes()).ok())
        .collect();
    let groups = groups.filter(|groups| !groups.is_empty())?;
    Some(groups.concat())
}

/// The feeds of some bytes. A line above 3 is refused whatever it is fed.
fn feeds(line: u8, bytes: &[u8], records: &mut [Reader; LINES]) -> Vec<Call> {
    let mut feeds = Vec::new();
    let mut rest = bytes;
    while !rest.is_empty() {
        let lent = &rest[..rest.len().min(FEED_MOST)];
        let used = match records.get_mut(usize::from(line)) {
            Some(record) => record.read(lent).0,
            None => rest.len(),
        };
        feeds.push(Call::Feed {
            line,
            room: ROOM_ENOUGH,
            bytes: lent.to_vec(),
            table: TABLE,
        });
        rest = &rest[used..];
    }
    feeds
}

#[cfg(test)]
mod tests {
    use super::*;
    use crate::generate;
    use crate::paper;
    use crate::random::Random;
    use crate::reach::Reach;

    fn script(mix: &str) -> Result<String, Box<dyn Error>> {
        let mut script = Vec::new();
        let mut mixer = Mixer::new(&mut script);
        mixer.add_mix(mix.as_bytes())?;
        mixer.end()?;
        Ok(String::from_utf8(script)?)
    }

    #[test]
    fn what_is_not_used_is_fed_again() {
        let mix = "# two frames\n0 C0000300\n\n0 0102C00003000102C000\nclose 0\n0 C0\n9 C0\n";
        let expected = "# two frames\nfeed 0 512 C0000300\n\nfeed 0 512 0102C00003000102C000\n\
            feed 0 512 0003000102C000\nfeed 0 512 00\nclose 0\nfeed 0 512 C0\nfeed 9 512 C0\n";
        assert_eq!(script(mix).unwrap(), expected);
    }

    #[test]
    fn bytes_may_have_spaces_between_them() {
        for mix in ["0 c0 00 03", "0  c0 00 03 ", "0 C000\t03", "0 C0 0003"] {
            assert_eq!(script(mix).unwrap(), "feed 0 512 C00003\n", "{mix}");
        }
        assert_eq!(script("0 -").unwrap(), "");
    }

    #[test]
    fn other_lines_are_errors() {
        for mix in [
            "feed 0 512 C0",
            "0",
            "0 ",
            "0 C",
            "0 C 0",
            "0 C0\r",
            "256 C0",
            "stop",
            " 0 C0",
        ] {
            assert!(script(mix).is_err(), "{mix}");
        }
    }

    /// A frame that begins in one block and ends in the next but one.
    #[test]
    fn captures_are_fed_in_the_order_of_their_times() {
        let block = |time: &str, bytes: &[u8]| Block {
            time: time.to_string(),
            bytes: bytes.to_vec(),
        };
        let one = vec![block("12:00:01", &[0xC0, 0]), block("12:00:03", &[0xC0, 1])];
        let other = vec![block("12:00:02", &[1, 0xC0])];
        let mut script = b"show\n".to_vec();
        let mut mixer = Mixer::new(&mut script);
        mixer.add_captures(vec![(3, one), (1, other)]).unwrap();
        let expected = "show\n# 12:00:01 line 3\nfeed 3 512 C000\n# 12:00:02 line 1\n\
            feed 1 512 01C0\n# 12:00:03 line 3\nfeed 3 512 C001\nfeed 3 512 01\n";
        assert_eq!(String::from_utf8(script).unwrap(), expected);
    }

    /// The outcomes in the answers are those of the whole capture.
    #[test]
    fn no_outcome_is_lost() {
        let random = &mut Random::new(&[8]);
        for index in 0..200 {
            let kind = random.pick(&generate::Kind::ALL);
            let capture = generate::capture(kind, 8, index);
            let part = random.between(1, 200);
            let digits = |part: &[u8]| part.iter().map(|byte| format!("{byte:02x}")).collect();
            let lines = capture.chunks(part).map(digits);
            let mix: String = lines.map(|part: String| format!("2 {part}\n")).collect();
            let answers = Reach::default().answer(script(&mix).unwrap().as_bytes());
            let answers = String::from_utf8(answers).unwrap();
            let told = answers.lines().filter(|answer| !answer.contains(" none "));
            assert_eq!(told.count(), paper::read(&capture).outcomes.len());
        }
    }

    #[test]
    fn the_stored_example() {
        let script = script(include_str!("../examples/two-images.mix")).unwrap();
        let answers = Reach::default().answer(script.as_bytes());
        assert!(include_str!("../examples/two-images.script") == script);
        assert!(include_bytes!("../examples/two-images.answers")[..] == answers);
    }
}
