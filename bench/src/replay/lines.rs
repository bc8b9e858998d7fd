//! A script cut into lines.

use std::io::{self, BufRead, BufReader, ErrorKind, Read};

use super::call::LINE_MOST;

/// The size of the input buffer.
const BUFFER: usize = 64 * 1024;

/// Input cut at LF. What follows the last LF is a line if it is not empty.
pub struct Lines<Input> {
    input: BufReader<Input>,
}

impl<Input: Read> Lines<Input> {
    pub fn new(input: Input) -> Self {
        Lines {
            input: BufReader::with_capacity(BUFFER, input),
        }
    }

    /// Puts the next line in the place of the one before, without its LF. A
    /// line that is too long is kept up to its first byte too many. False at
    /// the end of the input. Where more input is waited for, something is
    /// done before.
    pub fn next(
        &mut self,
        line: &mut Vec<u8>,
        mut before_waiting: impl FnMut() -> io::Result<()>,
    ) -> io::Result<bool> {
        line.clear();
        loop {
            if self.input.buffer().is_empty() {
                before_waiting()?;
            }
            let part = match self.input.fill_buf() {
                Ok(part) => part,
                Err(error) if error.kind() == ErrorKind::Interrupted => continue,
                Err(error) => return Err(error),
            };
            if part.is_empty() {
                return Ok(!line.is_empty());
            }
            let end = part.iter().position(|&byte| byte == b'\n');
            let taken = &part[..end.unwrap_or(part.len())];
            let kept = taken.len().min(LINE_MOST + 1 - line.len());
            line.extend(&taken[..kept]);
            let used = end.map_or(part.len(), |end| end + 1);
            self.input.consume(used);
            if end.is_some() {
                return Ok(true);
            }
        }
    }
}

/// All lines of a script in memory.
pub fn all(script: &[u8]) -> impl Iterator<Item = Vec<u8>> + '_ {
    let mut lines = Lines::new(script);
    std::iter::from_fn(move || {
        let mut line = Vec::new();
        let more = lines.next(&mut line, || Ok(()));
        more.expect("memory is read").then_some(line)
    })
}

#[cfg(test)]
mod tests {
    use super::*;

    fn lines(input: &[u8]) -> Vec<Vec<u8>> {
        all(input).collect()
    }

    #[test]
    fn cut_at_line_feeds() {
        assert!(lines(b"").is_empty());
        assert_eq!(lines(b"\n"), [b""]);
        assert_eq!(lines(b"show"), [b"show"]);
        assert_eq!(lines(b"show\n"), [b"show"]);
        assert_eq!(lines(b"close 0\n\nshow"), [&b"close 0"[..], b"", b"show"]);
    }

    #[test]
    fn a_long_line_is_kept_in_part() {
        let long = [b'x'; 3 * LINE_MOST];
        let cut = lines(&[&long[..], b"\nshow\n", &long[..]].concat());
        let lengths: Vec<_> = cut.iter().map(Vec::len).collect();
        assert_eq!(lengths, [LINE_MOST + 1, 4, LINE_MOST + 1]);
    }

    /// Input that comes in parts, and may end before its end.
    struct Parts<'a>(&'a [&'a [u8]]);

    impl Read for Parts<'_> {
        fn read(&mut self, buffer: &mut [u8]) -> io::Result<usize> {
            let Some((first, rest)) = self.0.split_first() else {
                return Ok(0);
            };
            self.0 = rest;
            buffer[..first.len()].copy_from_slice(first);
            Ok(first.len())
        }
    }

    /// Before each read, and only there, what is to be said is said.
    #[test]
    fn something_is_done_before_waiting() {
        let mut input = Lines::new(Parts(&[b"close 0\nclose 1\nclo", b"se", b" 2\n"]));
        let mut line = Vec::new();
        let mut waits = Vec::new();
        loop {
            let mut count = 0;
            let before_waiting = || {
                count += 1;
                Ok(())
            };
            let more = input.next(&mut line, before_waiting).unwrap();
            waits.push((more, count));
            if !more {
                break;
            }
        }
        assert_eq!(waits, [(true, 1), (true, 0), (true, 2), (false, 1)]);
    }
}
