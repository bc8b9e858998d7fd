//! Captures as `socat -x` writes them.
//!
//! A block is a header and its bytes. The header tells direction, time and
//! length: `> 2026/11/17 12:00:00.000123456  length=5 from=0 to=4`. The bytes
//! stand behind it as ` c0 00 03 00 01`, all in one line; with `-v` there are
//! sixteen in a line with their text beside them, and `--` behind the last.
//! What socat tells of itself (`-d`) is left out.

use crate::replay::call;

/// The way of some bytes: socat's `>` is from its left address to its right.
#[derive(Clone, Copy, Debug, PartialEq, Eq)]
pub enum Direction {
    Right,
    Left,
}

#[derive(Clone, Debug, PartialEq, Eq)]
pub struct Block {
    /// Date and time as written.
    pub time: String,
    pub bytes: Vec<u8>,
}

/// A block's header, and how many bytes belong to it.
struct Header {
    direction: Direction,
    time: String,
    length: usize,
}

/// The blocks of one direction.
pub fn blocks(capture: &[u8], wanted: Direction) -> Result<Vec<Block>, String> {
    let mut blocks: Vec<Block> = Vec::new();
    let mut missing = 0;
    let mut kept = false;
    for (line, number) in capture.split(|&byte| byte == b'\n').zip(1..) {
        if missing > 0 {
            let bytes = bytes(line).filter(|bytes| bytes.len() <= missing);
            let bytes = bytes.ok_or(format!("line {number}: not the bytes that are missing"))?;
            missing -= bytes.len();
            if let Some(block) = blocks.last_mut().filter(|_| kept) {
                block.bytes.extend(bytes);
            }
        } else if !is_between(line) {
            let header = header(line).ok_or(format!("line {number}: no line of socat -x"))?;
            missing = header.length;
            kept = header.direction == wanted;
            if kept {
                blocks.push(Block {
                    time: header.time,
                    bytes: Vec::new(),
                });
            }
        }
    }
    if missing > 0 {
        return Err(format!("{missing} bytes are missing at the end"));
    }
    Ok(blocks)
}

/// What may stand between blocks.
fn is_between(line: &[u8]) -> bool {
    let socat = b" socat[";
    line.is_empty() || line == b"--" || line.windows(socat.len()).any(|part| part == socat)
}

fn header(line: &[u8]) -> Option<Header> {
    let line = std::str::from_utf8(line).ok()?;
    let mut words = line.split_ascii_whitespace();
    let direction = match words.next()? {
        ">" => Direction::Right,
        "<" => Direction::Left,
        _ => return None,
    };
    let (date, time) = (words.next()?, words.next()?);
    let (seconds, fraction) = time.split_once('.').unwrap_or((time, "0"));
    let right = like(date, "0000/00/00") && like(seconds, "00:00:00");
    let right = right && fraction.bytes().all(|byte| byte.is_ascii_digit());
    let length = words.next()?.strip_prefix("length=")?.parse().ok()?;
    right.then(|| Header {
        direction,
        time: format!("{date} {time}"),
        length,
    })
}

/// Whether a text has digits where the other has zeros, else the same.
fn like(text: &str, other: &str) -> bool {
    let same = |(one, other): (u8, u8)| one == other || other == b'0' && one.is_ascii_digit();
    text.len() == other.len() && text.bytes().zip(other.bytes()).all(same)
}

/// The bytes of a line: each a space and two digits, then nothing, or two
/// spaces and text.
fn bytes(line: &[u8]) -> Option<Vec<u8>> {
    let mut bytes = Vec::new();
    let mut rest = line;
    while let [b' ', high, low, behind @ ..] = rest {
        let Ok(byte) = call::bytes(&[*high, *low]) else {
            break;
        };
        bytes.extend(byte);
        rest = behind;
    }
    let text = rest.is_empty() || rest.starts_with(b"  ");
    (text && !bytes.is_empty()).then_some(bytes)
}

/// Captures merged by time. The blocks of one capture keep their order, even
/// where its clock went back; of two with the same time, that of the capture
/// named first comes first.
pub fn merged<Name: Copy>(captures: Vec<(Name, Vec<Block>)>) -> Vec<(Name, Block)> {
    let mut waiting: Vec<_> = captures
        .into_iter()
        .map(|(name, blocks)| (name, blocks.into_iter().peekable()))
        .collect();
    let mut merged = Vec::new();
    loop {
        let times = waiting.iter_mut().enumerate();
        let first = times
            .filter_map(|(place, (_, blocks))| Some((moment(&blocks.peek()?.time), place)))
            .min();
        let Some((_, place)) = first else {
            return merged;
        };
        let (name, blocks) = &mut waiting[place];
        merged.extend(blocks.next().map(|block| (*name, block)));
    }
}

/// A time to compare by: up to the second, and behind it.
fn moment(time: &str) -> (String, String) {
    let (second, fraction) = time.split_once('.').unwrap_or((time, ""));
    let fraction = fraction.trim_end_matches('0');
    (second.to_string(), fraction.to_string())
}

#[cfg(test)]
mod tests {
    use super::*;

    const CAPTURE: &str = "\
2026/11/17 11:59:59 socat[4711] N opening character device \"/dev/ttyS0\"
> 2026/11/17 12:00:00.000123  length=7 from=0 to=6
 c0 00 03 00 01 02 c0
< 2026/11/17 12:00:00.000456  length=8 from=0 to=7
 c0 00 04 00 00 0c 08 c0
> 2026/11/17 12:00:01.5  length=2 from=7 to=8
 c0 00
";

    /// The same with `-v`: text beside the bytes, and `--`.
    const VERBOSE: &str = "\
> 2026/11/17 12:00:00.000123456  length=18 from=0 to=17
 c0 00 23 30 00 77 69 6e 64 6f 77 20 68 75 62 00  ..#0.window hub.
 40 c0                                            @.
--
< 2026/11/17 12:00:00.000456789  length=1 from=0 to=0
 20
--
";

    fn block(time: &str, bytes: &[u8]) -> Block {
        Block {
            time: format!("2026/11/17 {time}"),
            bytes: bytes.to_vec(),
        }
    }

    #[test]
    fn blocks_of_one_direction() {
        let right = blocks(CAPTURE.as_bytes(), Direction::Right).unwrap();
        let frame = [0xC0, 0, 3, 0, 1, 2, 0xC0];
        let expected = [
            block("12:00:00.000123", &frame),
            block("12:00:01.5", &frame[..2]),
        ];
        assert_eq!(right, expected);
        let left = blocks(CAPTURE.as_bytes(), Direction::Left).unwrap();
        assert_eq!(left.len(), 1);
        assert_eq!(left[0].bytes.len(), 8);
    }

    #[test]
    fn bytes_with_text_beside_them() {
        let right = blocks(VERBOSE.as_bytes(), Direction::Right).unwrap();
        assert_eq!(right.len(), 1);
        assert_eq!(right[0].bytes.len(), 18);
        assert_eq!(right[0].bytes[15..], [0, 0x40, 0xC0]);
        let left = blocks(VERBOSE.as_bytes(), Direction::Left).unwrap();
        assert_eq!(left, [block("12:00:00.000456789", b" ")]);
    }

    #[test]
    fn other_captures_are_errors() {
        let header = "> 2026/11/17 12:00:00.000123  length=2 from=0 to=1\n";
        assert!(blocks(format!("{header} c0 00").as_bytes(), Direction::Right).is_ok());
        for behind in ["", " c0", " c0 00 03", " c0 0", "c0 00", " c0 00 x", header] {
            let capture = format!("{header}{behind}");
            assert!(
                blocks(capture.as_bytes(), Direction::Right).is_err(),
                "{behind}"
            );
        }
        for line in [
            " c0",
            "show",
            "> 2026-11-17 12:00:00  length=2",
            "> 12:00:00  length=2",
        ] {
            assert!(blocks(line.as_bytes(), Direction::Right).is_err(), "{line}");
        }
    }

    #[test]
    fn captures_are_merged_by_time() {
        let one = vec![
            block("12:00:00.1", &[1]),
            block("12:00:02", &[2]),
            block("12:00:01", &[3]),
        ];
        let other = vec![
            block("12:00:00.100000", &[4]),
            block("12:00:00.1000001", &[5]),
            block("12:00:01.5", &[6]),
            block("12:00:03", &[7]),
        ];
        let order: Vec<_> = merged(vec![(0, one), (1, other)])
            .into_iter()
            .map(|(name, block)| (name, block.bytes[0]))
            .collect();
        assert_eq!(
            order,
            [(0, 1), (1, 4), (1, 5), (1, 6), (0, 2), (0, 3), (1, 7)]
        );
    }
}
