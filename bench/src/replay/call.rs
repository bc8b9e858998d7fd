//! A line of a script: a remark, one call, or a bad line.

use std::fmt;

use super::{write_bytes, ROOM_BUFFER, TABLE_BUFFER};
use crate::hub::nodes::TABLE;

/// The longest line.
pub const LINE_MOST: usize = 40000;
/// The most digits of a number.
const DIGITS_MOST: usize = 5;
/// The digits of a session.
const SESSION_DIGITS: usize = 4;
/// The greatest numbers at their places; rooms and tables have the sizes of
/// their buffers.
const NODE: usize = 255;
const TYPE: usize = 65535;
const LINE: usize = 255;

#[derive(Clone, Debug, PartialEq, Eq)]
pub enum Call {
    Start {
        password: Vec<u8>,
        table: usize,
    },
    Enrol {
        node: u8,
        kind: u16,
        table: usize,
    },
    Feed {
        line: u8,
        room: usize,
        bytes: Vec<u8>,
        table: usize,
    },
    Close {
        line: u8,
    },
    Finish {
        session: u16,
        room: usize,
    },
    Show,
    Table,
}

/// Why a line is bad.
#[derive(Clone, Copy, Debug, PartialEq, Eq)]
pub enum Bad {
    TooLong,
    Word(BadWord),
}

/// The first word of a line that cannot be taken.
#[derive(Clone, Copy, Debug, PartialEq, Eq, PartialOrd, Ord)]
pub struct BadWord {
    /// The line's call, empty if its first word is no call.
    pub call: &'static str,
    /// The number of the word, from 1.
    pub number: usize,
    pub why: Why,
}

/// Why a word cannot be taken: the first of these that applies. The answer
/// does not tell it; a tally counts it.
#[derive(Clone, Copy, Debug, PartialEq, Eq, PartialOrd, Ord)]
pub enum Why {
    Missing,
    /// Made by a leading, trailing or doubled space.
    Empty,
    TooMany,
    Return,
    Tab,
    Capital,
    OtherCall,
    Sign,
    NoNumber,
    LeadingZero,
    ManyDigits,
    OutOfRange,
    NoHexadecimal,
    OddDigits,
    FewerDigits,
    MoreDigits,
}

impl Why {
    pub fn name(self) -> &'static str {
        match self {
            Why::Missing => "missing",
            Why::Empty => "empty",
            Why::TooMany => "too many",
            Why::Return => "CR",
            Why::Tab => "tab",
            Why::Capital => "capital",
            Why::OtherCall => "no call",
            Why::Sign => "sign",
            Why::NoNumber => "no number",
            Why::LeadingZero => "leading zero",
            Why::ManyDigits => "six digits",
            Why::OutOfRange => "out of range",
            Why::NoHexadecimal => "no digit",
            Why::OddDigits => "odd digits",
            Why::FewerDigits => "under four digits",
            Why::MoreDigits => "above four digits",
        }
    }
}

/// What a place behind a call word asks for. A table may be left out.
#[derive(Clone, Copy, Debug, PartialEq, Eq)]
pub enum Place {
    Number(usize),
    Bytes,
    Session,
    Table,
}

impl Place {
    /// All ways in which a word at this place can be bad.
    fn whys(self) -> Vec<Why> {
        let mut whys = vec![Why::Empty, Why::Return, Why::Tab];
        if self != Place::Table {
            whys.push(Why::Missing);
        }
        match self {
            Place::Number(_) | Place::Table => whys.extend([
                Why::Sign,
                Why::NoNumber,
                Why::LeadingZero,
                Why::ManyDigits,
                Why::OutOfRange,
            ]),
            Place::Bytes => whys.extend([Why::NoHexadecimal, Why::OddDigits]),
            Place::Session => {
                whys.extend([Why::NoHexadecimal, Why::FewerDigits, Why::MoreDigits]);
            }
        }
        whys
    }
}

/// The call words with what stands behind them.
pub const FORMS: [(&str, &[Place]); 7] = [
    ("start", &[Place::Bytes, Place::Table]),
    (
        "enrol",
        &[Place::Number(NODE), Place::Number(TYPE), Place::Table],
    ),
    (
        "feed",
        &[
            Place::Number(LINE),
            Place::Number(ROOM_BUFFER),
            Place::Bytes,
            Place::Table,
        ],
    ),
    ("close", &[Place::Number(LINE)]),
    ("finish", &[Place::Session, Place::Number(ROOM_BUFFER)]),
    ("show", &[]),
    ("table", &[]),
];

/// All bad words that there can be, by call, number and reason.
pub fn bad_words() -> Vec<BadWord> {
    let first = [
        Why::Empty,
        Why::Return,
        Why::Tab,
        Why::Capital,
        Why::OtherCall,
    ];
    let mut all = Vec::new();
    let mut add = |call, number, whys: &[Why]| {
        all.extend(whys.iter().map(|&why| BadWord { call, number, why }));
    };
    add("", 1, &first);
    for (call, places) in FORMS {
        for (place, number) in places.iter().zip(2..) {
            add(call, number, &place.whys());
        }
        add(call, places.len() + 2, &[Why::Empty, Why::TooMany]);
    }
    all.sort();
    all
}

/// Whether a line has no answer.
pub fn is_remark(line: &[u8]) -> bool {
    line.len() <= LINE_MOST && (line.is_empty() || line.starts_with(b"#"))
}

impl Call {
    /// Reads a line without its LF, which is no remark.
    pub fn parse(line: &[u8]) -> Result<Call, Bad> {
        if line.len() > LINE_MOST {
            return Err(Bad::TooLong);
        }
        Call::of_words(line).map_err(Bad::Word)
    }

    fn of_words(line: &[u8]) -> Result<Call, BadWord> {
        let mut words = Words::new(line)?;
        let call = match words.call {
            "start" => Call::Start {
                password: words.bytes()?,
                table: words.table()?,
            },
            "enrol" => Call::Enrol {
                node: words.number(NODE)? as u8,
                kind: words.number(TYPE)? as u16,
                table: words.table()?,
            },
            "feed" => Call::Feed {
                line: words.number(LINE)? as u8,
                room: words.number(ROOM_BUFFER)?,
                bytes: words.bytes()?,
                table: words.table()?,
            },
            "close" => Call::Close {
                line: words.number(LINE)? as u8,
            },
            "finish" => Call::Finish {
                session: words.session()?,
                room: words.number(ROOM_BUFFER)?,
            },
            "show" => Call::Show,
            _ => Call::Table,
        };
        words.end()?;
        Ok(call)
    }

    pub fn word(&self) -> &'static str {
        match self {
            Call::Start { .. } => "start",
            Call::Enrol { .. } => "enrol",
            Call::Feed { .. } => "feed",
            Call::Close { .. } => "close",
            Call::Finish { .. } => "finish",
            Call::Show => "show",
            Call::Table => "table",
        }
    }
}

/// The words of a line, taken one after the other.
struct Words<'a> {
    call: &'static str,
    words: Vec<&'a [u8]>,
    /// The number of the word taken last.
    number: usize,
}

impl<'a> Words<'a> {
    /// Takes the call word. What stands between single spaces is a word.
    fn new(line: &'a [u8]) -> Result<Self, BadWord> {
        let mut words = Words {
            call: "",
            words: line.split(|&byte| byte == b' ').collect(),
            number: 0,
        };
        words.call = words.needed(call_word)?;
        Ok(words)
    }

    fn next(&mut self) -> Option<&'a [u8]> {
        self.number += 1;
        self.words.get(self.number - 1).copied()
    }

    fn bad(&self, why: Why) -> BadWord {
        let (call, number) = (self.call, self.number);
        BadWord { call, number, why }
    }

    /// The next word, if there is one, by what its place asks for.
    fn left_out<Value>(
        &mut self,
        read: impl Fn(&[u8]) -> Result<Value, Why>,
    ) -> Result<Option<Value>, BadWord> {
        let Some(word) = self.next() else {
            return Ok(None);
        };
        let read = no_space(word).and_then(|()| read(word));
        read.map(Some).map_err(|why| self.bad(why))
    }

    /// The next word, which may not be left out.
    fn needed<Value>(
        &mut self,
        read: impl Fn(&[u8]) -> Result<Value, Why>,
    ) -> Result<Value, BadWord> {
        let value = self.left_out(read)?;
        value.ok_or(self.bad(Why::Missing))
    }

    fn number(&mut self, most: usize) -> Result<usize, BadWord> {
        self.needed(|word| number(word, most))
    }

    fn bytes(&mut self) -> Result<Vec<u8>, BadWord> {
        self.needed(bytes)
    }

    fn session(&mut self) -> Result<u16, BadWord> {
        self.needed(session)
    }

    /// The lent length of the table, the right one if the word is left out.
    fn table(&mut self) -> Result<usize, BadWord> {
        let table = self.left_out(|word| number(word, TABLE_BUFFER))?;
        Ok(table.unwrap_or(TABLE))
    }

    fn end(&mut self) -> Result<(), BadWord> {
        match self.next() {
            None => Ok(()),
            Some(b"") => Err(self.bad(Why::Empty)),
            Some(_) => Err(self.bad(Why::TooMany)),
        }
    }
}

/// A word that is not empty and has no other white space than LF in it.
fn no_space(word: &[u8]) -> Result<(), Why> {
    if word.is_empty() {
        Err(Why::Empty)
    } else if word.contains(&b'\r') {
        Err(Why::Return)
    } else if word.contains(&b'\t') {
        Err(Why::Tab)
    } else {
        Ok(())
    }
}

fn call_word(word: &[u8]) -> Result<&'static str, Why> {
    let find = |word: &[u8]| FORMS.iter().find(|(call, _)| call.as_bytes() == word);
    match find(word) {
        Some((call, _)) => Ok(call),
        None if find(&word.to_ascii_lowercase()).is_some() => Err(Why::Capital),
        None => Err(Why::OtherCall),
    }
}

fn number(word: &[u8], most: usize) -> Result<usize, Why> {
    if matches!(word[0], b'+' | b'-') {
        return Err(Why::Sign);
    }
    if !word.iter().all(u8::is_ascii_digit) {
        return Err(Why::NoNumber);
    }
    if word.len() > 1 && word[0] == b'0' {
        return Err(Why::LeadingZero);
    }
    if word.len() > DIGITS_MOST {
        return Err(Why::ManyDigits);
    }
    let value = word
        .iter()
        .fold(0, |sum, digit| 10 * sum + usize::from(digit - b'0'));
    if value > most {
        return Err(Why::OutOfRange);
    }
    Ok(value)
}

/// Pairs of digits, at least one, or `-` for no bytes.
pub fn bytes(word: &[u8]) -> Result<Vec<u8>, Why> {
    if word == b"-" {
        return Ok(Vec::new());
    }
    let digits = digits(word)?;
    if digits.len() % 2 != 0 {
        return Err(Why::OddDigits);
    }
    Ok(digits
        .chunks_exact(2)
        .map(|pair| pair[0] << 4 | pair[1])
        .collect())
}

fn session(word: &[u8]) -> Result<u16, Why> {
    let digits = digits(word)?;
    if digits.len() < SESSION_DIGITS {
        return Err(Why::FewerDigits);
    }
    if digits.len() > SESSION_DIGITS {
        return Err(Why::MoreDigits);
    }
    Ok(digits
        .iter()
        .fold(0, |sum, &digit| sum << 4 | u16::from(digit)))
}

/// Hexadecimal digits in either case.
fn digits(word: &[u8]) -> Result<Vec<u8>, Why> {
    word.iter().map(|&byte| digit(byte)).collect()
}

fn digit(byte: u8) -> Result<u8, Why> {
    match byte {
        b'0'..=b'9' => Ok(byte - b'0'),
        b'A'..=b'F' => Ok(byte - b'A' + 10),
        b'a'..=b'f' => Ok(byte - b'a' + 10),
        _ => Err(Why::NoHexadecimal),
    }
}

/// The call as a line of a script. The table is left out if it is right.
impl fmt::Display for Call {
    fn fmt(&self, out: &mut fmt::Formatter) -> fmt::Result {
        let table = match self {
            Call::Start { password, table } => {
                write!(out, "start {}", hex(password))?;
                *table
            }
            Call::Enrol { node, kind, table } => {
                write!(out, "enrol {node} {kind}")?;
                *table
            }
            Call::Feed {
                line,
                room,
                bytes,
                table,
            } => {
                write!(out, "feed {line} {room} {}", hex(bytes))?;
                *table
            }
            Call::Close { line } => return write!(out, "close {line}"),
            Call::Finish { session, room } => return write!(out, "finish {session:04X} {room}"),
            Call::Show | Call::Table => return write!(out, "{}", self.word()),
        };
        if table != TABLE {
            write!(out, " {table}")?;
        }
        Ok(())
    }
}

/// Bytes as a script has them.
pub fn hex(bytes: &[u8]) -> String {
    let mut text = Vec::new();
    write_bytes(bytes, &mut text);
    String::from_utf8(text).expect("digits are text")
}

#[cfg(test)]
mod tests {
    use super::*;

    #[test]
    fn calls_are_read_as_they_are_written() {
        let lines = [
            "start -",
            "start 00FF",
            "start 00 0",
            "enrol 255 65535",
            "enrol 0 0 16384",
            "feed 255 8192 -",
            "feed 0 0 C0 14399",
            "close 255",
            "finish FFFF 8192",
            "finish 0010 0",
            "show",
            "table",
        ];
        for line in lines {
            let call = Call::parse(line.as_bytes()).unwrap();
            assert_eq!(call.to_string(), line);
        }
        for (line, same) in [
            ("feed 0 512 c0 14400", "feed 0 512 C0"),
            ("finish c0dB 512", "finish C0DB 512"),
        ] {
            assert_eq!(Call::parse(line.as_bytes()), Call::parse(same.as_bytes()));
        }
    }

    #[test]
    fn the_longest_line() {
        let long = format!("start {}", "0".repeat(39994)).into_bytes();
        assert!(Call::parse(&long).is_ok());
        let longer = [&long[..], b"0"].concat();
        assert_eq!(Call::parse(&longer), Err(Bad::TooLong));
        let remark = vec![b'#'; LINE_MOST];
        assert!(is_remark(&remark) && is_remark(b"") && is_remark(b"#"));
        assert!(!is_remark(b" ") && !is_remark(b"\r") && !is_remark(b" #"));
        assert!(!is_remark(&[&remark[..], b"#"].concat()));
    }

    /// The first bad word of a line, as the answer tells it, and why.
    #[test]
    fn bad_words_are_found_left_to_right() {
        let lines: [(&[u8], usize, Why); 51] = [
            (b" ", 1, Why::Empty),
            (b" show", 1, Why::Empty),
            (b"\r", 1, Why::Return),
            (b"show\r", 1, Why::Return),
            (b"close\t0", 1, Why::Tab),
            (b"Show", 1, Why::Capital),
            (b"stop", 1, Why::OtherCall),
            (b"stop  x", 1, Why::OtherCall),
            (b"\xEF\xBB\xBFshow", 1, Why::OtherCall),
            (b"show ", 2, Why::Empty),
            (b"show  ", 2, Why::Empty),
            (b"show 0", 2, Why::TooMany),
            (b"show \r", 2, Why::TooMany),
            (b"table # all", 2, Why::TooMany),
            (b"close", 2, Why::Missing),
            (b"close ", 2, Why::Empty),
            (b"close  0", 2, Why::Empty),
            (b"close 0 ", 3, Why::Empty),
            (b"close 0 0", 3, Why::TooMany),
            (b"close 0\r", 2, Why::Return),
            (b"close 0\t", 2, Why::Tab),
            (b"close -1", 2, Why::Sign),
            (b"close +1", 2, Why::Sign),
            (b"close -", 2, Why::Sign),
            (b"close x", 2, Why::NoNumber),
            (b"close 00", 2, Why::LeadingZero),
            (b"close 000001", 2, Why::LeadingZero),
            (b"close 100000", 2, Why::ManyDigits),
            (b"close 256", 2, Why::OutOfRange),
            (b"enrol 0 65536", 3, Why::OutOfRange),
            (b"enrol 1", 3, Why::Missing),
            (b"enrol 256", 2, Why::OutOfRange),
            (b"enrol 0 0 0 0", 5, Why::TooMany),
            (b"feed 0 8193 C0", 3, Why::OutOfRange),
            (b"feed 0 512", 4, Why::Missing),
            (b"feed 0 512 ", 4, Why::Empty),
            (b"feed 0 512 C", 4, Why::OddDigits),
            (b"feed 0 512 CG C", 4, Why::NoHexadecimal),
            (b"feed 0 512 --", 4, Why::NoHexadecimal),
            (b"feed 0 512 C0 16385 1", 5, Why::OutOfRange),
            (b"feed 0 512 C0 14400 0", 6, Why::TooMany),
            (b"start", 2, Why::Missing),
            (b"start 000", 2, Why::OddDigits),
            (b"start - 16385", 3, Why::OutOfRange),
            (b"start - ", 3, Why::Empty),
            (b"finish 3 512", 2, Why::FewerDigits),
            (b"finish 00010 512", 2, Why::MoreDigits),
            (b"finish 001G 512", 2, Why::NoHexadecimal),
            (b"finish - 512", 2, Why::NoHexadecimal),
            (b"finish 0010", 3, Why::Missing),
            (b"finish 0010 8193 0", 3, Why::OutOfRange),
        ];
        for (line, number, why) in lines {
            let Err(Bad::Word(word)) = Call::parse(line) else {
                panic!("{}", String::from_utf8_lossy(line));
            };
            assert_eq!((word.number, word.why), (number, why));
            assert!(bad_words().contains(&word));
        }
    }
}
