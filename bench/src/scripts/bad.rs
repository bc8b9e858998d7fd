//! Remarks, and bad lines of every kind, made from good ones.

use super::host;
use super::requests;
use super::writer::Writer;
use crate::random::Random;
use crate::replay::call::{bad_words, BadWord, Place, Why, FORMS, LINE_MOST};

/// One long line in so many steps.
const LONG_ONCE_IN: usize = 40;
/// One raw capture in so many steps.
const CAPTURE_ONCE_IN: usize = 40;

pub fn some(writer: &mut Writer) {
    for _ in 0..writer.random.between(1, 6) {
        bad_word(writer);
    }
    if writer.random.once_in(2) {
        remark(writer);
    }
    if writer.random.once_in(LONG_ONCE_IN) {
        long(writer);
    }
    if writer.random.once_in(CAPTURE_ONCE_IN) {
        capture(writer);
    }
}

/// An empty line, or a remark of any bytes.
pub fn remark(writer: &mut Writer) {
    let remarks: [&[u8]; 8] = [
        b"",
        b"",
        b"#",
        b"# remark",
        b"#show",
        b"# show\r",
        b"#\t\x00\x7F\xFF",
        b"##  two # spaces ",
    ];
    let remark = writer.random.pick(&remarks);
    writer.line(remark);
}

/// A raw capture where a script should be. An LF in it ends a line.
fn capture(writer: &mut Writer) {
    let capture = requests::capture(&mut writer.random);
    for line in capture.split(|&byte| byte == b'\n') {
        writer.line(line);
    }
}

/// A script with a CR before each LF.
pub fn with_returns(script: &[u8]) -> Vec<u8> {
    let lines: Vec<_> = script.split(|&byte| byte == b'\n').collect();
    lines.join(&b"\r\n"[..])
}

/// A line with a bad word. All kinds and places come equally often.
pub fn bad_word(writer: &mut Writer) {
    let word = writer.random.pick(&bad_words());
    let line = spoiled(word, writer);
    writer.line(&line);
}

/// A good line spoiled in this way. The words behind the bad one may be
/// anything.
fn spoiled(bad: BadWord, writer: &mut Writer) -> Vec<u8> {
    let form = FORMS.iter().find(|(call, _)| *call == bad.call);
    let (call, places) = match form {
        Some(form) => *form,
        None => writer.random.pick(&FORMS),
    };
    let good = host::call_of(call, writer).to_string().into_bytes();
    let mut words: Vec<Vec<u8>> = good
        .split(|&byte| byte == b' ')
        .map(<[u8]>::to_vec)
        .collect();
    // A table that may be left out stands where it is spoiled or followed.
    if words.len() < bad.number && words.len() <= places.len() {
        words.push(b"14400".to_vec());
    }
    let index = bad.number - 1;
    match bad.why {
        Why::Missing => words.truncate(index),
        Why::Empty => put_empty(&mut words, index, &mut writer.random),
        Why::TooMany => words.push(any_word(&mut writer.random)),
        why => spoil(&mut words[index], why, &mut writer.random),
    }
    if bad.why != Why::Missing && writer.random.once_in(4) {
        spoil_behind(&mut words, index + 1, places, &mut writer.random);
    }
    words.join(&b' ')
}

/// A space more before the word, or nothing in its place.
fn put_empty(words: &mut Vec<Vec<u8>>, index: usize, random: &mut Random) {
    if index < words.len() && random.once_in(2) {
        words[index].clear();
    } else {
        words.insert(index, Vec::new());
    }
}

/// Spoils a word that is no longer looked at, leaves some out, or adds some.
fn spoil_behind(words: &mut Vec<Vec<u8>>, from: usize, places: &[Place], random: &mut Random) {
    match random.below(3) {
        0 => words.truncate(from),
        1 => words.push(any_word(random)),
        _ if from < words.len().min(places.len() + 1) => words[from] = any_word(random),
        _ => {}
    }
}

fn any_word(random: &mut Random) -> Vec<u8> {
    random.pick(&WORDS).to_vec()
}

fn spoil(word: &mut Vec<u8>, why: Why, random: &mut Random) {
    match why {
        Why::Return => put_byte(word, b'\r', random),
        Why::Tab => put_byte(word, b'\t', random),
        Why::Capital => {
            let letter = random.below(word.len());
            word[letter].make_ascii_uppercase();
        }
        Why::OtherCall => *word = random.pick(&OTHER_CALLS).to_vec(),
        Why::Sign => word.insert(0, random.pick(b"+-")),
        Why::NoNumber => *word = random.pick(&NO_NUMBERS).to_vec(),
        Why::LeadingZero => word.insert(0, b'0'),
        Why::ManyDigits => *word = random.pick(&MANY_DIGITS).to_vec(),
        Why::OutOfRange => *word = out_of_range(random),
        Why::NoHexadecimal => spoil_digit(word, random),
        Why::OddDigits if word == b"-" => *word = b"0".to_vec(),
        Why::OddDigits => {
            word.pop();
        }
        Why::FewerDigits => word.truncate(random.between(1, 3)),
        Why::MoreDigits => {
            let more = random.between(1, 5);
            word.extend((0..more).map(|_| random.pick(b"09afAF")));
        }
        Why::Missing | Why::Empty | Why::TooMany => {}
    }
}

/// A number above every limit, or one beside a limit, which is good at some
/// places.
fn out_of_range(random: &mut Random) -> Vec<u8> {
    let near: [&[u8]; 6] = [b"255", b"256", b"8192", b"8193", b"16384", b"16385"];
    let above: [&[u8]; 4] = [b"65536", b"65537", b"70000", b"99999"];
    if random.once_in(2) {
        random.pick(&near).to_vec()
    } else {
        random.pick(&above).to_vec()
    }
}

/// A byte put in front, behind or anywhere.
fn put_byte(word: &mut Vec<u8>, byte: u8, random: &mut Random) {
    let any = random.below(word.len());
    let place = random.pick(&[0, word.len(), word.len(), any]);
    word.insert(place, byte);
}

fn spoil_digit(word: &mut Vec<u8>, random: &mut Random) {
    let place = random.below(word.len());
    let other = random.pick(b"gGxX-_.,;:/@`\x00\x0B\x0C\x7F\x80\xFF");
    if word == b"-" {
        word.push(other);
    } else {
        word[place] = other;
    }
}

const NO_NUMBERS: [&[u8]; 8] = [b"x", b"0x1", b"1.0", b"1,", b"A", b"\xB2", b"0\x00", b"1-"];
const MANY_DIGITS: [&[u8]; 5] = [
    b"100000",
    b"999999",
    b"4294967296",
    b"18446744073709551616",
    b"65536000000000000000000000000000000",
];
const OTHER_CALLS: [&[u8]; 16] = [
    b"stop",
    b"enroll",
    b"feeds",
    b"fee",
    b"clos",
    b"finished",
    b"shows",
    b"tables",
    b"tabl",
    b"report",
    b"-",
    b"0",
    b"end",
    b"\xEF\xBB\xBFshow",
    b"show\x00",
    b"\xC0",
];
const WORDS: [&[u8]; 8] = [b"0", b"-", b"14400", b"\x00", b"\r", b"x", b"#", b"C0"];

/// Lines of about the longest length: calls that would be good if they were
/// not too long, remarks, and others.
pub fn long(writer: &mut Writer) {
    let random = &mut writer.random;
    let starts: [&[u8]; 7] = [
        b"start ",
        b"feed 0 1000 ",
        b"feed 3 512 ",
        b"feed 10 512 ",
        b"#",
        b"#",
        b"long",
    ];
    let mut line = random.pick(&starts).to_vec();
    let digit = random.pick(b"0123456789abcdefABCDEF");
    let more = random.pick(&[0, 0, 0, 1, 1, 2, 25_535, 60_000, 100_000]);
    line.resize(LINE_MOST + more, digit);
    writer.line(&line);
}

#[cfg(test)]
mod tests {
    use super::*;
    use crate::replay::call::{Bad, Call};

    /// Each bad word is made, most of the time as it was asked for.
    #[test]
    fn lines_are_spoiled_as_asked() {
        let mut writer = Writer::new(Random::new(&[7]));
        for word in bad_words() {
            let mut as_asked = 0;
            for _ in 0..200 {
                let line = spoiled(word, &mut writer);
                if Call::parse(&line) == Err(Bad::Word(word)) {
                    as_asked += 1;
                }
            }
            assert!(as_asked > 20, "{word:?} {as_asked}");
        }
    }
}
