//! Passwords: how often each kind was given, entered and changed, where its
//! first zero stood and what stood behind, and how wrong ones were wrong.

use std::fmt;

use super::rooms::kind;
use crate::hub::{password, PASSWORD};
use crate::outcome::{Outcome, END, ESC};
use crate::replay::call::Call;
use crate::replay::{Replay, Told};

/// The bytes before the first zero. Stale bytes are such as stand behind it and
/// are not zero; behind 31 bytes there is no place for one.
const BYTES: [&str; 8] = [
    "empty",
    "1 byte",
    "2 to 30 bytes",
    "31 bytes",
    "32 bytes",
    "stale behind none",
    "stale behind 1",
    "stale behind 2 to 30",
];

/// Bytes to escape.
const ESCAPES: [&str; 2] = ["escapes before the zero", "escapes behind it"];

/// A right password beside the bytes in which the kept one was given.
const GIVEN: [&str; 4] = [
    "the bytes given",
    "without the stale bytes given",
    "stale bytes where none were given",
    "other stale bytes",
];

/// A wrong password beside the kept one.
const WRONG: [&str; 11] = [
    "empty",
    "a byte less",
    "shorter prefix",
    "a zero put in",
    "a byte more",
    "longer",
    "longer up to 32",
    "a byte off",
    "other",
    "31 bytes for 32",
    "32 bytes for 31",
];

/// Old and new the same password.
const EQUAL: [&str; 2] = ["the same bytes", "other stale bytes"];

/// What an entry has to do with the change before it.
const CHANGED: [&str; 4] = [
    "the new one",
    "the one before",
    "refused, the old one",
    "refused, the new half",
];

type Cases = &'static [&'static [&'static str]];

/// The lines of the table, each with its cases.
const LINES: [(&str, Cases); 18] = [
    ("start, password", &[&BYTES, &ESCAPES]),
    ("enter 0, password", &[&BYTES, &ESCAPES]),
    ("enter 0, password kept, as given", &[&BYTES]),
    ("enter 0, password sent", &[&GIVEN]),
    ("enter 1, password", &[&BYTES, &ESCAPES]),
    ("enter 1, password kept, as given", &[&BYTES]),
    ("enter 1, password wrong by", &[&WRONG]),
    ("change 0, old password", &[&BYTES, &ESCAPES]),
    ("change 0, password kept, as given", &[&BYTES]),
    ("change 0, old password sent", &[&GIVEN]),
    ("change 0, new password", &[&BYTES, &ESCAPES]),
    ("change 0, equal passwords", &[&EQUAL]),
    ("change 1, old password", &[&BYTES, &ESCAPES]),
    ("change 1, password kept, as given", &[&BYTES]),
    ("change 1, old password wrong by", &[&WRONG]),
    ("change 1, new password", &[&BYTES, &ESCAPES]),
    ("change 1, equal passwords", &[&EQUAL]),
    ("enter behind a change, password", &[&CHANGED]),
];

fn cases(line: usize) -> impl Iterator<Item = &'static str> {
    LINES[line].1.iter().copied().flatten().copied()
}

/// The counts: for each line how often it came, and how often each case.
#[derive(Clone)]
pub struct Passwords {
    counts: Vec<(u64, Vec<u64>)>,
}

impl Default for Passwords {
    fn default() -> Self {
        let none = |line| (0, vec![0; cases(line).count()]);
        Passwords {
            counts: (0..LINES.len()).map(none).collect(),
        }
    }
}

impl Passwords {
    pub fn add(&mut self, other: &Passwords) {
        for ((sum, counts), (more, others)) in self.counts.iter_mut().zip(&other.counts) {
            *sum += more;
            for (count, other) in counts.iter_mut().zip(others) {
                *count += other;
            }
        }
    }

    /// What was never reached.
    pub fn missing(&self) -> Vec<String> {
        let mut missing = Vec::new();
        for (line, (_, counts)) in self.counts.iter().enumerate() {
            let never = cases(line).zip(counts).filter(|(_, count)| **count == 0);
            missing.extend(never.map(|(case, _)| format!("{}: {case}", LINES[line].0)));
        }
        missing
    }

    /// Counts a call if it is a start, an entry or a change that was not
    /// refused.
    pub fn count(&mut self, call: &Call, told: &Told, after: &Replay, watch: &mut Watch) {
        match (call, told) {
            (Call::Start { password, .. }, Told::Done) => {
                self.one("start, password", sent(password));
                *watch = Watch::keeping(password);
            }
            (Call::Feed { line, .. }, Told::Fed(fed)) => {
                let Some(Outcome::Frame { data, .. }) = fed.outcome else {
                    return;
                };
                let data = after.records[usize::from(*line)].data(data);
                match kind(&fed.remarks) {
                    "enter 0" => self.entered("enter 0", data, watch),
                    "enter 1" => self.entered("enter 1", data, watch),
                    "change 0" => self.changed("change 0", data, watch),
                    "change 1" => self.changed("change 1", data, watch),
                    _ => {}
                }
            }
            _ => {}
        }
    }

    fn entered(&mut self, kind: &str, entry: &[u8], watch: &Watch) {
        self.one(&format!("{kind}, password"), sent(entry));
        self.beside(kind, "password", entry, watch);
        let changed = watch.changed(entry);
        if !changed.is_empty() {
            self.one("enter behind a change, password", changed);
        }
    }

    fn changed(&mut self, kind: &str, data: &[u8], watch: &mut Watch) {
        let (old, new) = data.split_at(PASSWORD);
        self.one(&format!("{kind}, old password"), sent(old));
        self.one(&format!("{kind}, new password"), sent(new));
        self.beside(kind, "old password", old, watch);
        if password::same(old, new) {
            let case = EQUAL[usize::from(old != new)];
            self.one(&format!("{kind}, equal passwords"), vec![case]);
        }
        watch.change(old, new);
    }

    /// Counts what was sent beside what is kept.
    fn beside(&mut self, kind: &str, what: &str, bytes: &[u8], watch: &Watch) {
        let kept = sent(&watch.given);
        let kept = kept.into_iter().filter(|case| !ESCAPES.contains(case));
        self.one(&format!("{kind}, password kept, as given"), kept.collect());
        if password::same(bytes, &watch.given) {
            let case = beside_given(bytes, &watch.given);
            self.one(&format!("{kind}, {what} sent"), vec![case]);
        } else {
            let cases = wrong(bytes, &watch.given);
            self.one(&format!("{kind}, {what} wrong by"), cases);
        }
    }

    fn one(&mut self, name: &str, reached: Vec<&'static str>) {
        let line = LINES.iter().position(|(line, _)| *line == name);
        let line = line.unwrap_or_else(|| panic!("{name} is no line"));
        let (sum, counts) = &mut self.counts[line];
        *sum += 1;
        for reached in reached {
            let case = cases(line).position(|case| case == reached);
            counts[case.unwrap_or_else(|| panic!("{name} has no case {reached}"))] += 1;
        }
    }
}

/// A line for each kind of password.
impl fmt::Display for Passwords {
    fn fmt(&self, out: &mut fmt::Formatter) -> fmt::Result {
        for (line, (sum, counts)) in self.counts.iter().enumerate() {
            let each = cases(line)
                .zip(counts)
                .map(|(case, count)| format!("{case} {count}"));
            let each: Vec<_> = each.collect();
            writeln!(out, "{sum:>9}  {}: {}", LINES[line].0, each.join(", "))?;
        }
        Ok(())
    }
}

/// The bytes behind the first zero.
fn behind(bytes: &[u8]) -> &[u8] {
    let zero = password::of(bytes).len();
    bytes.get(zero + 1..).unwrap_or_default()
}

fn is_stale(bytes: &[u8]) -> bool {
    behind(bytes).iter().any(|&byte| byte != 0)
}

/// The cases of 32 bytes that hold a password.
fn sent(bytes: &[u8]) -> Vec<&'static str> {
    let escaped = |bytes: &[u8]| bytes.iter().any(|byte| [END, ESC].contains(byte));
    let password = password::of(bytes);
    let length = match password.len() {
        0 => 0,
        1 => 1,
        2..=30 => 2,
        31 => 3,
        _ => 4,
    };
    let stale = if is_stale(bytes) { 5 } else { 0 };
    let mut cases = vec![BYTES[length + stale]];
    cases.extend(escaped(password).then_some(ESCAPES[0]));
    cases.extend(escaped(behind(bytes)).then_some(ESCAPES[1]));
    cases
}

fn beside_given(bytes: &[u8], given: &[u8]) -> &'static str {
    match (is_stale(bytes), is_stale(given)) {
        _ if bytes == given => GIVEN[0],
        (false, _) => GIVEN[1],
        (true, false) => GIVEN[2],
        (true, true) => GIVEN[3],
    }
}

/// How a password is not the kept one.
fn wrong(bytes: &[u8], kept: &[u8]) -> Vec<&'static str> {
    let (wrong, right) = (password::of(bytes), password::of(kept));
    let off = wrong.iter().zip(right).filter(|(one, other)| one != other);
    let (length, off) = (wrong.len(), off.count());
    let case = match right.len() {
        _ if length == 0 => WRONG[0],
        right if off == 0 && length + 1 == right => WRONG[1],
        right if off == 0 && length < right => WRONG[2],
        right if off == 0 && length == right + 1 => WRONG[4],
        _ if off == 0 && length < PASSWORD => WRONG[5],
        _ if off == 0 => WRONG[6],
        right if off == 1 && length == right => WRONG[7],
        _ => WRONG[8],
    };
    // The right bytes stand before the zero and behind it.
    let rest = right.get(length + 1..).unwrap_or_default();
    let put_in = off == 0 && !rest.is_empty() && behind(bytes).starts_with(rest);
    let at_end = |sent, kept| off == 0 && (length, right.len()) == (sent, kept);
    let mut cases = vec![case];
    cases.extend(put_in.then_some(WRONG[3]));
    cases.extend(at_end(PASSWORD - 1, PASSWORD).then_some(WRONG[9]));
    cases.extend(at_end(PASSWORD, PASSWORD - 1).then_some(WRONG[10]));
    cases
}

/// What the hub's password was given as, and the change before.
pub struct Watch {
    given: Vec<u8>,
    /// The halves of the last change, and whether it was refused.
    change: Option<(Vec<u8>, Vec<u8>, bool)>,
}

impl Default for Watch {
    fn default() -> Self {
        Watch::keeping(&[0; PASSWORD])
    }
}

impl Watch {
    fn keeping(password: &[u8]) -> Watch {
        Watch {
            given: password.to_vec(),
            change: None,
        }
    }

    fn change(&mut self, old: &[u8], new: &[u8]) {
        let refused = !password::same(old, &self.given);
        if !refused {
            self.given = new.to_vec();
        }
        self.change = Some((old.to_vec(), new.to_vec(), refused));
    }

    /// The cases of an entry behind a change to another password.
    fn changed(&self, entry: &[u8]) -> Vec<&'static str> {
        let Some((old, new, refused)) = &self.change else {
            return Vec::new();
        };
        let right = password::same(entry, &self.given);
        let mut cases = Vec::new();
        if !refused && !password::same(old, new) {
            cases.extend(right.then_some(CHANGED[0]));
            cases.extend(password::same(entry, old).then_some(CHANGED[1]));
        }
        if *refused && !password::same(new, &self.given) {
            cases.extend(right.then_some(CHANGED[2]));
            cases.extend(password::same(entry, new).then_some(CHANGED[3]));
        }
        cases
    }
}

#[cfg(test)]
mod tests {
    use super::*;

    /// A password, a zero if there is room for it, and these bytes behind.
    fn bytes(password: &[u8], behind: &[u8]) -> Vec<u8> {
        let mut bytes = [password, &[0], behind].concat();
        bytes.resize(PASSWORD, 0);
        bytes
    }

    #[test]
    fn bytes_have_their_cases() {
        assert_eq!(sent(&[0; 32]), ["empty"]);
        assert_eq!(sent(&bytes(b"", &[0, END])), [BYTES[5], ESCAPES[1]]);
        assert_eq!(sent(&bytes(&[ESC], &[])), ["1 byte", ESCAPES[0]]);
        assert_eq!(sent(&bytes(b"a", &[1])), ["stale behind 1"]);
        assert_eq!(sent(&bytes(&[7; 30], &[])), ["2 to 30 bytes"]);
        assert_eq!(sent(&bytes(&[7; 30], &[1])), ["stale behind 2 to 30"]);
        assert_eq!(sent(&bytes(&[7; 31], &[])), ["31 bytes"]);
        assert_eq!(sent(&[7; 32]), ["32 bytes"]);
    }

    #[test]
    fn wrong_ones_have_their_cases() {
        let kept = bytes(b"abcd", b"x");
        let wrong = |password: &[u8], behind: &[u8]| wrong(&bytes(password, behind), &kept);
        assert_eq!(wrong(b"", b"abcd"), ["empty"]);
        assert_eq!(wrong(b"", b"bcd"), ["empty", "a zero put in"]);
        assert_eq!(wrong(b"abc", b"d"), ["a byte less"]);
        assert_eq!(wrong(b"ab", b"x"), ["shorter prefix"]);
        assert_eq!(wrong(b"ab", b"d"), ["shorter prefix", "a zero put in"]);
        assert_eq!(wrong(b"abcdx", b""), ["a byte more"]);
        assert_eq!(wrong(b"abcdxy", b""), ["longer"]);
        assert_eq!(
            wrong(b"abcd1234567890123456789012345678", b"")[0],
            "longer up to 32"
        );
        assert_eq!(wrong(b"abcx", b""), ["a byte off"]);
        assert_eq!(wrong(b"abxx", b""), ["other"]);
        assert_eq!(wrong(b"abx", b""), ["other"]);
        let [short, long] = [bytes(&[7; 31], b""), vec![7; 32]];
        assert_eq!(super::wrong(&short, &long), ["a byte less", WRONG[9]]);
        assert_eq!(super::wrong(&long, &short), ["a byte more", WRONG[10]]);
    }
}
