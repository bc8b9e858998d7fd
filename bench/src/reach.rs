//! What scripts reach: calls, refusals, statuses and bad lines, counted by
//! the model while it answers.

pub mod cuts;
pub mod passwords;
pub mod rooms;

use std::collections::{BTreeMap, BTreeSet, HashMap};
use std::fmt;

use crate::directory::{self, Entry, ENTRIES};
use crate::hub::nodes::{self, NAME, TABLE};
use crate::hub::sessions::SLOTS;
use crate::hub::LINES;
use crate::outcome::{Outcome, DATA_MOST};
use crate::plain::Reader;
use crate::replay::call::{bad_words, Bad, BadWord, Call, LINE_MOST};
use crate::replay::lines;
use crate::replay::{mode_name, Replay, Told};
use cuts::Cuts;
use passwords::Passwords;
use rooms::Rooms;

/// Unknown numbers that must be sent in all.
pub const UNKNOWN_LEAST: usize = 1000;

/// Everything that is counted, bad words, rooms, broken packets and passwords
/// apart.
const ROWS: [&str; 127] = [
    "start done",
    "start refused 7",
    "start refused 14",
    "start refused 7 before 14",
    "enrol done",
    "enrol refused 7",
    "enrol refused 11",
    "enrol refused 12",
    "enrol refused 7 before 11",
    "enrol refused 7 before 12",
    "close done",
    "close refused 8",
    "finish done",
    "finish refused 9",
    "finish refused 13",
    "finish refused 13 before 9",
    "feed refused 7",
    "feed refused 8",
    "feed refused 9",
    "feed refused 7 before 8",
    "feed refused 7 before 9",
    "feed refused 8 before 9",
    "feed refused 7 before 8 before 9",
    "table 0",
    "table one byte short",
    "table one byte long",
    "table shorter",
    "table longer",
    "node 199 enrolled",
    "node 200 refused",
    "feed: no bytes",
    "feed: no outcome",
    "feed: bytes not used",
    "feed: ends what others began",
    "feed: 250 data bytes",
    "packet 1",
    "packet 2",
    "packet 3",
    "packet 4",
    "packet 5",
    "packet 6",
    "packet 15",
    "error 2: packet refused",
    "error 1: command unknown",
    "error 2: data length",
    "error 12: not logged in",
    "error 1: not served",
    "enter 0",
    "enter 1: not logged in",
    "enter 1: stays logged in",
    "change 0: to another",
    "change 0: to the same",
    "change 1",
    "get 0",
    "get 2: above 199",
    "get 2: not in use",
    "variation 0",
    "variation 1",
    "variation 2: above 199",
    "variation 2: not in use",
    "name 0",
    "name 2: above 199",
    "name 2: not in use",
    "order 0",
    "order 2: above 199",
    "order 2: not in use",
    "remove: no node",
    "remove: some nodes",
    "remove: all nodes",
    "remove: a session closes",
    "remove: a session stays open",
    "remove: bits 200 to 207 named",
    "remove: a node not in use named",
    "virgin: no session",
    "virgin: a session closes",
    "mode send 0: 1 node",
    "mode send 0: some nodes",
    "mode send 0: 20 nodes",
    "mode send 1: own session",
    "mode send 1: other line's",
    "mode send 3: own session",
    "mode send 3: other line's",
    "mode send 4",
    "mode send 5: count 0",
    "mode send 5: count 21",
    "mode send 5: count above 21",
    "mode send 5: node above 199",
    "mode send 5: node not in use",
    "mode send 5: node named twice",
    "mode send 5: priority",
    "mode send 5: lock",
    "mode send 5: originator",
    "mode send 5: several causes",
    "slot again after close",
    "slot again after finish",
    "slot again after remove",
    "slot again after virgin",
    "slot again after start",
    "show: no session",
    "show: all eight slots",
    "show: plain, bytes held",
    "show: escaped",
    "show: skip1",
    "show: skip2",
    "table: no node",
    "table: all nodes",
    "table: no name",
    "table: name of 64 bytes",
    "table: bytes behind the name's zero",
    "table: quote",
    "table: backslash",
    "table: byte below 20",
    "table: byte 7F",
    "table: byte above 7F",
    "line: empty",
    "line: # alone",
    "line: remark",
    "line: remark with other bytes than text",
    "line: 40000 bytes, a call",
    "line: 40000 bytes, a bad word",
    "line: 40000 bytes, a remark",
    "line: too long",
    "line: too long, a remark",
    "last line without LF: a call",
    "last line without LF: a bad word",
    "last line without LF: too long",
    "last line without LF: a remark",
];

/// A command sent with so many data bytes, before or after login.
type Sent = (u16, usize, bool);

#[derive(Clone)]
pub struct Reach {
    counts: HashMap<&'static str, u64>,
    rooms: Rooms,
    cuts: Cuts,
    passwords: Passwords,
    bad_words: BTreeMap<BadWord, u64>,
    sent: BTreeSet<Sent>,
    unknown: BTreeSet<u16>,
    pub scripts: u64,
    pub lines: u64,
    pub bytes: u64,
}

impl Default for Reach {
    fn default() -> Self {
        Reach {
            counts: all_rows().map(|row| (row, 0)).collect(),
            rooms: Rooms::default(),
            cuts: Cuts::default(),
            passwords: Passwords::default(),
            bad_words: bad_words().into_iter().map(|word| (word, 0)).collect(),
            sent: BTreeSet::new(),
            unknown: BTreeSet::new(),
            scripts: 0,
            lines: 0,
            bytes: 0,
        }
    }
}

fn all_rows() -> impl Iterator<Item = &'static str> {
    ROWS.into_iter().chain(rooms::ROWS).chain(cuts::ROWS)
}

/// The data lengths to try with a command: its least and its greatest, and
/// the next ones outside.
pub fn lengths(entry: &Entry) -> Vec<usize> {
    let mut lengths = vec![entry.least, entry.greatest, entry.greatest + 1];
    lengths.extend(entry.least.checked_sub(1));
    lengths.retain(|&length| length <= DATA_MOST);
    lengths.sort();
    lengths.dedup();
    lengths
}

/// All that must be sent of the directory.
fn to_send() -> impl Iterator<Item = Sent> {
    let cases = |entry: &Entry| {
        let number = entry.number;
        let both = move |length| [(number, length, false), (number, length, true)];
        lengths(entry).into_iter().flat_map(both)
    };
    ENTRIES.iter().flat_map(cases)
}

impl Reach {
    /// The model's answers to a script, all of which is counted.
    pub fn answer(&mut self, script: &[u8]) -> Vec<u8> {
        let mut replay = Replay::new();
        let mut watch = Watch::default();
        let mut room_watch = rooms::Watch::default();
        let mut cut_watch = cuts::Watch::default();
        let mut password_watch = passwords::Watch::default();
        let mut answers = Vec::new();
        let mut last = Told::Remark;
        for line in lines::all(script) {
            watch.look(&replay);
            last = replay.line(&line, &mut answers);
            self.lines += 1;
            self.count_line(&line, &last);
            if let (Ok(call), told) = (Call::parse(&line), &last) {
                self.count_lent(&call);
                self.count_told(&call, told, &replay);
                self.count_state(&call, told, &replay, &mut watch);
                self.passwords
                    .count(&call, told, &replay, &mut password_watch);
                for row in self.cuts.count(&call, told, &replay, &mut cut_watch) {
                    self.count(&row);
                }
                for row in self.rooms.count(&call, told, &replay, &mut room_watch) {
                    self.count(row);
                }
            }
        }
        if !script.is_empty() && !script.ends_with(b"\n") {
            self.count(&format!("last line without LF: {}", sort(&last)));
        }
        self.scripts += 1;
        self.bytes += script.len() as u64;
        answers
    }

    fn count(&mut self, row: &str) {
        match self.counts.get_mut(row) {
            Some(count) => *count += 1,
            None => panic!("{row} is no row"),
        }
    }

    /// Counts what shows in the line itself.
    fn count_line(&mut self, line: &[u8], told: &Told) {
        if line.len() == LINE_MOST {
            self.count(&format!("line: 40000 bytes, {}", sort(told)));
        }
        let text = line.iter().all(|byte| (b' '..=b'~').contains(byte));
        match told {
            Told::Bad(Bad::Word(word)) => match self.bad_words.get_mut(word) {
                Some(count) => *count += 1,
                None => panic!("{word:?} is not listed"),
            },
            Told::Bad(Bad::TooLong) if line.starts_with(b"#") => {
                self.count("line: too long, a remark");
            }
            Told::Bad(Bad::TooLong) => self.count("line: too long"),
            Told::Remark if line.is_empty() => self.count("line: empty"),
            Told::Remark if line == b"#" => self.count("line: # alone"),
            Told::Remark if text => self.count("line: remark"),
            Told::Remark => self.count("line: remark with other bytes than text"),
            _ => {}
        }
    }

    fn count_lent(&mut self, call: &Call) {
        const SHORT: usize = TABLE - 1;
        const LONG: usize = TABLE + 1;
        if let Call::Start { table, .. } | Call::Enrol { table, .. } | Call::Feed { table, .. } =
            call
        {
            match *table {
                TABLE => {}
                0 => self.count("table 0"),
                SHORT => self.count("table one byte short"),
                LONG => self.count("table one byte long"),
                1..TABLE => self.count("table shorter"),
                _ => self.count("table longer"),
            }
        }
        if let Call::Feed { room, .. } | Call::Finish { room, .. } = call {
            self.count(rooms::room_row(*room));
        }
    }

    fn count_told(&mut self, call: &Call, told: &Told, after: &Replay) {
        match told {
            Told::Refused(refusals) => {
                let mut numbers = refusals.all();
                if refusals.given() != 9 && is_short(call, after) {
                    numbers.push(9);
                }
                let numbers: Vec<_> = numbers.iter().map(u32::to_string).collect();
                self.count(&format!(
                    "{} refused {}",
                    call.word(),
                    numbers.join(" before ")
                ));
            }
            Told::Done | Told::Finished(_) => self.count(&format!("{} done", call.word())),
            Told::Fed(fed) => {
                for remark in &fed.remarks {
                    self.count(remark);
                }
                match fed.outcome {
                    None => self.count("feed: no outcome"),
                    Some(Outcome::Refused(broken)) => {
                        self.count(&format!("packet {}", broken.refusal as u8))
                    }
                    Some(Outcome::Frame { data, .. }) if data == DATA_MOST => {
                        self.count("feed: 250 data bytes")
                    }
                    Some(Outcome::Frame { .. }) => {}
                }
            }
            Told::Remark | Told::Bad(_) | Told::Shown | Told::Listed => {}
        }
    }

    /// Counts what shows only beside the state before or after the call.
    fn count_state(&mut self, call: &Call, told: &Told, after: &Replay, watch: &mut Watch) {
        match (call, told) {
            (Call::Enrol { node: 199, .. }, Told::Done) => self.count("node 199 enrolled"),
            (
                Call::Enrol {
                    node: 200,
                    table: TABLE,
                    ..
                },
                _,
            ) => self.count("node 200 refused"),
            (Call::Show, _) => self.count_shown(after),
            (Call::Table, _) => self.count_listed(after.table()),
            (Call::Feed { line, bytes, .. }, Told::Fed(fed)) => {
                let line = usize::from(*line);
                if bytes.is_empty() {
                    self.count("feed: no bytes");
                }
                if fed.used < bytes.len() {
                    self.count("feed: bytes not used");
                }
                if fed.outcome.is_some() && !watch.between[line] {
                    self.count("feed: ends what others began");
                }
                if let Some(Outcome::Frame { command, data }) = fed.outcome {
                    self.count_sent(command, data, watch.logins[line]);
                }
            }
            _ => {}
        }
        for row in watch.slots_again(call, told, after) {
            self.count(&row);
        }
    }

    fn count_shown(&mut self, replay: &Replay) {
        match replay.hub.sessions.open().count() {
            0 => self.count("show: no session"),
            SLOTS => self.count("show: all eight slots"),
            _ => {}
        }
        for record in &replay.records {
            match mode_name(record.mode()) {
                "plain" if record.held().is_empty() => {}
                "plain" => self.count("show: plain, bytes held"),
                other => self.count(&format!("show: {other}")),
            }
        }
    }

    fn count_listed(&mut self, table: &[u8]) {
        let used = nodes::all_in_use(table);
        match used.len() {
            0 => self.count("table: no node"),
            nodes::NODES => self.count("table: all nodes"),
            _ => {}
        }
        for node in used {
            self.count_name(&nodes::record(table, node)[NAME]);
        }
    }

    fn count_name(&mut self, name: &[u8]) {
        let end = name.iter().position(|&byte| byte == 0);
        let (text, behind) = name.split_at(end.unwrap_or(name.len()));
        let has = |holds: fn(u8) -> bool| text.iter().any(|&byte| holds(byte));
        let rows = [
            ("table: no name", text.is_empty()),
            ("table: name of 64 bytes", end.is_none()),
            (
                "table: bytes behind the name's zero",
                behind.iter().any(|&byte| byte != 0),
            ),
            ("table: quote", has(|byte| byte == b'"')),
            ("table: backslash", has(|byte| byte == b'\\')),
            ("table: byte below 20", has(|byte| byte < 0x20)),
            ("table: byte 7F", has(|byte| byte == 0x7F)),
            ("table: byte above 7F", has(|byte| byte > 0x7F)),
        ];
        for (row, _) in rows.into_iter().filter(|(_, holds)| *holds) {
            self.count(row);
        }
    }

    fn count_sent(&mut self, command: u16, data: usize, login: bool) {
        if directory::find(command).is_some() {
            self.sent.insert((command, data, login));
        } else {
            self.unknown.insert(command);
        }
    }

    pub fn add(&mut self, other: &Reach) {
        for (row, count) in &other.counts {
            *self.counts.entry(row).or_default() += count;
        }
        self.rooms.add(&other.rooms);
        self.cuts.add(&other.cuts);
        self.passwords.add(&other.passwords);
        for (word, count) in &other.bad_words {
            *self.bad_words.entry(*word).or_default() += count;
        }
        self.sent.extend(&other.sent);
        self.unknown.extend(&other.unknown);
        self.scripts += other.scripts;
        self.lines += other.lines;
        self.bytes += other.bytes;
    }

    /// The rows that were never reached.
    pub fn missing_rows(&self) -> Vec<String> {
        let rows = all_rows().filter(|row| self.counts[row] == 0);
        let words = self.bad_words.iter().filter(|(_, count)| **count == 0);
        let named = |(word, _): (&BadWord, _)| format!("{}: {}", place(word), word.why.name());
        rows.map(str::to_string)
            .chain(self.rooms.missing())
            .chain(self.cuts.missing())
            .chain(self.passwords.missing())
            .chain(words.map(named))
            .collect()
    }

    /// All that was never reached.
    pub fn missing(&self) -> Vec<String> {
        let mut missing = self.missing_rows();
        for (number, data, login) in to_send().filter(|sent| !self.sent.contains(sent)) {
            let when = if login { "after" } else { "before" };
            missing.push(format!("{number:04X} with {data} data bytes {when} login"));
        }
        if self.unknown.len() < UNKNOWN_LEAST {
            missing.push(format!("{UNKNOWN_LEAST} unknown numbers"));
        }
        missing
    }
}

/// Whether a refused feed has too short a room as well.
fn is_short(call: &Call, replay: &Replay) -> bool {
    let Call::Feed {
        line, room, bytes, ..
    } = call
    else {
        return false;
    };
    let emptied = Reader::new();
    let record = replay.records.get(usize::from(*line)).unwrap_or(&emptied);
    rooms::is_short_for_all(*room, bytes, record)
}

/// What a line is: a call, a remark, or bad.
fn sort(told: &Told) -> &'static str {
    match told {
        Told::Remark => "a remark",
        Told::Bad(Bad::TooLong) => "too long",
        Told::Bad(Bad::Word(_)) => "a bad word",
        _ => "a call",
    }
}

/// Where a bad word stands.
fn place(word: &BadWord) -> String {
    match word.call {
        "" => format!("bad word {}", word.number),
        call => format!("bad word {} of {call}", word.number),
    }
}

/// The state before a call, as far as it is counted, and what freed each
/// slot last.
#[derive(Default)]
struct Watch {
    logins: [bool; LINES],
    between: [bool; LINES],
    used: [bool; SLOTS],
    freed: [Option<&'static str>; SLOTS],
}

impl Watch {
    fn look(&mut self, replay: &Replay) {
        self.logins = replay.hub.logins;
        for (between, record) in self.between.iter_mut().zip(&replay.records) {
            *between = record.is_between_packets();
        }
        self.used = used(replay);
    }

    /// Rows for the slots that the call takes, and a note of those it frees.
    fn slots_again(&mut self, call: &Call, told: &Told, after: &Replay) -> Vec<String> {
        let mut rows = Vec::new();
        let now = used(after);
        for ((freed, before), now) in self.freed.iter_mut().zip(self.used).zip(now) {
            match (before, now) {
                (true, false) => *freed = Some(freer(call, told)),
                (false, true) => rows.extend(freed.map(|by| format!("slot again after {by}"))),
                _ => {}
            }
        }
        rows
    }
}

fn used(replay: &Replay) -> [bool; SLOTS] {
    let slots = &replay.hub.sessions.slots;
    std::array::from_fn(|slot| slots[slot].is_some())
}

/// What closed a session: a host call, or one of two requests.
fn freer(call: &Call, told: &Told) -> &'static str {
    match told {
        Told::Fed(fed)
            if fed
                .remarks
                .iter()
                .any(|remark| remark.starts_with("virgin")) =>
        {
            "virgin"
        }
        Told::Fed(_) => "remove",
        _ => call.word(),
    }
}

/// A line for each row, for each kind of reply with its rooms, for each packet
/// refusal with its places and its feeds, for each kind of password and for each
/// place of a bad word, and what was sent of the directory.
impl fmt::Display for Reach {
    fn fmt(&self, out: &mut fmt::Formatter) -> fmt::Result {
        for row in all_rows() {
            writeln!(out, "{:>9}  {row}", self.counts[row])?;
        }
        write!(out, "{}", self.rooms)?;
        write!(out, "{}{}", self.cuts.breaks, self.cuts.cuts)?;
        write!(out, "{}", self.passwords)?;
        let mut places: BTreeMap<(&str, usize), Vec<(&BadWord, u64)>> = BTreeMap::new();
        for (word, &count) in &self.bad_words {
            let words = places.entry((word.call, word.number)).or_default();
            words.push((word, count));
        }
        for words in places.values() {
            let sum: u64 = words.iter().map(|(_, count)| count).sum();
            let counted = |(word, count): &(&BadWord, u64)| format!("{} {count}", word.why.name());
            let each: Vec<_> = words.iter().map(counted).collect();
            writeln!(out, "{sum:>9}  {}: {}", place(words[0].0), each.join(", "))?;
        }
        let all = to_send().count();
        let sent = to_send().filter(|sent| self.sent.contains(sent)).count();
        writeln!(
            out,
            "{sent:>9}  of {all} known commands with a length and a login"
        )?;
        writeln!(out, "{:>9}  unknown commands", self.unknown.len())?;
        writeln!(
            out,
            "{:>9}  lines in {} scripts of {} bytes",
            self.lines, self.scripts, self.bytes
        )
    }
}
