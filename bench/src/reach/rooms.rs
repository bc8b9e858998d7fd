//! Rooms: how often each kind of reply was lent a room that it does not fit,
//! that it fits exactly, or that is one byte longer.

use std::collections::BTreeMap;
use std::fmt;

use crate::hub::refusals::Refusals;
use crate::hub::{self, LINES};
use crate::outcome::{END, ESC};
use crate::plain::Reader;
use crate::replay::call::Call;
use crate::replay::{mode_name, Replay, Told};

/// How a room and a reply stand to one another.
#[derive(Clone, Copy, Debug, PartialEq, Eq, PartialOrd, Ord)]
pub enum Fit {
    Refused,
    OneShort,
    Exact,
    OneMore,
    /// The same call as one refused 9 before.
    Again,
    EscapesOneShort,
    EscapesExact,
}

impl Fit {
    const ALL: [Fit; 7] = [
        Fit::Refused,
        Fit::OneShort,
        Fit::Exact,
        Fit::OneMore,
        Fit::Again,
        Fit::EscapesOneShort,
        Fit::EscapesExact,
    ];

    fn name(self) -> &'static str {
        match self {
            Fit::Refused => "refused 9",
            Fit::OneShort => "one byte short",
            Fit::Exact => "exact",
            Fit::OneMore => "one byte more",
            Fit::Again => "refused 9, then served",
            Fit::EscapesOneShort => "with escapes one byte short",
            Fit::EscapesExact => "with escapes exact",
        }
    }

    fn of_escapes(self) -> bool {
        matches!(self, Fit::EscapesOneShort | Fit::EscapesExact)
    }
}

/// What is written: a remark's words before its colon, or `finish`. Some may
/// have bytes to escape.
const REPLIES: [(&str, bool); 24] = [
    ("error 1", false),
    ("error 2", false),
    ("error 12", false),
    ("enter 0", false),
    ("enter 1", false),
    ("change 0", false),
    ("change 1", false),
    ("get 0", true),
    ("get 2", true),
    ("variation 0", true),
    ("variation 1", true),
    ("variation 2", true),
    ("name 0", true),
    ("name 2", true),
    ("order 0", true),
    ("order 2", true),
    ("remove", false),
    ("virgin", false),
    ("mode send 0", true),
    ("mode send 1", true),
    ("mode send 3", true),
    ("mode send 4", true),
    ("mode send 5", true),
    ("finish", true),
];

/// The shortest reply: the confirm of virgin state.
const SHORTEST: usize = 7;

/// Other rows about rooms.
pub const ROWS: [&str; 26] = [
    "room 0",
    "room 1 to 6",
    "room 7",
    "room 8",
    "room 9 or 10",
    "room 11 to 299",
    "room 300",
    "room 301 to 510",
    "room 511",
    "room 512",
    "room above 512",
    "room 8192",
    "refused 9: room 0",
    "refused 9: get's first frame fits",
    "refused 9: no frame of get fits",
    "refused 9: bytes held",
    "refused 9: escaped",
    "refused 9: skip1",
    "refused 9: skip2",
    "refused 9: bytes behind the packet",
    "refused 9: several times, then served",
    "refused 9: outcomes on other lines, then served",
    "refused 9: then show",
    "room 0, not refused: no bytes",
    "room 0, not refused: ENDs alone",
    "room 0, not refused: a part of a packet",
];

/// The counts, a line for each kind of reply.
#[derive(Clone)]
pub struct Rooms {
    counts: BTreeMap<(usize, Fit), u64>,
}

impl Default for Rooms {
    fn default() -> Self {
        let mut counts = BTreeMap::new();
        for (reply, (_, escapes)) in REPLIES.iter().enumerate() {
            let fits = Fit::ALL.iter().filter(|fit| *escapes || !fit.of_escapes());
            counts.extend(fits.map(|&fit| ((reply, fit), 0)));
        }
        Rooms { counts }
    }
}

impl Rooms {
    pub fn add(&mut self, other: &Rooms) {
        for (key, count) in &other.counts {
            *self.counts.entry(*key).or_default() += count;
        }
    }

    /// What was never reached.
    pub fn missing(&self) -> impl Iterator<Item = String> + '_ {
        let never = self.counts.iter().filter(|(_, count)| **count == 0);
        never.map(|((reply, fit), _)| format!("room for {}: {}", REPLIES[*reply].0, fit.name()))
    }

    /// Counts a call and tells the other rows that it reaches. The state is
    /// that behind the call.
    pub fn count(
        &mut self,
        call: &Call,
        told: &Told,
        after: &Replay,
        watch: &mut Watch,
    ) -> Vec<&'static str> {
        let mut rows = Vec::new();
        match (call, told) {
            (
                Call::Feed {
                    line, room, bytes, ..
                },
                Told::Refused(refusals),
            ) if is_room(refusals) => {
                // It changed nothing, so the same would come now.
                let coming = after.coming(*line, bytes).expect("the line is up to 3");
                self.refused(kind(&coming.remarks), *room, &coming.reply);
                rows.extend(refused_rows(*room, kind(&coming.remarks), &coming.reply));
                rows.extend(record_row(&after.records[usize::from(*line)]));
                if coming.used < bytes.len() {
                    rows.push("refused 9: bytes behind the packet");
                }
                watch.refuse(*line, bytes);
            }
            (Call::Feed { room: 0, bytes, .. }, Told::Fed(_)) => rows.push(nothing_row(bytes)),
            (Call::Feed { .. }, Told::Fed(fed)) if fed.outcome.is_none() => {}
            (
                Call::Feed {
                    line, room, bytes, ..
                },
                Told::Fed(fed),
            ) => {
                let kind = kind(&fed.remarks);
                self.served(kind, *room, after.written(fed.reply));
                if let Some(refused) = watch.serve(*line, bytes) {
                    self.one(kind, Fit::Again);
                    rows.extend(refused.rows());
                }
            }
            (Call::Finish { session, room }, Told::Refused(refusals)) if is_room(refusals) => {
                let reply = hub::finished(*session);
                self.refused("finish", *room, &reply);
                rows.extend(refused_rows(*room, "finish", &reply));
                watch.session = Some(*session);
            }
            (Call::Finish { session, room }, Told::Finished(finished)) => {
                self.served("finish", *room, after.written(finished.reply));
                if watch.session.take() == Some(*session) {
                    self.one("finish", Fit::Again);
                }
            }
            (Call::Close { .. } | Call::Start { .. }, Told::Done) => *watch = Watch::default(),
            (Call::Show, _) if watch.just_refused => rows.push("refused 9: then show"),
            _ => {}
        }
        watch.just_refused = matches!(told, Told::Refused(refusals) if is_room(refusals));
        rows
    }

    fn one(&mut self, kind: &str, fit: Fit) {
        let reply = REPLIES.iter().position(|(reply, _)| *reply == kind);
        let key = reply.map(|reply| (reply, fit));
        match key.and_then(|key| self.counts.get_mut(&key)) {
            Some(count) => *count += 1,
            None => panic!("{kind} {fit:?} is no row"),
        }
    }

    fn refused(&mut self, kind: &str, room: usize, reply: &[u8]) {
        self.one(kind, Fit::Refused);
        if room + 1 == reply.len() {
            self.one(kind, Fit::OneShort);
            if reply.contains(&ESC) {
                self.one(kind, Fit::EscapesOneShort);
            }
        }
    }

    fn served(&mut self, kind: &str, room: usize, reply: &[u8]) {
        match room - reply.len() {
            0 => self.one(kind, Fit::Exact),
            1 => self.one(kind, Fit::OneMore),
            _ => {}
        }
        if room == reply.len() && reply.contains(&ESC) {
            self.one(kind, Fit::EscapesExact);
        }
    }
}

/// A line for each kind of reply.
impl fmt::Display for Rooms {
    fn fmt(&self, out: &mut fmt::Formatter) -> fmt::Result {
        for (reply, (name, _)) in REPLIES.iter().enumerate() {
            let counts = self.counts.range((reply, Fit::Refused)..);
            let counts = counts.take_while(|((other, _), _)| *other == reply);
            let each = counts.map(|((_, fit), count)| format!("{} {count}", fit.name()));
            let each: Vec<_> = each.collect();
            let refused = self.counts[&(reply, Fit::Refused)];
            writeln!(out, "{refused:>9}  room for {name}: {}", each.join(", "))?;
        }
        Ok(())
    }
}

fn is_room(refusals: &Refusals) -> bool {
    refusals.given() == 9
}

/// The words of the first remark before its colon.
pub fn kind(remarks: &[&'static str]) -> &'static str {
    let words = remarks.first().and_then(|remark| remark.split(':').next());
    words.expect("an outcome has a remark")
}

/// The row of a lent room.
pub fn room_row(room: usize) -> &'static str {
    match room {
        0 => "room 0",
        1..=6 => "room 1 to 6",
        7 => "room 7",
        8 => "room 8",
        9 | 10 => "room 9 or 10",
        11..=299 => "room 11 to 299",
        300 => "room 300",
        301..=510 => "room 301 to 510",
        511 => "room 511",
        512 => "room 512",
        8192 => "room 8192",
        _ => "room above 512",
    }
}

/// Whether a feed would be refused 9 too, whatever its reply is: an outcome
/// comes, and no reply fits.
pub fn is_short_for_all(room: usize, bytes: &[u8], record: &Reader) -> bool {
    room < SHORTEST && record.clone().read(bytes).1.is_some()
}

fn refused_rows(room: usize, kind: &str, reply: &[u8]) -> Vec<&'static str> {
    let mut rows = Vec::new();
    if room == 0 {
        rows.push("refused 9: room 0");
    }
    if kind == "get 0" {
        // The first frame ends at the second END.
        let first = 2 + reply[1..].iter().take_while(|&&byte| byte != END).count();
        rows.push(if first <= room {
            "refused 9: get's first frame fits"
        } else {
            "refused 9: no frame of get fits"
        });
    }
    rows
}

/// The row of a record that stays as it is.
fn record_row(record: &Reader) -> Option<&'static str> {
    match mode_name(record.mode()) {
        "plain" if record.held().is_empty() => None,
        "plain" => Some("refused 9: bytes held"),
        "escaped" => Some("refused 9: escaped"),
        "skip1" => Some("refused 9: skip1"),
        _ => Some("refused 9: skip2"),
    }
}

fn nothing_row(bytes: &[u8]) -> &'static str {
    if bytes.is_empty() {
        "room 0, not refused: no bytes"
    } else if bytes.iter().all(|&byte| byte == END) {
        "room 0, not refused: ENDs alone"
    } else {
        "room 0, not refused: a part of a packet"
    }
}

/// A feed refused 9 that may come again.
#[derive(Clone)]
struct Refused {
    bytes: Vec<u8>,
    times: usize,
    /// Whether other lines had outcomes meanwhile.
    others: bool,
}

impl Refused {
    fn rows(&self) -> Vec<&'static str> {
        let mut rows = Vec::new();
        if self.times > 1 {
            rows.push("refused 9: several times, then served");
        }
        if self.others {
            rows.push("refused 9: outcomes on other lines, then served");
        }
        rows
    }
}

/// The last feed of each line that was refused 9, and the last such session.
#[derive(Default)]
pub struct Watch {
    feeds: [Option<Refused>; LINES],
    session: Option<u16>,
    just_refused: bool,
}

impl Watch {
    fn refuse(&mut self, line: u8, bytes: &[u8]) {
        let feed = &mut self.feeds[usize::from(line)];
        match feed {
            Some(refused) if refused.bytes == bytes => refused.times += 1,
            _ => {
                *feed = Some(Refused {
                    bytes: bytes.to_vec(),
                    times: 1,
                    others: false,
                });
            }
        }
    }

    /// The feed before, if it had the same bytes and was refused 9.
    fn serve(&mut self, line: u8, bytes: &[u8]) -> Option<Refused> {
        let refused = self.feeds[usize::from(line)].take();
        for other in self.feeds.iter_mut().flatten() {
            other.others = true;
        }
        refused.filter(|refused| refused.bytes == bytes)
    }
}
