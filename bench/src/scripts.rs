//! Seeded scripts of calls for the comparison of replay programs.
//!
//! A script is known by its kind, its index and a seed. It is written along
//! with the model, so that it knows the password, the nodes and the sessions.

pub mod bad;
pub mod broken;
pub mod damage;
pub mod host;
pub mod load;
pub mod passwords;
pub mod requests;
pub mod rooms;
pub mod writer;

use std::fmt;

use crate::directory::{self, ENTRIES};
use crate::generate;
use crate::hub::commands::PASSWORD_ENTER;
use crate::hub::LINES;
use crate::outcome::{DATA_MOST, END};
use crate::random::Random;
use crate::reach;
use crate::replay::call::Call;
use crate::sender;
use requests::Taste;
use writer::Writer;

/// The fewest and the most calls of a drawn script, not counting its end.
const CALLS: (usize, usize) = (100, 500);
/// Directory entries and unknown numbers in one script.
const ENTRIES_EACH: usize = 10;
const UNKNOWN_EACH: usize = 60;
const UNKNOWN_SCRIPTS: usize = 20;
/// One script of bad lines in so many has a CR before each LF.
const RETURNS_ONCE_IN: usize = 16;

/// What a script is about.
#[derive(Clone, Copy, Debug, PartialEq, Eq)]
pub enum Kind {
    /// Known commands of every length at the edge, before and after login.
    Directory,
    /// Unknown commands, before and after login.
    Unknown,
    /// The nine requests.
    Requests,
    /// Sessions that open, collide and close.
    Sessions,
    /// Captures of every kind: damaged, spliced, long, cut anywhere.
    Wire,
    /// Host calls and refused calls.
    Calls,
    /// Remarks and bad lines.
    Bad,
    /// Nodes with names of all kinds of bytes, listed.
    Names,
    /// Rooms around the length of the reply.
    Rooms,
    /// All of these.
    Mixed,
    /// One packet that breaks, cut at every place.
    Cuts,
    /// Packets that break, cut around the place.
    Broken,
    /// Passwords with stale bytes behind their zero, entered and changed.
    Passwords,
}

impl Kind {
    pub const ALL: [Kind; 13] = [
        Kind::Directory,
        Kind::Unknown,
        Kind::Requests,
        Kind::Sessions,
        Kind::Wire,
        Kind::Calls,
        Kind::Bad,
        Kind::Names,
        Kind::Rooms,
        Kind::Mixed,
        Kind::Cuts,
        Kind::Broken,
        Kind::Passwords,
    ];

    pub fn name(self) -> &'static str {
        match self {
            Kind::Directory => "directory",
            Kind::Unknown => "unknown",
            Kind::Requests => "requests",
            Kind::Sessions => "sessions",
            Kind::Wire => "wire",
            Kind::Calls => "calls",
            Kind::Bad => "bad",
            Kind::Names => "names",
            Kind::Rooms => "rooms",
            Kind::Mixed => "mixed",
            Kind::Cuts => "cuts",
            Kind::Broken => "broken",
            Kind::Passwords => "passwords",
        }
    }

    pub fn from_name(name: &str) -> Option<Kind> {
        Kind::ALL.into_iter().find(|kind| kind.name() == name)
    }

    /// The number of scripts of this kind that always run.
    pub fn systematic(self) -> usize {
        match self {
            Kind::Directory => ENTRIES.len().div_ceil(ENTRIES_EACH),
            Kind::Unknown => UNKNOWN_SCRIPTS,
            Kind::Cuts => broken::CUT_SCRIPTS,
            _ => 0,
        }
    }
}

/// Which script.
#[derive(Clone, Copy, Debug, PartialEq, Eq)]
pub struct Name {
    pub kind: Kind,
    pub index: usize,
}

impl Name {
    /// Reads `KIND INDEX`.
    pub fn parse(words: &[String]) -> Option<Name> {
        let [kind, index] = words else {
            return None;
        };
        Some(Name {
            kind: Kind::from_name(kind)?,
            index: index.parse().ok()?,
        })
    }

    /// The text of the script.
    pub fn script(self, seed: u64) -> Vec<u8> {
        let random = Random::new(&[seed, self.kind as u64, self.index as u64]);
        let mut writer = Writer::new(random);
        host::set_up(&mut writer);
        match self.kind {
            Kind::Directory => directory(&mut writer, self.index),
            Kind::Unknown => unknown(&mut writer),
            Kind::Cuts => broken::cuts(&mut writer, self.index),
            kind => drawn(&mut writer, kind),
        }
        host::end(&mut writer);
        if self.kind == Kind::Bad && writer.random.once_in(RETURNS_ONCE_IN) {
            return bad::with_returns(&writer.script);
        }
        writer.script
    }
}

impl fmt::Display for Name {
    fn fmt(&self, out: &mut fmt::Formatter) -> fmt::Result {
        write!(out, "{} {}", self.kind.name(), self.index)
    }
}

/// Some entries with each length, before login and after it.
fn directory(writer: &mut Writer, index: usize) {
    let first = index * ENTRIES_EACH % ENTRIES.len();
    for login in [false, true] {
        for entry in ENTRIES.iter().skip(first).take(ENTRIES_EACH) {
            for length in reach::lengths(entry) {
                let line = writer.random.below(LINES) as u8;
                set_login(writer, line, login);
                let data = generate::frames::data(length, &mut writer.random);
                writer.send_one(line, sender::wire(entry.number, &data));
            }
        }
        host::enrol_some(writer);
    }
}

fn unknown(writer: &mut Writer) {
    for login in [false, true] {
        for _ in 0..UNKNOWN_EACH {
            let line = writer.random.below(LINES) as u8;
            set_login(writer, line, login);
            let number = unknown_number(&mut writer.random);
            let most = writer.random.pick(&[0, 4, 40, DATA_MOST]);
            let length = writer.random.between(0, most);
            let data = generate::frames::data(length, &mut writer.random);
            writer.send_one(line, sender::wire(number, &data));
        }
    }
}

/// A number that is not in the directory: beside a known one, one with its
/// bytes exchanged or a bit changed, or any.
pub fn unknown_number(random: &mut Random) -> u16 {
    loop {
        let known = random.pick(&ENTRIES).number;
        let number = match random.below(5) {
            0 => known.wrapping_add(1),
            1 => known.wrapping_sub(1),
            2 => known.swap_bytes(),
            3 => known ^ 1 << random.below(16),
            _ => random.draw() as u16,
        };
        if directory::find(number).is_none() {
            return number;
        }
    }
}

/// Brings a line to this login by the password or by a close.
fn set_login(writer: &mut Writer, line: u8, login: bool) {
    if writer.replay.hub.logins[usize::from(line)] == login {
        return;
    }
    if login {
        let password = passwords::right(writer);
        writer.send_one(line, sender::wire(PASSWORD_ENTER, &password));
    } else {
        host::close(writer, line);
    }
}

fn drawn(writer: &mut Writer, kind: Kind) {
    let calls = writer.random.between(CALLS.0, CALLS.1);
    while writer.calls < calls {
        step(writer, kind);
    }
}

/// One thing that a script of this kind does.
fn step(writer: &mut Writer, kind: Kind) {
    match kind {
        Kind::Requests => requests(writer, Taste::Any),
        Kind::Sessions => requests(writer, Taste::Sessions),
        Kind::Wire => wires(writer),
        Kind::Calls => host::any_call(writer),
        Kind::Bad => bad::some(writer),
        Kind::Names => names(writer),
        Kind::Rooms => rooms::some(writer),
        Kind::Broken => broken::some(writer),
        Kind::Passwords => passwords::some(writer),
        Kind::Mixed | Kind::Directory | Kind::Unknown | Kind::Cuts => {
            let kinds = [
                Kind::Requests,
                Kind::Sessions,
                Kind::Wire,
                Kind::Bad,
                Kind::Names,
                Kind::Rooms,
                Kind::Broken,
                Kind::Passwords,
            ];
            let other = writer.random.pick(&kinds);
            step(writer, other);
        }
    }
    let pause = match kind {
        Kind::Sessions => 2,
        Kind::Calls => 1,
        _ => 4,
    };
    if writer.random.once_in(pause) {
        host::usual_call(writer);
    }
}

/// Requests on some lines at once.
fn requests(writer: &mut Writer, taste: Taste) {
    let mut waiting: [Vec<u8>; LINES] = Default::default();
    for line in 0..LINES as u8 {
        if writer.random.once_in(2) {
            for _ in 0..writer.random.between(1, 3) {
                let (command, data) = requests::request(writer, line, taste);
                let wire = sender::wire(command, &data);
                add(&mut waiting[usize::from(line)], &wire, &mut writer.random);
            }
        }
    }
    writer.send(waiting);
}

/// Names, orders and variations of some nodes, then the table.
fn names(writer: &mut Writer) {
    let line = writer.random.below(LINES) as u8;
    set_login(writer, line, true);
    for _ in 0..writer.random.between(1, 20) {
        let (command, data) = requests::setting(writer);
        writer.send_one(line, sender::wire(command, &data));
    }
    writer.call(Call::Table);
}

/// Captures on some lines, requests on others.
fn wires(writer: &mut Writer) {
    let mut waiting: [Vec<u8>; LINES] = Default::default();
    for line in 0..LINES as u8 {
        let place = usize::from(line);
        match writer.random.below(6) {
            0 | 1 => {
                let capture = requests::capture(&mut writer.random);
                waiting[place].extend(capture);
            }
            2 => {
                let (command, data) = requests::request(writer, line, Taste::Any);
                let wire = sender::wire(command, &data);
                add(&mut waiting[place], &wire, &mut writer.random);
            }
            _ => {}
        }
    }
    writer.send(waiting);
}

/// Adds a frame. Neighbours share an END, have two, or some more.
fn add(wire: &mut Vec<u8>, frame: &[u8], random: &mut Random) {
    let shared = wire.ends_with(&[END]) && random.once_in(2);
    wire.extend(&frame[usize::from(shared)..]);
    if random.once_in(8) {
        wire.extend([END; 3]);
    }
}

#[cfg(test)]
mod tests {
    use super::*;

    #[test]
    fn a_script_is_known_by_kind_index_and_seed() {
        for kind in Kind::ALL {
            let name = Name { kind, index: 3 };
            let words: Vec<_> = name.to_string().split(' ').map(String::from).collect();
            assert_eq!(Name::parse(&words), Some(name));
            assert!(name.script(1) == name.script(1));
            assert!(name.script(1) != name.script(2));
        }
    }

    #[test]
    fn the_systematic_scripts_send_the_whole_directory() {
        let mut reach = reach::Reach::default();
        for kind in [Kind::Directory, Kind::Unknown] {
            for index in 0..kind.systematic() {
                reach.answer(&Name { kind, index }.script(5));
            }
        }
        let rows = reach.missing_rows();
        let others = reach.missing();
        assert!(others.iter().all(|missing| rows.contains(missing)));
    }
}
