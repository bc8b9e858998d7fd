//! Frames to send: requests that fit the model's state, and others.

use super::passwords;
use super::unknown_number;
use super::writer::Writer;
use crate::directory::ENTRIES;
use crate::generate::{self, frames};
use crate::hub::commands::{self, *};
use crate::hub::nodes::{self, NODES};
use crate::outcome::DATA_MOST;
use crate::random::Random;
use crate::reach;

/// Which requests come more often.
#[derive(Clone, Copy, PartialEq, Eq)]
pub enum Taste {
    Any,
    Sessions,
    /// Those whose reply has bytes to escape.
    Escapes,
}

/// A command number and its data.
pub type Request = (u16, Vec<u8>);

/// Nodes whose replies have bytes to escape: the node itself, or the check
/// byte of a confirm.
pub const ESCAPED_NODES: [u8; 5] = [192, 193, 194, 196, 198];
/// Bytes of sessions. Each pair of them is a number; of many, a byte or the
/// check byte of the reply or of the finish is escaped.
const SESSION_BYTES: [u8; 9] = [0, 2, 0x24, 0xC0, 0xC2, 0xD9, 0xDB, 0xE4, 0xFF];

/// The places for indices in a mode send.
const INDICES: usize = commands::INDICES as usize;

/// A request for a line. One that is not logged in mostly enters.
pub fn request(writer: &mut Writer, line: u8, taste: Taste) -> Request {
    let login = writer.replay.hub.logins[usize::from(line)];
    if !login && !writer.random.once_in(3) {
        return passwords::enter(writer);
    }
    if taste == Taste::Sessions && !writer.random.once_in(4) {
        return mode_send(writer);
    }
    if taste == Taste::Escapes && writer.random.once_in(2) {
        return escaped(writer);
    }
    match writer.random.below(26) {
        0 | 1 => passwords::enter(writer),
        2 | 3 => passwords::change(writer),
        4..7 => (GET_NODE, vec![any_node(writer)]),
        7..10 => variation(writer),
        10..12 => name(writer),
        12..14 => order(writer),
        14..16 => remove(writer),
        16 if writer.random.once_in(4) => (VIRGIN_STATE, Vec::new()),
        16..20 => mode_send(writer),
        20..22 => listed(&mut writer.random),
        22 => wrong_length(&mut writer.random),
        23 => unknown(&mut writer.random),
        _ => frame_of_250(&mut writer.random),
    }
}

/// A request whose reply mostly has bytes to escape.
fn escaped(writer: &mut Writer) -> Request {
    let node = writer.random.pick(&ESCAPED_NODES);
    let (command, mut data) = match writer.random.below(6) {
        0 | 1 => return mode_send(writer),
        2 => variation(writer),
        3 => order(writer),
        4 => name(writer),
        _ => (GET_NODE, vec![0]),
    };
    data[0] = node;
    (command, data)
}

/// A request that sets something of a node, mostly its name.
pub fn setting(writer: &mut Writer) -> Request {
    match writer.random.below(6) {
        0 => variation(writer),
        1 => order(writer),
        _ => name(writer),
    }
}

/// A node that is mostly in use.
fn any_node(writer: &mut Writer) -> u8 {
    let used = nodes::all_in_use(writer.replay.table());
    match writer.random.below(10) {
        0 => writer.random.between(NODES, 255) as u8,
        1 => writer.random.pick(&[0, 199, 200, 255]),
        2 if writer.random.once_in(2) => writer.random.pick(&ESCAPED_NODES),
        2..4 => writer.random.below(NODES) as u8,
        _ if used.is_empty() => writer.random.below(NODES) as u8,
        _ => writer.random.pick(&used),
    }
}

fn variation(writer: &mut Writer) -> Request {
    let any = writer.random.byte();
    let variation = writer.random.pick(&[0, 1, 2, 3, 4, 5, 255, any]);
    (SET_VARIATION, vec![any_node(writer), variation])
}

fn name(writer: &mut Writer) -> Request {
    let mut data = vec![any_node(writer)];
    data.extend(any_name(&mut writer.random));
    (SET_NAME, data)
}

/// The bytes of a name.
const NAME: usize = nodes::NAME.end - nodes::NAME.start;

/// A name that is often text, with quotes and other bytes that are written
/// in their own way. It ends in zero bytes, in none, or goes on behind one.
fn any_name(random: &mut Random) -> Vec<u8> {
    let other = random.pick(&[
        &b"\"\\"[..],
        b"\x01\x09\x0A\x0D\x1B\x1F",
        b" \x7E\x7F",
        b"\x80\xC3\xB6\xFF",
        b"\xC0\xDB",
        b"East vent",
    ]);
    let mut name: Vec<u8> = match random.below(4) {
        0 => frames::data(NAME, random),
        1 => (0..NAME).map(|_| random.pick(b"abcXYZ \"\\'")).collect(),
        _ => (0..NAME).map(|_| random.pick(other)).collect(),
    };
    let length = random.pick(&[0, 1, 9, NAME - 1, NAME, NAME]);
    match random.below(3) {
        0 => name[length..].fill(0),
        1 if length < NAME => name[length] = 0,
        _ => {}
    }
    name
}

fn order(writer: &mut Writer) -> Request {
    let mut data = vec![any_node(writer)];
    data.extend(frames::data(3, &mut writer.random));
    (SET_ORDER, data)
}

/// Bits of no node, of one or some, of all, and of those above 199.
fn remove(writer: &mut Writer) -> Request {
    let mut bits = vec![0; 26];
    match writer.random.below(8) {
        0 => {}
        1 => bits.fill(0xFF),
        2 => bits[25] = 0xFF,
        3 => bits.fill_with(|| writer.random.byte() & writer.random.byte()),
        _ => {
            for _ in 0..writer.random.between(1, 3) {
                let node = any_node(writer);
                let byte = usize::from(node / 8).min(25);
                bits[byte] |= 1 << (node % 8);
            }
        }
    }
    (REMOVE_NODES, bits)
}

/// A mode send that is right, or wrong in one way or two.
fn mode_send(writer: &mut Writer) -> Request {
    let mut data = right_mode_send(writer);
    for _ in 0..writer.random.pick(&[0, 0, 0, 1, 1, 1, 2]) {
        spoil_mode_send(&mut data, writer);
    }
    (MODE_SEND, data)
}

/// Free nodes in use, as far as there are any.
fn right_mode_send(writer: &mut Writer) -> Vec<u8> {
    let sessions = &writer.replay.hub.sessions;
    let mut free = nodes::all_in_use(writer.replay.table());
    free.retain(|&node| sessions.holder(node).is_none());
    let random = &mut writer.random;
    let wanted = random.pick(&[1, 1, 1, 2, 2, 3, 5, INDICES]);
    let mut named = Vec::new();
    while named.len() < wanted && !free.is_empty() {
        named.push(free.swap_remove(random.below(free.len())));
    }
    let count = named.len().max(1) as u8;
    named.resize_with(INDICES, || random.byte());
    let session = new_session(random);
    let mut data = session.to_be_bytes().to_vec();
    data.extend([random.pick(&ORIGINATORS), random.below(8) as u8]);
    data.extend([random.byte(), random.byte(), count]);
    data.extend(named);
    data.push(random.below(2) as u8);
    data.extend([random.byte(), random.byte(), random.byte()]);
    data
}

/// Any number, often one with bytes to escape.
fn new_session(random: &mut Random) -> u16 {
    if random.once_in(2) {
        u16::from_be_bytes([random.pick(&SESSION_BYTES), random.pick(&SESSION_BYTES)])
    } else {
        random.draw() as u16
    }
}

/// Makes one thing wrong, or at least different.
fn spoil_mode_send(data: &mut [u8], writer: &mut Writer) {
    let count = usize::from(data[6]).clamp(1, INDICES);
    let last = 7 + count - 1;
    match writer.random.below(11) {
        0 => data[6] = 0,
        1 => data[6] = 21,
        2 => data[6] = writer.random.between(22, 255) as u8,
        3 => data[last] = writer.random.between(NODES, 255) as u8,
        4 => data[last] = writer.random.below(NODES) as u8,
        5 => {
            data[6] = (count as u8 + 1).min(INDICES as u8);
            data[7 + usize::from(data[6]) - 1] = data[7];
        }
        6 => data[3] = writer.random.pick(&[8, 8, 255]),
        7 => data[27] = writer.random.pick(&[2, 2, 255]),
        8 => data[2] = writer.random.pick(&[0, 4, 6, 7, 10, 14, 254]),
        9 => {
            let session = any_session(writer);
            data[..2].copy_from_slice(&session.to_be_bytes());
        }
        _ => {
            let held = writer.replay.hub.sessions.open().next();
            if let Some(session) = held {
                data[last] = session.nodes[0];
            }
        }
    }
}

/// The number of an open session, if there is one, half of the time.
pub fn any_session(writer: &mut Writer) -> u16 {
    let open = writer.open_sessions();
    if open.is_empty() || writer.random.once_in(2) {
        let any = new_session(&mut writer.random);
        writer.random.pick(&[0, 1, 65535, any])
    } else {
        writer.random.pick(&open)
    }
}

/// Any command of the directory with a right length.
fn listed(random: &mut Random) -> Request {
    let entry = random.pick(&ENTRIES);
    let length = random.between(entry.least, entry.greatest);
    (entry.number, frames::data(length, random))
}

fn wrong_length(random: &mut Random) -> Request {
    let entry = random.pick(&ENTRIES);
    let length = random.pick(&reach::lengths(&entry));
    (entry.number, frames::data(length, random))
}

fn unknown(random: &mut Random) -> Request {
    let length = frames::data_length(random);
    (unknown_number(random), frames::data(length, random))
}

/// The longest frame there is, or one byte less.
fn frame_of_250(random: &mut Random) -> Request {
    let length = random.between(DATA_MOST - 1, DATA_MOST);
    let listed = random.pick(&ENTRIES).number;
    (random.pick(&[listed, 0x0322]), frames::data(length, random))
}

/// A capture of any kind for the line reader.
pub fn capture(random: &mut Random) -> Vec<u8> {
    let kind = random.pick(&generate::Kind::ALL);
    let index = random.below(kind.systematic() + 1000);
    let mut capture = generate::capture(kind, random.draw(), index);
    if capture.len() > 1000 {
        let start = random.below(capture.len() - 1000);
        capture = capture[start..start + 1000].to_vec();
    }
    capture
}
