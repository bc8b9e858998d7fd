//! The rows: what is fed in each round, and the goal of the ratio.

use bench::hub::commands::{
    ERROR, GET_NODE, MODE_SEND, PASSWORD_ENTER, SESSION_FINISHED, SET_NAME,
};
use bench::hub::nodes::{self, TABLE};
use bench::hub::PASSWORD;
use bench::outcome::{END, ESC};
use bench::random::Random;
use bench::sender;

/// A command that the directory does not have.
const UNKNOWN: u16 = 0x0FFF;
/// The data bytes of a frame of 250 bytes.
const LONG: usize = 245;
/// The bytes that are skipped behind a wrong escape.
const SKIPPED: usize = 10_000;
/// The data bytes of a node's number and name.
const NAMED: usize = 65;
const NODE: u8 = 1;
/// The nodes in use, from 0 on.
const NODES: u8 = 40;
const SESSION: u16 = 0x0102;
const SEED: u64 = 1;

pub struct Row {
    pub name: String,
    /// The goal of the ratio, where there is one.
    pub goal: Option<f64>,
    /// What line 0 is fed in each round: up to one outcome.
    pub bytes: Vec<u8>,
    /// The session that each round finishes.
    pub session: Option<u16>,
    /// What the room begins with after a round.
    pub reply: Vec<u8>,
}

impl Row {
    fn new(name: &str, bytes: Vec<u8>, reply: Vec<u8>) -> Self {
        Row {
            name: name.into(),
            goal: Some(1.0),
            bytes,
            session: None,
            reply,
        }
    }
}

pub fn all() -> Vec<Row> {
    let random = &mut Random::new(&[SEED]);
    let mut data = |count: usize| -> Vec<u8> { (0..count).map(|_| random.byte()).collect() };
    let mut name = data(NAMED);
    name[0] = NODE;
    let enter = sender::wire(PASSWORD_ENTER, &[0; PASSWORD]);
    let confirm = |request: u16, data: &[u8]| sender::wire(request + 1, data);
    let error = |byte: u8| sender::wire(ERROR, &[byte]);
    vec![
        Row::new(
            "get node information",
            sender::wire(GET_NODE, &[NODE]),
            confirm(GET_NODE, &[0, NODE]),
        ),
        Row::new(
            "set node name",
            sender::wire(SET_NAME, &name),
            confirm(SET_NAME, &[0, NODE]),
        ),
        Row::new("password enter", enter, confirm(PASSWORD_ENTER, &[0])),
        Row::new("unknown command", sender::wire(UNKNOWN, &[]), error(1)),
        Row::new(
            "frame of 250 bytes, wrong length",
            sender::wire(GET_NODE, &data(LONG)),
            error(2),
        ),
        mode_send(1),
        mode_send(20),
        skipped(error(2)),
    ]
}

/// The row whose name begins so.
pub fn named(word: &str) -> Option<Row> {
    all().into_iter().find(|row| row.name.starts_with(word))
}

/// A mode send of so many nodes, and its session finished.
fn mode_send(count: u8) -> Row {
    let mut data = [0; 31];
    data[..2].copy_from_slice(&SESSION.to_be_bytes());
    data[2] = 8;
    data[3] = 3;
    data[6] = count;
    for (place, node) in (0..count).enumerate() {
        data[7 + place] = 2 * node;
    }
    let name = format!("mode send of {count} with finish");
    let notice = sender::wire(SESSION_FINISHED, &SESSION.to_be_bytes());
    Row {
        goal: Some(0.8),
        session: Some(SESSION),
        ..Row::new(&name, sender::wire(MODE_SEND, &data), notice)
    }
}

/// A wrong escape, and bytes that are skipped up to the END.
fn skipped(reply: Vec<u8>) -> Row {
    let mut bytes = vec![END, ESC];
    bytes.extend(vec![b'x'; SKIPPED]);
    bytes.push(END);
    Row {
        goal: None,
        ..Row::new(&format!("{SKIPPED} bytes skipped"), bytes, reply)
    }
}

/// The table that each run begins with.
pub fn table() -> Vec<u8> {
    let mut table = vec![0; TABLE];
    for node in 0..NODES {
        nodes::enrol(&mut table, node, 0x0080);
    }
    table
}

/// What logs line 0 in on a hub before any start.
pub fn login() -> Vec<u8> {
    sender::wire(PASSWORD_ENTER, &[0; PASSWORD])
}
