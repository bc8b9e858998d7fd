//! What the hub does with an outcome: error replies and the nine requests.
//!
//! A request is served in two steps. First its reply and the change that it
//! makes are told from the state as it is; then, if the reply fits the room,
//! the change is made.

use std::ops::Range;

use super::commands::*;
use super::nodes::{self, KIND, NAME, NODES, ORDER, PLACEMENT, VARIATION};
use super::password;
use super::sessions::Session;
use super::{Hub, PASSWORD};
use crate::directory;
use crate::outcome::Outcome;
use crate::plain::Reader;
use crate::sender;

/// The data bytes of a notice of a node.
const NODE_NOTICE_DATA: usize = 124;

/// Error bytes.
const NOT_ACCEPTED: u8 = 1;
const FRAME_STRUCTURE: u8 = 2;
const NOT_LOGGED_IN: u8 = 12;

/// Statuses of the node commands.
const OK: u8 = 0;
const REJECTED: u8 = 1;
const INVALID_NODE: u8 = 2;

const VARIATION_MOST: u8 = 4;

/// Order and placement stand side by side.
const ORDER_AND_PLACEMENT: Range<usize> = ORDER.start..PLACEMENT + 1;

/// What a request changes.
pub enum Change {
    Nothing,
    /// This line is logged in.
    Login(u8),
    /// The password to store.
    Password([u8; PASSWORD]),
    /// A field of a node's record.
    Field(u8, Range<usize>, Vec<u8>),
    /// These nodes are no longer in use, and sessions with them close.
    Remove(Vec<u8>),
    /// No node is in use, no session open.
    Virgin,
    /// A slot takes a session.
    Open(usize, Session),
}

/// The reply on the wire, what the request changes, and remarks for a tally.
pub struct Served {
    pub reply: Vec<u8>,
    pub change: Change,
    pub remarks: Vec<&'static str>,
}

impl Served {
    /// No outcome: nothing to write, nothing to change.
    pub fn nothing() -> Self {
        Served {
            reply: Vec::new(),
            change: Change::Nothing,
            remarks: Vec::new(),
        }
    }

    fn new(command: u16, data: &[u8], remark: &'static str) -> Self {
        Served {
            reply: sender::wire(command, data),
            change: Change::Nothing,
            remarks: vec![remark],
        }
    }

    fn changing(self, change: Change) -> Self {
        Served { change, ..self }
    }

    fn error(byte: u8, remark: &'static str) -> Self {
        Served::new(ERROR, &[byte], remark)
    }

    fn confirm(request: u16, data: &[u8], remark: &'static str) -> Self {
        Served::new(request + 1, data, remark)
    }
}

impl Hub {
    /// Judges an outcome in the paper's order. The data of a frame is still
    /// in the record.
    pub(super) fn serve(
        &self,
        table: &[u8],
        line: u8,
        outcome: Outcome,
        record: &Reader,
    ) -> Served {
        let Outcome::Frame { command, data } = outcome else {
            return Served::error(FRAME_STRUCTURE, "error 2: packet refused");
        };
        let Some(entry) = directory::find(command) else {
            return Served::error(NOT_ACCEPTED, "error 1: command unknown");
        };
        if !entry.allows(data) {
            return Served::error(FRAME_STRUCTURE, "error 2: data length");
        }
        if !self.logins[usize::from(line)] && command != PASSWORD_ENTER {
            return Served::error(NOT_LOGGED_IN, "error 12: not logged in");
        }
        let data = record.data(data);
        match command {
            PASSWORD_ENTER => self.enter(line, data),
            PASSWORD_CHANGE => self.change(data),
            GET_NODE => get(table, data[0]),
            SET_VARIATION => set_variation(table, data[0], data[1]),
            SET_NAME => set_name(table, data[0], &data[1..]),
            SET_ORDER => set_order(table, data[0], &data[1..]),
            REMOVE_NODES => self.remove(table, data),
            VIRGIN_STATE => self.virgin(),
            MODE_SEND => self.mode_send(table, line, data),
            _ => Served::error(NOT_ACCEPTED, "error 1: not served"),
        }
    }

    /// Makes the change of a request.
    pub(super) fn make(&mut self, change: Change, table: &mut [u8]) {
        match change {
            Change::Nothing => {}
            Change::Login(line) => self.logins[usize::from(line)] = true,
            Change::Password(password) => self.password = password,
            Change::Field(node, field, bytes) => {
                nodes::record_mut(table, node)[field].copy_from_slice(&bytes);
            }
            Change::Remove(removed) => {
                for &node in &removed {
                    nodes::record_mut(table, node).fill(0);
                }
                self.sessions.close_if(|session| loses(session, &removed));
            }
            Change::Virgin => {
                table.fill(0);
                self.sessions.close_if(|_| true);
            }
            Change::Open(slot, session) => self.sessions.slots[slot] = Some(session),
        }
    }

    fn enter(&self, line: u8, data: &[u8]) -> Served {
        if password::same(data, &self.password) {
            Served::confirm(PASSWORD_ENTER, &[OK], "enter 0").changing(Change::Login(line))
        } else if self.logins[usize::from(line)] {
            Served::confirm(PASSWORD_ENTER, &[REJECTED], "enter 1: stays logged in")
        } else {
            Served::confirm(PASSWORD_ENTER, &[REJECTED], "enter 1: not logged in")
        }
    }

    fn change(&self, data: &[u8]) -> Served {
        let (old, new) = data.split_at(PASSWORD);
        if !password::same(old, &self.password) {
            return Served::confirm(PASSWORD_CHANGE, &[REJECTED], "change 1");
        }
        let remark = if password::same(old, new) {
            "change 0: to the same"
        } else {
            "change 0: to another"
        };
        let change = Change::Password(password::stored(new));
        Served::confirm(PASSWORD_CHANGE, &[OK], remark).changing(change)
    }

    fn remove(&self, table: &[u8], bits: &[u8]) -> Served {
        let named = |node: u8| bits[usize::from(node / 8)] >> (node % 8) & 1 == 1;
        let before = nodes::all_in_use(table);
        let removed: Vec<u8> = before.iter().copied().filter(|&node| named(node)).collect();
        let remark = match removed.len() {
            0 => "remove: no node",
            count if count < before.len() => "remove: some nodes",
            _ => "remove: all nodes",
        };
        let mut served = Served::confirm(REMOVE_NODES, &[0], remark);
        let mut open = self.sessions.open();
        if open.any(|session| loses(session, &removed)) {
            served.remarks.push("remove: a session closes");
        }
        let mut open = self.sessions.open();
        if open.any(|session| !loses(session, &removed)) {
            served.remarks.push("remove: a session stays open");
        }
        if bits[NODES / 8] != 0 {
            served.remarks.push("remove: bits 200 to 207 named");
        }
        if (0..NODES as u8).any(|node| named(node) && !before.contains(&node)) {
            served.remarks.push("remove: a node not in use named");
        }
        served.changing(Change::Remove(removed))
    }

    fn virgin(&self) -> Served {
        let remark = match self.sessions.open().count() {
            0 => "virgin: no session",
            _ => "virgin: a session closes",
        };
        Served::confirm(VIRGIN_STATE, &[], remark).changing(Change::Virgin)
    }

    fn mode_send(&self, table: &[u8], line: u8, data: &[u8]) -> Served {
        let request = ModeSend::new(data);
        let (status, remark) = self.mode_status(table, line, &request);
        let served = Served::confirm(MODE_SEND, &[data[0], data[1], status], remark);
        match (status, self.sessions.lowest_free()) {
            (OK, Some(slot)) => served.changing(Change::Open(slot, request.session(line))),
            _ => served,
        }
    }

    /// The first status that applies.
    fn mode_status(&self, table: &[u8], line: u8, request: &ModeSend) -> (u8, &'static str) {
        let illegal = request.illegal(table);
        if illegal.len() > 1 {
            return (5, "mode send 5: several causes");
        }
        if let Some(cause) = illegal.first() {
            return (5, cause);
        }
        if let Some(slot) = self.sessions.slot_of(request.number) {
            let other = self.sessions.slots[slot].as_ref().map(|open| open.line) != Some(line);
            let remarks = ["mode send 3: own session", "mode send 3: other line's"];
            return (3, remarks[usize::from(other)]);
        }
        if self.sessions.lowest_free().is_none() {
            return (4, "mode send 4");
        }
        let mut holders = request
            .nodes
            .iter()
            .filter_map(|&node| self.sessions.holder(node));
        match holders.next() {
            Some(holder) if holder.line == line => (1, "mode send 1: own session"),
            Some(_) => (1, "mode send 1: other line's"),
            None if request.count == 1 => (0, "mode send 0: 1 node"),
            None if request.count == INDICES => (0, "mode send 0: 20 nodes"),
            None => (0, "mode send 0: some nodes"),
        }
    }
}

/// What mode send asks for. Mode, parameter, levels and lock time are free.
struct ModeSend<'a> {
    number: u16,
    originator: u8,
    priority: u8,
    count: u8,
    /// The first indices, as many as the count says if it is right.
    nodes: &'a [u8],
    lock: u8,
}

impl<'a> ModeSend<'a> {
    const PRIORITY_MOST: u8 = 7;
    const LOCK_MOST: u8 = 1;

    fn new(data: &'a [u8]) -> Self {
        let count = data[6];
        let taken = if count <= INDICES { count } else { 0 };
        ModeSend {
            number: u16::from_be_bytes([data[0], data[1]]),
            originator: data[2],
            priority: data[3],
            count,
            nodes: &data[7..7 + usize::from(taken)],
            lock: data[27],
        }
    }

    /// The session that is asked for.
    fn session(&self, line: u8) -> Session {
        let mut nodes = self.nodes.to_vec();
        nodes.sort();
        Session {
            number: self.number,
            line,
            nodes,
        }
    }

    /// All causes of status 5.
    fn illegal(&self, table: &[u8]) -> Vec<&'static str> {
        let above = |&node: &u8| usize::from(node) >= NODES;
        let unused = |node: &u8| !above(node) && !nodes::in_use(table, *node);
        let nodes = self.nodes;
        let twice = (1..nodes.len()).any(|place| nodes[..place].contains(&nodes[place]));
        let causes = [
            (self.count == 0, "mode send 5: count 0"),
            (self.count == 21, "mode send 5: count 21"),
            (self.count > 21, "mode send 5: count above 21"),
            (nodes.iter().any(above), "mode send 5: node above 199"),
            (nodes.iter().any(unused), "mode send 5: node not in use"),
            (twice, "mode send 5: node named twice"),
            (self.priority > Self::PRIORITY_MOST, "mode send 5: priority"),
            (self.lock > Self::LOCK_MOST, "mode send 5: lock"),
            (
                !ORIGINATORS.contains(&self.originator),
                "mode send 5: originator",
            ),
        ];
        let applies = causes.into_iter().filter(|(applies, _)| *applies);
        applies.map(|(_, cause)| cause).collect()
    }
}

/// Whether a session has one of these nodes.
fn loses(session: &Session, removed: &[u8]) -> bool {
    session.nodes.iter().any(|node| removed.contains(node))
}

/// What is wrong with a node, if anything.
#[derive(Clone, Copy)]
enum Invalid {
    Above,
    NotInUse,
}

fn invalid(table: &[u8], node: u8) -> Option<Invalid> {
    if usize::from(node) >= NODES {
        Some(Invalid::Above)
    } else if !nodes::in_use(table, node) {
        Some(Invalid::NotInUse)
    } else {
        None
    }
}

fn get(table: &[u8], node: u8) -> Served {
    let (status, remark) = match invalid(table, node) {
        Some(Invalid::Above) => (INVALID_NODE, "get 2: above 199"),
        Some(Invalid::NotInUse) => (INVALID_NODE, "get 2: not in use"),
        None => (OK, "get 0"),
    };
    let mut served = Served::confirm(GET_NODE, &[status, node], remark);
    if status == OK {
        let notice = notice(node, nodes::record(table, node));
        served.reply.extend(sender::wire(NODE_NOTICE, &notice));
    }
    served
}

/// The data of frame 0210. Fields that the hub does not keep are zero.
fn notice(node: u8, record: &[u8]) -> [u8; NODE_NOTICE_DATA] {
    let mut data = [0; NODE_NOTICE_DATA];
    data[0] = node;
    data[1..3].copy_from_slice(&record[ORDER]);
    data[3] = record[PLACEMENT];
    data[4..68].copy_from_slice(&record[NAME]);
    data[69..71].copy_from_slice(&record[KIND]);
    data[73] = record[VARIATION];
    data
}

fn set_variation(table: &[u8], node: u8, variation: u8) -> Served {
    let (status, remark, change) = match invalid(table, node) {
        Some(Invalid::Above) => (INVALID_NODE, "variation 2: above 199", Change::Nothing),
        Some(Invalid::NotInUse) => (INVALID_NODE, "variation 2: not in use", Change::Nothing),
        None if variation > VARIATION_MOST => (REJECTED, "variation 1", Change::Nothing),
        None => {
            let field = VARIATION..VARIATION + 1;
            let change = Change::Field(node, field, vec![variation]);
            (OK, "variation 0", change)
        }
    };
    Served::confirm(SET_VARIATION, &[status, node], remark).changing(change)
}

fn set_name(table: &[u8], node: u8, name: &[u8]) -> Served {
    let (status, remark, change) = match invalid(table, node) {
        Some(Invalid::Above) => (INVALID_NODE, "name 2: above 199", Change::Nothing),
        Some(Invalid::NotInUse) => (INVALID_NODE, "name 2: not in use", Change::Nothing),
        None => {
            let change = Change::Field(node, NAME, name.to_vec());
            (OK, "name 0", change)
        }
    };
    Served::confirm(SET_NAME, &[status, node], remark).changing(change)
}

/// Order has two bytes, placement one.
fn set_order(table: &[u8], node: u8, fields: &[u8]) -> Served {
    let (status, remark, change) = match invalid(table, node) {
        Some(Invalid::Above) => (INVALID_NODE, "order 2: above 199", Change::Nothing),
        Some(Invalid::NotInUse) => (INVALID_NODE, "order 2: not in use", Change::Nothing),
        None => {
            let change = Change::Field(node, ORDER_AND_PLACEMENT, fields.to_vec());
            (OK, "order 0", change)
        }
    };
    Served::confirm(SET_ORDER, &[status, node], remark).changing(change)
}
