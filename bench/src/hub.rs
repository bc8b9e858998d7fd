//! The hub as the paper states it: its state, the host calls, and feed.
//!
//! It is the other side of the comparison, so it is written to be believed.
//! Lent lengths and numbers may be anything.

pub mod commands;
pub mod nodes;
pub mod password;
pub mod refusals;
mod serve;
pub mod sessions;

use crate::outcome::Outcome;
use crate::plain::Reader;
use crate::sender;
use commands::SESSION_FINISHED;
use refusals::{CallRefusal, Refusals};
use serve::{Change, Served};
use sessions::Sessions;

pub const LINES: usize = 4;
/// The bytes that a password is sent and kept in.
pub const PASSWORD: usize = 32;
/// Room that every reply fits.
pub const ROOM_ENOUGH: usize = 512;

#[derive(Clone, Debug, PartialEq, Eq)]
pub struct Hub {
    /// There may be bytes behind the zero, though no call leaves any.
    pub password: [u8; PASSWORD],
    pub logins: [bool; LINES],
    pub sessions: Sessions,
}

/// What feed tells.
pub struct Fed {
    pub used: usize,
    pub outcome: Option<Outcome>,
    /// The length of the reply.
    pub reply: usize,
    /// What the hub did, in words that a tally counts.
    pub remarks: Vec<&'static str>,
}

/// What a feed comes to if its reply fits. Nothing is changed yet.
pub struct Coming {
    pub used: usize,
    pub outcome: Option<Outcome>,
    pub reply: Vec<u8>,
    pub remarks: Vec<&'static str>,
    change: Change,
    /// The record as the feed leaves it.
    record: Reader,
}

/// What finish tells.
pub struct Finished {
    pub line: u8,
    pub reply: usize,
}

impl Default for Hub {
    fn default() -> Self {
        Self::new()
    }
}

impl Hub {
    /// The hub before any start.
    pub fn new() -> Self {
        Hub {
            password: [0; PASSWORD],
            logins: [false; LINES],
            sessions: Sessions::default(),
        }
    }

    pub fn start(&mut self, password: &[u8], table: &mut [u8]) -> Result<(), Refusals> {
        Refusals::none_of(&[
            (CallRefusal::Table, table.len() != nodes::TABLE),
            (CallRefusal::Password, password.len() != PASSWORD),
        ])?;
        *self = Hub::new();
        self.password = password::stored(password);
        table.fill(0);
        Ok(())
    }

    pub fn enrol(&self, node: u8, kind: u16, table: &mut [u8]) -> Result<(), Refusals> {
        Refusals::none_of(&[
            (CallRefusal::Table, table.len() != nodes::TABLE),
            (CallRefusal::Node, usize::from(node) >= nodes::NODES),
            (CallRefusal::InUse, nodes::in_use(table, node)),
        ])?;
        nodes::enrol(table, node, kind);
        Ok(())
    }

    /// The record is that of the line. A line above 3 is lent any.
    pub fn close(&mut self, line: u8, record: &mut Reader) -> Result<(), Refusals> {
        Refusals::none_of(&[(CallRefusal::Line, usize::from(line) >= LINES)])?;
        self.logins[usize::from(line)] = false;
        self.sessions.close_if(|session| session.line == line);
        *record = Reader::new();
        Ok(())
    }

    /// The frame to write is known before the session is closed.
    pub fn finish(&mut self, session: u16, room: &mut [u8]) -> Result<Finished, Refusals> {
        let slot = self.sessions.slot_of(session);
        let reply = finished(session);
        Refusals::none_of(&[
            (CallRefusal::NotOpen, slot.is_none()),
            (CallRefusal::Room, reply.len() > room.len()),
        ])?;
        let line = slot.map_or(0, |slot| self.sessions.close(slot));
        room[..reply.len()].copy_from_slice(&reply);
        Ok(Finished {
            line,
            reply: reply.len(),
        })
    }

    /// Reads up to the first outcome and serves it, if the reply fits the
    /// room.
    pub fn feed(
        &mut self,
        line: u8,
        bytes: &[u8],
        table: &mut [u8],
        record: &mut Reader,
        room: &mut [u8],
    ) -> Result<Fed, Refusals> {
        Refusals::none_of(&[
            (CallRefusal::Table, table.len() != nodes::TABLE),
            (CallRefusal::Line, usize::from(line) >= LINES),
        ])?;
        let coming = self.coming(line, bytes, table, record);
        let reply = coming.reply.len();
        Refusals::none_of(&[(CallRefusal::Room, reply > room.len())])?;
        self.make(coming.change, table);
        *record = coming.record;
        room[..reply].copy_from_slice(&coming.reply);
        Ok(Fed {
            used: coming.used,
            outcome: coming.outcome,
            reply,
            remarks: coming.remarks,
        })
    }

    /// What a feed of a right table on a line up to 3 comes to. All that is
    /// lent is only looked at; a copy of the record takes the bytes.
    pub fn coming(&self, line: u8, bytes: &[u8], table: &[u8], record: &Reader) -> Coming {
        let mut record = record.clone();
        let (used, outcome) = record.read(bytes);
        let served = match outcome {
            Some(outcome) => self.serve(table, line, outcome, &record),
            None => Served::nothing(),
        };
        Coming {
            used,
            outcome,
            reply: served.reply,
            remarks: served.remarks,
            change: served.change,
            record,
        }
    }
}

/// What finish writes.
pub fn finished(session: u16) -> Vec<u8> {
    sender::wire(SESSION_FINISHED, &session.to_be_bytes())
}

#[cfg(test)]
mod tests;
