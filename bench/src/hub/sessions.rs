//! The open sessions: eight slots over all lines together.

pub const SLOTS: usize = 8;

#[derive(Clone, Debug, PartialEq, Eq)]
pub struct Session {
    pub number: u16,
    pub line: u8,
    /// Ascending.
    pub nodes: Vec<u8>,
}

#[derive(Clone, Debug, Default, PartialEq, Eq)]
pub struct Sessions {
    pub slots: [Option<Session>; SLOTS],
}

impl Sessions {
    pub fn open(&self) -> impl Iterator<Item = &Session> {
        self.slots.iter().flatten()
    }

    /// The lowest slot that has the session.
    pub fn slot_of(&self, number: u16) -> Option<usize> {
        let has = |slot: &Option<Session>| slot.as_ref().is_some_and(|open| open.number == number);
        self.slots.iter().position(has)
    }

    pub fn lowest_free(&self) -> Option<usize> {
        self.slots.iter().position(Option::is_none)
    }

    /// The open session that has the node.
    pub fn holder(&self, node: u8) -> Option<&Session> {
        self.open().find(|session| session.nodes.contains(&node))
    }

    /// Closes a slot and tells the line of its session.
    pub fn close(&mut self, slot: usize) -> u8 {
        self.slots[slot].take().map_or(0, |session| session.line)
    }

    /// Closes all sessions of which this holds, and tells how many.
    pub fn close_if(&mut self, holds: impl Fn(&Session) -> bool) -> usize {
        let mut closed = 0;
        for slot in &mut self.slots {
            if slot.as_ref().is_some_and(&holds) {
                *slot = None;
                closed += 1;
            }
        }
        closed
    }
}
