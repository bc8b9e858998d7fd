//! The two sides: the static library `rounds`, and the second hub. Each logs
//! line 0 in on a hub before any start, then makes the row's calls in rounds.

use bench::hub::{Hub, ROOM_ENOUGH};
use bench::plain::Reader;

use crate::rows::{self, Row};

// Slices cross over as pointer and length.
extern "C" {
    fn rounds_feed(
        table: *mut u8,
        table_len: usize,
        login: *const u8,
        login_len: usize,
        bytes: *const u8,
        bytes_len: usize,
        room: *mut u8,
        room_len: usize,
        rounds: u64,
    ) -> usize;

    fn rounds_finish(
        table: *mut u8,
        table_len: usize,
        login: *const u8,
        login_len: usize,
        bytes: *const u8,
        bytes_len: usize,
        session: u16,
        room: *mut u8,
        room_len: usize,
        rounds: u64,
    ) -> usize;
}

#[derive(Clone, Copy)]
pub enum Side {
    Hub,
    Model,
}

/// What the rounds leave: the length of the last reply, the room and the
/// table.
#[derive(PartialEq)]
pub struct Left {
    pub reply: usize,
    pub room: Vec<u8>,
    pub table: Vec<u8>,
}

impl Side {
    pub fn named(word: &str) -> Option<Self> {
        match word {
            "hub" => Some(Side::Hub),
            "model" => Some(Side::Model),
            _ => None,
        }
    }

    /// Makes the calls of a row so many times.
    pub fn make(self, row: &Row, rounds: u64) -> Left {
        let mut table = rows::table();
        let mut room = vec![0; ROOM_ENOUGH];
        let login = rows::login();
        let reply = match self {
            Side::Hub => hub(row, &login, &mut table, &mut room, rounds),
            Side::Model => model(row, &login, &mut table, &mut room, rounds),
        };
        Left { reply, room, table }
    }
}

fn hub(row: &Row, login: &[u8], table: &mut [u8], room: &mut [u8], rounds: u64) -> usize {
    // The slices are valid for their lengths, and what is changed overlaps
    // nothing.
    unsafe {
        match row.session {
            None => rounds_feed(
                table.as_mut_ptr(),
                table.len(),
                login.as_ptr(),
                login.len(),
                row.bytes.as_ptr(),
                row.bytes.len(),
                room.as_mut_ptr(),
                room.len(),
                rounds,
            ),
            Some(session) => rounds_finish(
                table.as_mut_ptr(),
                table.len(),
                login.as_ptr(),
                login.len(),
                row.bytes.as_ptr(),
                row.bytes.len(),
                session,
                room.as_mut_ptr(),
                room.len(),
                rounds,
            ),
        }
    }
}

fn model(row: &Row, login: &[u8], table: &mut [u8], room: &mut [u8], rounds: u64) -> usize {
    let mut hub = Hub::new();
    let mut record = Reader::new();
    let mut reply = fed(&mut hub, login, table, &mut record, room);
    for _ in 0..rounds {
        reply = fed(&mut hub, &row.bytes, table, &mut record, room);
        if let Some(session) = row.session {
            reply = hub
                .finish(session, room)
                .map_or(0, |finished| finished.reply);
        }
    }
    reply
}

/// The length of the reply to a feed on line 0.
fn fed(
    hub: &mut Hub,
    bytes: &[u8],
    table: &mut [u8],
    record: &mut Reader,
    room: &mut [u8],
) -> usize {
    hub.feed(0, bytes, table, record, room)
        .map_or(0, |fed| fed.reply)
}
