//! Scripts to measure by: frames of served commands, one a feed. Sessions
//! are finished when the slots are full.

use super::requests::{self, Taste};
use super::writer::Writer;
use crate::hub::commands::{
    GET_NODE, MODE_SEND, PASSWORD_CHANGE, PASSWORD_ENTER, REMOVE_NODES, SET_NAME, SET_ORDER,
    SET_VARIATION,
};
use crate::hub::nodes::{NODES, TABLE};
use crate::hub::{LINES, PASSWORD, ROOM_ENOUGH};
use crate::random::Random;
use crate::replay::call::Call;
use crate::sender;

/// The script draws from a round of so many feeds, so that it is made fast.
const ROUND: usize = 1000;

/// A script of so many feeds, behind a start, all nodes and four logins.
/// The rounds are equal, so each costs the same.
pub fn script(feeds: usize) -> Vec<u8> {
    let mut writer = Writer::new(Random::new(&[1]));
    let password = [7; PASSWORD];
    set_up(&mut writer, &password);
    let mut script = writer.script.clone();
    writer.script.clear();
    for _ in 0..ROUND {
        feed_drawn(&mut writer);
        if writer.replay.hub.sessions.lowest_free().is_none() {
            finish_all(&mut writer);
        }
    }
    finish_all(&mut writer);
    let round = writer.script.split_inclusive(|&byte| byte == b'\n');
    let mut left = feeds;
    for line in round.collect::<Vec<_>>().into_iter().cycle() {
        if left == 0 {
            break;
        }
        left -= usize::from(line.starts_with(b"feed"));
        script.extend(line);
    }
    script
}

fn finish_all(writer: &mut Writer) {
    let open = writer.open_sessions();
    for session in open {
        let room = ROOM_ENOUGH;
        writer.call(Call::Finish { session, room });
    }
}

fn set_up(writer: &mut Writer, password: &[u8]) {
    writer.call(Call::Start {
        password: password.to_vec(),
        table: TABLE,
    });
    for node in 0..NODES as u8 {
        writer.call(Call::Enrol {
            node,
            kind: 0x0080,
            table: TABLE,
        });
    }
    for line in 0..LINES as u8 {
        feed(writer, line, &sender::wire(PASSWORD_ENTER, password));
    }
}

fn feed(writer: &mut Writer, line: u8, bytes: &[u8]) {
    writer.call(Call::Feed {
        line,
        room: ROOM_ENOUGH,
        bytes: bytes.to_vec(),
        table: TABLE,
    });
}

/// Any request that leaves nodes and password as they are, so that there is
/// always something to do.
fn feed_drawn(writer: &mut Writer) {
    let line = writer.random.below(LINES) as u8;
    let (command, data) = loop {
        let (command, data) = requests::request(writer, line, Taste::Any);
        let right = match command {
            PASSWORD_ENTER | GET_NODE | SET_VARIATION | SET_NAME | SET_ORDER | MODE_SEND => true,
            PASSWORD_CHANGE => data[..PASSWORD] == data[PASSWORD..],
            REMOVE_NODES => data.iter().all(|&bits| bits == 0),
            _ => false,
        };
        if right {
            break (command, data);
        }
    };
    feed(writer, line, &sender::wire(command, &data));
}
