//! Host calls: the usual ones, and ones with any numbers and lengths.

use super::writer::Writer;
use super::{bad, passwords, requests};
use crate::hub::commands::PASSWORD_ENTER;
use crate::hub::nodes::{self, NODES, TABLE};
use crate::hub::{self, LINES, PASSWORD};
use crate::random::Random;
use crate::replay::call::Call;
use crate::sender;

/// Most scripts begin with a start, some nodes and some logins.
pub fn set_up(writer: &mut Writer) {
    if !writer.random.once_in(10) {
        start(writer);
    }
    let count = writer.random.pick(&[0, 3, 10, 30, 30, NODES]);
    for _ in 0..count {
        enrol(writer);
    }
    for line in 0..LINES as u8 {
        if writer.random.once_in(2) {
            let password = passwords::right(writer);
            writer.send_one(line, sender::wire(PASSWORD_ENTER, &password));
        }
    }
}

/// The table and the state at the end. Some scripts have another line behind
/// it, some no last LF.
pub fn end(writer: &mut Writer) {
    if writer.random.once_in(4) {
        writer.call(Call::Table);
    }
    writer.call(Call::Show);
    match writer.random.below(8) {
        0 => bad::remark(writer),
        1 => bad::bad_word(writer),
        2 => bad::long(writer),
        _ => {}
    }
    if writer.random.once_in(4) {
        writer.script.pop();
    }
}

fn start(writer: &mut Writer) {
    let password = passwords::any(&mut writer.random);
    writer.call(Call::Start {
        password,
        table: TABLE,
    });
}

/// Enrols a node, one that is not in use if there is one.
fn enrol(writer: &mut Writer) {
    let free = |node: &u8| !nodes::in_use(writer.replay.table(), *node);
    let free: Vec<u8> = (0..NODES as u8).filter(free).collect();
    let node = if free.is_empty() {
        0
    } else {
        writer.random.pick(&free)
    };
    let kind = writer.random.draw() as u16;
    writer.call(Call::Enrol {
        node,
        kind,
        table: TABLE,
    });
}

pub fn enrol_some(writer: &mut Writer) {
    for _ in 0..writer.random.between(1, 12) {
        enrol(writer);
    }
}

/// Enrols a node whose replies have bytes to escape, unless it is in use.
pub fn enrol_escaped(writer: &mut Writer) {
    let node = writer.random.pick(&requests::ESCAPED_NODES);
    if !nodes::in_use(writer.replay.table(), node) {
        let kind = writer.random.pick(&[0x0080, 0xC0DB]);
        writer.call(Call::Enrol {
            node,
            kind,
            table: TABLE,
        });
    }
}

pub fn close(writer: &mut Writer, line: u8) {
    writer.call(Call::Close { line });
}

/// Finishes an open session if there is one, sometimes only when a shorter
/// room was refused.
pub fn finish(writer: &mut Writer) {
    let open = writer.open_sessions();
    if open.is_empty() {
        return any_call(writer);
    }
    let session = writer.random.pick(&open);
    let reply = hub::finished(session).len();
    if writer.random.once_in(6) {
        let room = writer.short_room(reply);
        writer.call(Call::Finish { session, room });
    }
    let room = writer.right_room(reply);
    writer.call(Call::Finish { session, room });
}

/// A call that a host makes between the feeds.
pub fn usual_call(writer: &mut Writer) {
    match writer.random.below(40) {
        0..12 => enrol_some(writer),
        12..24 => finish(writer),
        24..29 => {
            let line = writer.random.below(LINES) as u8;
            close(writer, line);
        }
        29..31 => {
            writer.call(Call::Show);
        }
        31 => {
            writer.call(Call::Table);
        }
        32 => {
            start(writer);
            enrol_some(writer);
        }
        _ => any_call(writer),
    }
}

/// A call with any numbers and lengths.
pub fn any_call(writer: &mut Writer) {
    let call = drawn_call(writer);
    writer.call(call);
}

fn drawn_call(writer: &mut Writer) -> Call {
    let word = match writer.random.below(24) {
        0 => writer.random.pick(&["show", "table"]),
        1..4 => "start",
        4..10 => "enrol",
        10..12 => "close",
        12..18 => "finish",
        _ => "feed",
    };
    call_of(word, writer)
}

/// A call of this word with any numbers and lengths.
pub fn call_of(word: &str, writer: &mut Writer) -> Call {
    match word {
        "start" => Call::Start {
            password: any_password(&mut writer.random),
            table: writer.any_table(),
        },
        "enrol" => Call::Enrol {
            node: any_node(writer),
            kind: writer.random.draw() as u16,
            table: writer.any_table(),
        },
        "feed" => {
            let line = any_line(&mut writer.random);
            let bytes = any_bytes(&mut writer.random);
            let reply = writer.reply_to(line, &bytes);
            Call::Feed {
                line,
                room: writer.any_room(reply),
                bytes,
                table: writer.any_table(),
            }
        }
        "close" => Call::Close {
            line: any_line(&mut writer.random),
        },
        "finish" => {
            let session = requests::any_session(writer);
            let room = writer.any_room(hub::finished(session).len());
            Call::Finish { session, room }
        }
        "show" => Call::Show,
        _ => Call::Table,
    }
}

fn any_line(random: &mut Random) -> u8 {
    let any = random.byte();
    let right = random.below(LINES) as u8;
    random.pick(&[right, right, 4, any])
}

fn any_node(writer: &mut Writer) -> u8 {
    let any = writer.random.byte();
    let used = nodes::all_in_use(writer.replay.table());
    let used = if used.is_empty() {
        any
    } else {
        writer.random.pick(&used)
    };
    writer.random.pick(&[any, used, 0, 199, 200, 255])
}

/// A password that mostly has more or fewer bytes than 32.
fn any_password(random: &mut Random) -> Vec<u8> {
    let any = random.below(80);
    let length = random.pick(&[0, 1, PASSWORD - 1, PASSWORD + 1, any, PASSWORD, PASSWORD]);
    let more = random.byte();
    let mut password = passwords::any(random);
    password.resize(length, random.pick(&[0, more]));
    password
}

fn any_bytes(random: &mut Random) -> Vec<u8> {
    let mut bytes = requests::capture(random);
    bytes.truncate(random.pick(&[0, 5, 40, 2000]));
    bytes
}
