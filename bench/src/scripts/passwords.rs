//! Passwords of every length, with stale bytes behind their zero or without:
//! right ones, wrong ones, and changes. What is right is the model's rule.

use super::requests::{self, Request, Taste};
use super::writer::Writer;
use super::{host, set_login};
use crate::hub::commands::{PASSWORD_CHANGE, PASSWORD_ENTER};
use crate::hub::nodes::TABLE;
use crate::hub::{password, LINES, PASSWORD};
use crate::outcome::{END, ESC};
use crate::random::Random;
use crate::replay::call::Call;
use crate::sender;

/// A start, an entry or a change, or another request between these.
pub fn some(writer: &mut Writer) {
    let line = writer.random.below(LINES) as u8;
    match writer.random.below(12) {
        0 | 1 => start(writer, line),
        2..6 => {
            let request = enter(writer);
            send(writer, line, request);
        }
        6..10 => change_and_enter(writer, line),
        10 => {
            writer.call(Call::Show);
        }
        _ => {
            let request = requests::request(writer, line, Taste::Any);
            send(writer, line, request);
        }
    }
}

fn send(writer: &mut Writer, line: u8, (command, data): Request) {
    writer.send_one(line, sender::wire(command, &data));
}

/// A start, and entries of the same bytes and of others.
fn start(writer: &mut Writer, line: u8) {
    let given = any(&mut writer.random);
    writer.call(Call::Start {
        password: given.clone(),
        table: TABLE,
    });
    host::enrol_some(writer);
    if writer.random.once_in(2) {
        send(writer, line, (PASSWORD_ENTER, given));
    }
    let request = enter(writer);
    send(writer, line, request);
}

/// A change of a line that is mostly logged in, and an entry of one of its
/// halves, whether it was refused or not.
fn change_and_enter(writer: &mut Writer, line: u8) {
    if !writer.random.once_in(8) {
        set_login(writer, line, true);
    }
    let (command, data) = change(writer);
    let (old, new) = data.split_at(PASSWORD);
    let half = writer.random.pick(&[old, new, new]).to_vec();
    send(writer, line, (command, data));
    let line = writer.random.below(LINES) as u8;
    match writer.random.below(3) {
        0 => {
            let request = enter(writer);
            send(writer, line, request);
        }
        1 => send(writer, line, (PASSWORD_ENTER, half)),
        _ => {}
    }
}

/// An entry that is mostly right.
pub fn enter(writer: &mut Writer) -> Request {
    (PASSWORD_ENTER, mostly_right(writer))
}

/// A change whose first half is mostly right.
pub fn change(writer: &mut Writer) -> Request {
    let old = mostly_right(writer);
    let random = &mut writer.random;
    let new = match random.below(6) {
        0 => old.clone(),
        1 => sent(password::of(&old), random),
        2 => wrong(&old, random),
        _ => any(random),
    };
    (PASSWORD_CHANGE, [old, new].concat())
}

fn mostly_right(writer: &mut Writer) -> Vec<u8> {
    if writer.random.once_in(3) {
        wrong(&writer.replay.hub.password, &mut writer.random)
    } else {
        right(writer)
    }
}

/// The hub's password with any bytes behind its zero.
pub fn right(writer: &mut Writer) -> Vec<u8> {
    let kept = writer.replay.hub.password;
    sent(password::of(&kept), &mut writer.random)
}

/// Any password in 32 bytes.
pub fn any(random: &mut Random) -> Vec<u8> {
    let between = random.between(2, PASSWORD - 2);
    let length = random.pick(&[0, 1, between, between, between, PASSWORD - 1, PASSWORD]);
    sent(&letters(length, random), random)
}

/// Bytes of a password.
fn letters(length: usize, random: &mut Random) -> Vec<u8> {
    (0..length).map(|_| letter(random)).collect()
}

/// A byte of a password, often one that is escaped.
fn letter(random: &mut Random) -> u8 {
    let any = random.between(1, 255) as u8;
    random.pick(&[any, any, any, any, b'a', END, ESC])
}

/// A password in 32 bytes: zeros behind it, or one zero and stale bytes.
fn sent(password: &[u8], random: &mut Random) -> Vec<u8> {
    let mut sent = password.to_vec();
    sent.resize(PASSWORD, 0);
    let Some(behind @ [_, ..]) = sent.get_mut(password.len() + 1..) else {
        return sent;
    };
    let last = behind.len() - 1;
    match random.below(6) {
        0 | 1 => {}
        2 => behind[0] = letter(random),
        3 => behind[last] = letter(random),
        4 => behind.fill_with(|| random.byte()),
        _ => behind.fill_with(|| letter(random)),
    }
    sent
}

/// Another password than the one in these bytes: a shorter one or a longer one
/// that begins alike, one that differs in a byte, or any.
fn wrong(bytes: &[u8], random: &mut Random) -> Vec<u8> {
    let right = password::of(bytes);
    let length = right.len();
    loop {
        let mut wrong = right.to_vec();
        match random.below(9) {
            0 => wrong.clear(),
            1 => wrong.truncate(length.saturating_sub(1)),
            2 => wrong.truncate(random.below(length + 1)),
            3 if length > 0 => wrong[random.below(length)] = 0,
            4 if length < PASSWORD => wrong.push(letter(random)),
            5 => {
                let more = random.between(0, PASSWORD - length);
                wrong.extend(letters(more, random));
            }
            6 => wrong.extend(letters(PASSWORD - length, random)),
            7 if length > 0 => wrong[random.below(length)] ^= 1 << random.below(8),
            _ => wrong = any(random),
        }
        let wrong = if wrong.contains(&0) {
            // The right bytes stay behind a zero put in.
            wrong.resize(PASSWORD, 0);
            wrong
        } else {
            sent(&wrong, random)
        };
        if !password::same(&wrong, bytes) {
            return wrong;
        }
    }
}

#[cfg(test)]
mod tests {
    use super::*;
    use crate::reach::Reach;
    use crate::scripts::{Kind, Name};

    /// Scripts of this kind reach every case of passwords.
    #[test]
    fn passwords_come_in_every_case() {
        let mut reach = Reach::default();
        for index in 0..60 {
            let kind = Kind::Passwords;
            reach.answer(&Name { kind, index }.script(4));
        }
        let mut missing = reach.missing_rows();
        missing.retain(|row| row.contains("password"));
        assert!(missing.is_empty(), "{missing:?}");
    }

    #[test]
    fn right_and_wrong_ones_are_sent_in_32_bytes() {
        let random = &mut Random::new(&[6]);
        for _ in 0..2000 {
            let one = any(random);
            let other = sent(password::of(&one), random);
            let wrong = wrong(&one, random);
            assert_eq!([one.len(), other.len(), wrong.len()], [PASSWORD; 3]);
            assert!(password::same(&one, &other) && !password::same(&one, &wrong));
        }
    }
}
