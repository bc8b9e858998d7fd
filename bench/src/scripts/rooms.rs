//! Rooms around the length of what is to be written: requests and packets
//! that are fed with rooms too short and then with one that fits, and
//! sessions that are finished so.

use super::requests::{self, Taste};
use super::writer::Writer;
use super::{host, set_login};
use crate::generate::damage::{damaged, other_value, places, Damage};
use crate::hub::nodes::TABLE;
use crate::hub::{self, LINES};
use crate::outcome::{END, PACKET_MOST};
use crate::random::Random;
use crate::replay::call::Call;
use crate::replay::Told;
use crate::sender;

/// The most feeds that are lent too short a room, one behind the other.
const SHORT_MOST: usize = 3;

pub fn some(writer: &mut Writer) {
    if writer.random.once_in(4) {
        finish(writer);
    } else {
        packet(writer);
    }
}

/// One packet with short rooms, then with one that fits. Other lines go on
/// meanwhile.
fn packet(writer: &mut Writer) {
    let line = writer.random.below(LINES) as u8;
    if !writer.random.once_in(4) {
        set_login(writer, line, true);
    }
    host::enrol_escaped(writer);
    let mut waiting = wire(writer, line);
    if writer.random.once_in(2) {
        begin(writer, line, &mut waiting);
    }
    for _ in 0..writer.random.between(1, SHORT_MOST) {
        let reply = writer.reply_to(line, &waiting);
        let room = writer.short_room(reply);
        if let Told::Fed(_) = writer.feed_lent(line, room, &waiting, TABLE) {
            return;
        }
        if writer.random.once_in(2) {
            other_line(writer, line);
        } else if writer.random.once_in(8) {
            writer.call(Call::Show);
        }
    }
    let reply = writer.reply_to(line, &waiting);
    let room = writer.right_room(reply);
    writer.feed_lent(line, room, &waiting, TABLE);
}

/// Feeds the first bytes of a packet, which have no reply.
fn begin(writer: &mut Writer, line: u8, waiting: &mut Vec<u8>) {
    let cut = writer.random.below(waiting.len());
    let room = writer.random.pick(&[0, 0, 1, 7, 300]);
    if let Told::Fed(fed) = writer.feed_lent(line, room, &waiting[..cut], TABLE) {
        waiting.drain(..fed.used);
    }
}

/// A request, sometimes with one byte damaged or with too many, sometimes with
/// bytes before and behind it.
fn wire(writer: &mut Writer, line: u8) -> Vec<u8> {
    let taste = writer
        .random
        .pick(&[Taste::Escapes, Taste::Escapes, Taste::Sessions]);
    let (command, data) = requests::request(writer, line, taste);
    let random = &mut writer.random;
    let mut body = sender::escape(&sender::frame(command, &data));
    match random.below(16) {
        0 | 1 => body = hurt(&body, random),
        2 => body.resize(random.between(PACKET_MOST + 1, 2 * PACKET_MOST), 1),
        _ => {}
    }
    let before = random.pick(&[0, 1, 1, 1, 3]);
    let mut wire = vec![END; before];
    wire.extend(body);
    wire.push(END);
    if random.once_in(4) {
        wire.extend([END, 0, 3, 0, 1][..random.between(1, 5)].iter());
    }
    wire
}

fn hurt(body: &[u8], random: &mut Random) -> Vec<u8> {
    let damage = random.pick(&[Damage::Replaced, Damage::Inserted, Damage::Lost]);
    let place = random.below(places(damage, body));
    let old = body.get(place).copied();
    damaged(damage, body, place, other_value(old, random))
}

/// A request on another line.
pub fn other_line(writer: &mut Writer, line: u8) {
    let other = (usize::from(line) + writer.random.between(1, LINES - 1)) % LINES;
    let (command, data) = requests::request(writer, other as u8, Taste::Any);
    writer.send_one(other as u8, sender::wire(command, &data));
}

/// Finishes a session, open or not, with rooms around its frame.
fn finish(writer: &mut Writer) {
    let session = requests::any_session(writer);
    let reply = hub::finished(session).len();
    for _ in 0..writer.random.below(SHORT_MOST) {
        let room = writer.short_room(reply);
        writer.call(Call::Finish { session, room });
    }
    let room = writer.any_room(reply);
    writer.call(Call::Finish { session, room });
}
