//! Pairs of scripts for demand 3: a list of feeds in which one frame of one
//! line is damaged, and the same list without that frame's feeds.

use super::requests::{self, Taste};
use super::writer::{Writer, LONGEST_PARTS};
use super::{host, step, Kind};
use crate::generate::damage::{damaged, other_value, places, Damage};
use crate::generate::frames;
use crate::hub::nodes::TABLE;
use crate::hub::{Fed, LINES};
use crate::outcome::{Refusal, END, ESC};
use crate::random::Random;
use crate::replay::call::{is_remark, Call};
use crate::replay::Told;
use crate::sender::{self, escape, Ends};

/// The most frames on the line.
const FRAMES_MOST: usize = 6;
/// Steps before the list of feeds.
const STEPS_MOST: usize = 12;

/// The one error reply: frame 0000 with byte 2.
const ERROR_REPLY: &str = " reply C0000400000206C0";

/// Where a body is damaged.
const PLACES: [&str; 8] = [
    "protocol byte",
    "length byte",
    "command",
    "data",
    "check byte",
    "escape's first byte",
    "escape's second byte",
    "behind the last byte",
];

/// Two scripts and what is known of them. Each line has one answer, but for
/// the `show` at the end.
pub struct Pair {
    pub with: Vec<u8>,
    pub without: Vec<u8>,
    /// The lines of the damaged frame's feeds in the first script.
    pub frame_feeds: Vec<usize>,
    /// The damaged frame on the wire, without its ENDs.
    pub piece: Vec<u8>,
    /// What the pair shows, for a tally.
    pub rows: Vec<String>,
}

impl Pair {
    /// The row of an answer that refuses the damaged frame: a packet refusal at
    /// places of its piece, with the error reply.
    pub fn refused(&self, answer: &str) -> Option<String> {
        let told = answer.strip_suffix(ERROR_REPLY)?;
        let (_, packet) = told.split_once(" packet ")?;
        let (number, places) = packet.split_once(" at ")?;
        let (wire, decoded) = places.split_once(' ')?;
        let before = self.piece.get(..wire.parse().ok()?)?;
        let row = format!("packet {number}");
        let right = packet_rows().any(|packet| packet == row)
            && decoded.parse() == Ok(decoded_count(before))
            && before.ends_with(&[ESC]) == (number == "1");
        right.then_some(row)
    }
}

/// How many decoded bytes stand before a place of a piece. ESCs are no bytes of
/// their own; only a wrong escape is told right behind one.
fn decoded_count(before: &[u8]) -> usize {
    before.iter().filter(|&&byte| byte != ESC).count()
}

/// A row for each packet refusal.
fn packet_rows() -> impl Iterator<Item = String> {
    Refusal::ALL
        .map(|refusal| format!("packet {}", refusal as u8))
        .into_iter()
}

/// All rows that pairs should show.
pub fn rows() -> Vec<String> {
    let mut rows = Vec::new();
    for damage in [Damage::Replaced, Damage::Inserted, Damage::Lost] {
        let behind = usize::from(damage != Damage::Inserted);
        for place in &PLACES[..PLACES.len() - behind] {
            rows.push(format!("{damage:?} at {place}"));
        }
    }
    rows.extend(packet_rows());
    let others = [
        "the frame is the first",
        "the frame is the last",
        "the frame is alone",
        "the frame's feeds: one",
        "the frame's feeds: several",
        "the frame's feeds: one refused 7",
        "the frame's feeds: one refused 9",
        "the frame's feeds: one refused 9, then the same bytes",
        "the frame's feeds: one of no bytes",
        "the frame's feeds: a part with room 0",
        "the frame's feeds: the error reply fits exactly",
        "a feed before ends in the frame",
        "other lines: an outcome between the frame's feeds",
        "other frames of the line: one refused 9",
        "other frames of the line: one fits exactly",
        "other lines: one refused 7",
        "other lines: one refused 9",
        "other lines: one refused 9 between the frame's feeds",
        "other lines: a line above 3",
        "the line is logged in",
        "the line is not logged in",
    ];
    rows.extend(others.map(String::from));
    rows
}

pub fn pair(seed: u64, index: usize) -> Pair {
    let mut writer = Writer::new(Random::new(&[seed, index as u64]));
    let line = writer.random.below(LINES);
    before(&mut writer, line as u8);
    let (bodies, hurt, mut rows) = bodies(&mut writer, line as u8);
    let ends = writer
        .random
        .pick(&[Ends::Shared, Ends::Doubled, Ends::Mixed]);
    let wire = sender::join(&bodies, ends, &mut writer.random);
    let login = writer.replay.hub.logins[line];
    let not = if login { "" } else { "not " };
    rows.push(format!("the line is {not}logged in"));
    let mut feeds = Feeds {
        line,
        hurt,
        piece: bodies[hurt].clone(),
        outcomes: 0,
        frame_feeds: Vec::new(),
        refused: None,
        rows,
    };
    feeds.send(&mut writer, wire);
    writer.call(Call::Show);
    feeds.pair(writer)
}

/// Any state, the line being between packets. Calls that write several lines
/// and remarks are left out, so that each line has one answer.
fn before(writer: &mut Writer, line: u8) {
    host::set_up(writer);
    for _ in 0..writer.random.below(STEPS_MOST) {
        step(writer, Kind::Mixed);
    }
    let record = &writer.replay.records[usize::from(line)];
    if !record.is_between_packets() {
        writer.send_one(line, vec![END]);
    }
    let one_answer = |line: &[u8]| line != b"show" && line != b"table" && !is_remark(line);
    let lines = writer.script.split(|&byte| byte == b'\n');
    let lines = lines.filter(|line| one_answer(line));
    writer.script = lines.flat_map(|line| [line, b"\n"].concat()).collect();
}

/// Well-formed frames for the line, escaped, one of them damaged: the frames,
/// the number of the damaged one, and what is shown.
fn bodies(writer: &mut Writer, line: u8) -> (Vec<Vec<u8>>, usize, Vec<String>) {
    let count = writer.random.between(1, FRAMES_MOST);
    let mut bodies: Vec<_> = (0..count).map(|_| body(writer, line)).collect();
    let hurt = writer.random.below(count);
    let random = &mut writer.random;
    if random.once_in(8) {
        bodies[hurt] = escape(&frames::frame_of(0, random));
    } else if random.once_in(8) {
        bodies[hurt] = escape(&frames::frame_of(250, random));
    }
    let (damaged, row) = hurt_body(&bodies[hurt], random);
    bodies[hurt] = damaged;
    let mut rows = vec![row];
    if hurt == 0 {
        rows.push("the frame is the first".to_string());
    }
    if hurt == count - 1 {
        rows.push("the frame is the last".to_string());
    }
    if count == 1 {
        rows.push("the frame is alone".to_string());
    }
    (bodies, hurt, rows)
}

/// An escaped frame: mostly a request, else any.
fn body(writer: &mut Writer, line: u8) -> Vec<u8> {
    let frame = if writer.random.once_in(4) {
        let length = frames::data_length(&mut writer.random);
        frames::frame_of(length, &mut writer.random)
    } else {
        let taste = writer.random.pick(&[Taste::Any, Taste::Sessions]);
        let (command, data) = requests::request(writer, line, taste);
        sender::frame(command, &data)
    };
    escape(&frame)
}

/// One byte of a body replaced, inserted or lost. Escapes come more often
/// than they would by their share.
fn hurt_body(body: &[u8], random: &mut Random) -> (Vec<u8>, String) {
    let damage = random.pick(&[Damage::Replaced, Damage::Inserted, Damage::Lost]);
    let wanted = random.pick(&PLACES);
    let fitting: Vec<usize> = (0..places(damage, body))
        .filter(|&place| place_name(body, place) == wanted)
        .collect();
    if fitting.is_empty() {
        return hurt_body(body, random);
    }
    let place = random.pick(&fitting);
    let old = body
        .get(place)
        .copied()
        .filter(|_| damage == Damage::Replaced);
    let value = other_value(old, random);
    let row = format!("{damage:?} at {wanted}");
    (damaged(damage, body, place, value), row)
}

/// The part of a frame to which a place of its body belongs.
fn place_name(body: &[u8], place: usize) -> &'static str {
    if place == body.len() {
        return PLACES[7];
    }
    if body[place] == ESC {
        return PLACES[5];
    }
    if place > 0 && body[place - 1] == ESC {
        return PLACES[6];
    }
    match decoded_count(&body[..place]) {
        0 => PLACES[0],
        1 => PLACES[1],
        2 | 3 => PLACES[2],
        number if number + 1 == decoded_count(body) => PLACES[4],
        _ => PLACES[3],
    }
}

/// The list of feeds while it is written.
struct Feeds {
    line: usize,
    hurt: usize,
    /// The damaged frame on the wire, without its ENDs.
    piece: Vec<u8>,
    /// Outcomes on the line so far.
    outcomes: usize,
    frame_feeds: Vec<usize>,
    /// The bytes of the line's last feed, if it was refused 9.
    refused: Option<Vec<u8>>,
    rows: Vec<String>,
}

impl Feeds {
    /// Feeds the line its bytes, and between these the other lines anything.
    fn send(&mut self, writer: &mut Writer, mut wire: Vec<u8>) {
        let longest = writer.random.pick(&LONGEST_PARTS);
        let mut others: [Vec<u8>; LINES] = Default::default();
        while !wire.is_empty() {
            if writer.random.once_in(2) {
                self.feed_other(writer, &mut others);
            }
            let part = writer.part(&wire, longest);
            let used = self.feed(writer, part);
            wire.drain(..used);
        }
        if writer.random.once_in(2) {
            self.feed_other(writer, &mut others);
        }
    }

    /// One feed on the line, refused or not. It belongs to the damaged frame
    /// if it comes behind the outcome before it, up to its own.
    fn feed(&mut self, writer: &mut Writer, part: Vec<u8>) -> usize {
        let in_frame = self.outcomes == self.hurt;
        if in_frame {
            self.frame_feeds.push(lines(writer));
        }
        let (call, room) = call(writer, self.line as u8, part.clone());
        let told = writer.call(call);
        let again = self.refused.take().is_some_and(|bytes| bytes == part);
        let fed = match told {
            Told::Fed(fed) => fed,
            Told::Refused(refusals) => {
                let number = refusals.given();
                if in_frame {
                    self.row(&format!("the frame's feeds: one refused {number}"));
                } else if number == 9 {
                    self.row("other frames of the line: one refused 9");
                }
                self.refused = (number == 9).then_some(part);
                return 0;
            }
            _ => return 0,
        };
        self.show(&fed, room, in_frame, again);
        if in_frame && part.is_empty() {
            self.row("the frame's feeds: one of no bytes");
        }
        if fed.outcome.is_some() {
            self.outcomes += 1;
            if self.outcomes == self.hurt && fed.used < part.len() {
                self.row("a feed before ends in the frame");
            }
        }
        fed.used
    }

    /// The rows of a feed on the line that is not refused.
    fn show(&mut self, fed: &Fed, room: usize, in_frame: bool, again: bool) {
        if in_frame && again {
            self.row("the frame's feeds: one refused 9, then the same bytes");
        }
        if in_frame && room == 0 && fed.used > 0 {
            self.row("the frame's feeds: a part with room 0");
        }
        if fed.outcome.is_some() && fed.reply == room {
            self.row(if in_frame {
                "the frame's feeds: the error reply fits exactly"
            } else {
                "other frames of the line: one fits exactly"
            });
        }
    }

    /// One feed on another line, or on one above 3.
    fn feed_other(&mut self, writer: &mut Writer, others: &mut [Vec<u8>; LINES]) {
        let line = (self.line + writer.random.between(1, LINES - 1)) % LINES;
        if others[line].is_empty() {
            others[line] = anything(writer, line as u8);
        }
        let longest = writer.random.pick(&LONGEST_PARTS);
        let part = writer.part(&others[line], longest);
        let above = writer.random.once_in(12);
        let fed_line = if above {
            writer.random.between(LINES, 255)
        } else {
            line
        };
        let (call, _) = call(writer, fed_line as u8, part);
        let between = self.outcomes == self.hurt && !self.frame_feeds.is_empty();
        match writer.call(call) {
            Told::Fed(fed) => {
                others[line].drain(..fed.used);
                if fed.outcome.is_some() && between {
                    self.row("other lines: an outcome between the frame's feeds");
                }
            }
            Told::Refused(refusals) if !above => {
                let number = refusals.given();
                self.row(&format!("other lines: one refused {number}"));
                if number == 9 && between {
                    self.row("other lines: one refused 9 between the frame's feeds");
                }
            }
            _ => self.row("other lines: a line above 3"),
        }
    }

    fn row(&mut self, row: &str) {
        self.rows.push(row.to_string());
    }

    fn pair(mut self, writer: Writer) -> Pair {
        let count = if self.frame_feeds.len() > 1 {
            "several"
        } else {
            "one"
        };
        self.row(&format!("the frame's feeds: {count}"));
        let all = writer.script.split_inclusive(|&byte| byte == b'\n');
        let kept = all
            .enumerate()
            .filter(|(number, _)| !self.frame_feeds.contains(number));
        let without = kept.map(|(_, text)| text).collect::<Vec<_>>().concat();
        Pair {
            with: writer.script,
            without,
            frame_feeds: self.frame_feeds,
            piece: self.piece,
            rows: self.rows,
        }
    }
}

/// A feed whose lent lengths are right most of the time, and its room.
fn call(writer: &mut Writer, line: u8, bytes: Vec<u8>) -> (Call, usize) {
    let reply = writer.reply_to(line, &bytes);
    let room = if writer.random.once_in(3) {
        writer.any_room(reply)
    } else {
        writer.right_room(reply)
    };
    let any_table = writer.random.once_in(10);
    let table = if any_table { writer.any_table() } else { TABLE };
    let call = Call::Feed {
        line,
        room,
        bytes,
        table,
    };
    (call, room)
}

/// A capture of any kind or a request.
fn anything(writer: &mut Writer, line: u8) -> Vec<u8> {
    if writer.random.once_in(2) {
        return requests::capture(&mut writer.random);
    }
    let (command, data) = requests::request(writer, line, Taste::Sessions);
    sender::wire(command, &data)
}

/// Lines written so far.
fn lines(writer: &Writer) -> usize {
    writer.script.iter().filter(|&&byte| byte == b'\n').count()
}

#[cfg(test)]
mod tests {
    use super::*;
    use crate::reach::Reach;

    fn answers(script: &[u8]) -> Vec<String> {
        let answers = Reach::default().answer(script);
        let text = String::from_utf8(answers).unwrap();
        text.lines().map(String::from).collect()
    }

    /// The model meets demand 3, and the pairs show all that they should.
    #[test]
    fn the_model_meets_the_demand() {
        let mut missing = rows();
        for index in 0..1000 {
            let pair = pair(9, index);
            let mut with = answers(&pair.with);
            let last = *pair.frame_feeds.last().unwrap();
            let row = pair.refused(&with[last]).unwrap();
            missing.retain(|missing| *missing != row && !pair.rows.contains(missing));
            for &line in pair.frame_feeds.iter().rev() {
                let answer = with.remove(line);
                let silent = answer.ends_with(" none reply -") || answer.starts_with("refused ");
                assert!(silent || line == last);
            }
            assert!(with == answers(&pair.without), "{index}");
        }
        assert!(missing.is_empty(), "{missing:?}");
    }

    /// Answers that a damaged frame may not have: places outside its piece, of
    /// two bytes or missing, another number, another reply.
    #[test]
    fn other_answers_are_found() {
        let pair = Pair {
            with: Vec::new(),
            without: Vec::new(),
            frame_feeds: Vec::new(),
            piece: vec![0, 3, ESC, 0xDC, 1, 9],
            rows: Vec::new(),
        };
        let refused = |told: &str| pair.refused(&format!("used 7 {told}{ERROR_REPLY}"));
        for (told, row) in [
            ("packet 6 at 5 4", "packet 6"),
            ("packet 5 at 6 5", "packet 5"),
            ("packet 15 at 2 2", "packet 15"),
            ("packet 4 at 0 0", "packet 4"),
            ("packet 1 at 3 2", "packet 1"),
        ] {
            assert_eq!(refused(told).as_deref(), Some(row), "{told}");
        }
        for told in [
            "packet 6 at 4 4",
            "packet 6 at 5 5",
            "packet 5 at 7 6",
            "packet 15 at 3 2",
            "packet 1 at 2 2",
            "packet 7 at 6 5",
            "packet 6",
            "packet 6 at 5",
            "frame 0001 data 0",
        ] {
            assert_eq!(refused(told), None, "{told}");
        }
        let other = "used 7 packet 6 at 5 4 reply C0000400000107C0";
        assert_eq!(pair.refused(other), None);
    }
}
