//! Packets that break, cut into feeds at every place or around the one where
//! they do.

use super::rooms::other_line;
use super::writer::Writer;
use crate::generate::broken::{self, Way, SHARES};
use crate::hub::nodes::TABLE;
use crate::hub::LINES;
use crate::outcome::{Outcome, Refusal, END};
use crate::paper;
use crate::plain::Mode;
use crate::random::Random;
use crate::replay::call::Call;

/// One packet for each refusal, share of escapes, and byte at the place.
pub const CUT_SCRIPTS: usize = Refusal::ALL.len() * SHARES.len() * 2;

/// The longest packets that are cut at every place: one that is too long, and
/// others in scripts of their own and among other calls.
const TOO_LONG_MOST: usize = 530;
const OTHER_MOST: usize = 64;
const SHORT_MOST: usize = 16;

/// One short packet in so many is cut at every place.
const EVERYWHERE_ONCE_IN: usize = 3;
/// The most cuts of others.
const CUTS_MOST: usize = 4;
/// One line that skips in so many is shown.
const SHOWN_ONCE_IN: usize = 3;
/// One byte less than the error reply has.
const SHORT_ROOM: usize = 7;

/// A packet that breaks, on any line.
pub fn some(writer: &mut Writer) {
    let line = writer.random.below(LINES) as u8;
    let number = writer.random.below(broken::WAYS);
    let piece = broken::piece(broken::way(number), &mut writer.random);
    end_open(writer, line);
    if piece.len() <= SHORT_MOST && writer.random.once_in(EVERYWHERE_ONCE_IN) {
        everywhere(writer, line, &piece);
    } else {
        let cuts = around(&piece, &mut writer.random);
        send(writer, line, &piece, &cuts);
    }
}

/// The script of this number: one packet cut at every place.
pub fn cuts(writer: &mut Writer, number: usize) {
    let (refusal, number) = (number % Refusal::ALL.len(), number / Refusal::ALL.len());
    let share = SHARES[number % SHARES.len()];
    let way = Way {
        refusal: Refusal::ALL[refusal],
        before: share,
        at: number / SHARES.len() % 2 == 1,
        behind: share,
    };
    let most = match way.refusal {
        Refusal::TooLong => TOO_LONG_MOST,
        _ => OTHER_MOST,
    };
    let piece = loop {
        let piece = broken::piece(way, &mut writer.random);
        if piece.len() <= most {
            break piece;
        }
    };
    let line = writer.random.below(LINES) as u8;
    end_open(writer, line);
    everywhere(writer, line, &piece);
}

/// Ends the piece that is open on a line.
fn end_open(writer: &mut Writer, line: u8) {
    if !writer.replay.records[usize::from(line)].is_between_packets() {
        feed(writer, line, &[END]);
    }
}

/// The packet in two feeds, cut at each place in turn.
fn everywhere(writer: &mut Writer, line: u8, piece: &[u8]) {
    for cut in 1..=piece.len() {
        send(writer, line, piece, &[cut]);
    }
}

/// Places to cut at, ascending: some around the place that is told, some not.
fn around(piece: &[u8], random: &mut Random) -> Vec<usize> {
    let place = told_at(piece);
    let mut cuts: Vec<usize> = (0..random.below(CUTS_MOST + 1))
        .map(|_| {
            let near = (place + random.below(4)).saturating_sub(1);
            let any = random.between(1, piece.len());
            random.pick(&[near, near, any])
        })
        .filter(|cut| (1..=piece.len()).contains(cut))
        .collect();
    cuts.sort();
    cuts.dedup();
    cuts
}

/// The wire place that is told of a packet.
fn told_at(piece: &[u8]) -> usize {
    let wire = [piece, &[END]].concat();
    match paper::read(&wire).outcomes[..] {
        [Outcome::Refused(broken)] => broken.wire.0,
        _ => piece.len(),
    }
}

/// Feeds a packet and its END, cut at these places. Between the feeds the line
/// is shown, a feed is refused, or another line goes on.
fn send(writer: &mut Writer, line: u8, piece: &[u8], cuts: &[usize]) {
    let mut wire = vec![END; writer.random.pick(&[0, 0, 0, 1, 2])];
    let before = wire.len();
    wire.extend(piece);
    wire.push(END);
    let mut from = 0;
    for cut in cuts {
        feed(writer, line, &wire[from..before + cut]);
        from = before + cut;
        meanwhile(writer, line, &wire[from..]);
    }
    feed(writer, line, &wire[from..]);
}

fn meanwhile(writer: &mut Writer, line: u8, rest: &[u8]) {
    let mode = writer.replay.records[usize::from(line)].mode();
    if matches!(mode, Mode::Skipping(_)) && writer.random.once_in(SHOWN_ONCE_IN) {
        writer.call(Call::Show);
    }
    match writer.random.below(12) {
        0 | 1 => {
            writer.call(Call::Show);
        }
        2 => {
            writer.feed_lent(line, SHORT_ROOM, rest, TABLE);
        }
        3 => {
            writer.feed_lent(line, SHORT_ROOM, rest, TABLE - 1);
        }
        4 => {
            writer.feed_lent(line, 0, &[], TABLE);
        }
        5 => other_line(writer, line),
        _ => {}
    }
}

fn feed(writer: &mut Writer, line: u8, bytes: &[u8]) {
    let reply = writer.reply_to(line, bytes);
    let room = writer.right_room(reply);
    writer.feed_lent(line, room, bytes, TABLE);
}

#[cfg(test)]
mod tests {
    use super::*;
    use crate::reach::Reach;
    use crate::scripts::{Kind, Name};

    /// The scripts of cuts cut a packet of each refusal at every place.
    #[test]
    fn packets_are_cut_at_every_place() {
        let mut reach = Reach::default();
        for index in 0..CUT_SCRIPTS {
            let kind = Kind::Cuts;
            reach.answer(&Name { kind, index }.script(4));
        }
        let missing = reach.missing_rows();
        assert!(!missing.iter().any(|row| row.contains("cut at every place")));
    }

    /// Drawn ones reach every other case of broken packets and their feeds.
    #[test]
    fn packets_break_in_every_case() {
        let mut reach = Reach::default();
        for index in 0..80 {
            let kind = Kind::Broken;
            reach.answer(&Name { kind, index }.script(4));
        }
        let mut missing = reach.missing_rows();
        missing.retain(|row| row.starts_with("packet ") || row.starts_with("feeds of packet "));
        missing.retain(|row| !row.ends_with("cut at every place"));
        assert!(missing.is_empty(), "{missing:?}");
    }
}
