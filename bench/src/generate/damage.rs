//! Frames with one byte replaced, inserted or lost between their ENDs, no
//! END being involved. Each stands between good neighbours.

use super::frames::{data_length, frame_of, neighbour};
use super::rows::ROWS;
use crate::outcome::{END, ESC, ESC_END, ESC_ESC};
use crate::random::Random;
use crate::sender::{escape, frame, join, Ends};

#[derive(Clone, Copy, Debug, PartialEq, Eq)]
pub enum Damage {
    Replaced,
    Inserted,
    Lost,
}

/// Bodies up to this length are damaged with every byte.
const SHORT: usize = 40;
/// Longer ones are damaged with these.
const FEW: [u8; 8] = [0x00, 0x01, 0xC1, ESC, ESC_END, ESC_ESC, 0xFE, 0xFF];

/// The frames that are damaged at every place, as they are on the wire.
fn bodies() -> Vec<Vec<u8>> {
    let mut bodies: Vec<_> = ROWS[2..6]
        .iter()
        .map(|row| row.wire[1..row.wire.len() - 1].to_vec())
        .collect();
    let frames = [
        frame(0xDBDC, &[END, ESC, ESC_END, ESC_ESC]),
        frame(0xC0DB, &[ESC, ESC, ESC_END, END, END, ESC_ESC, ESC]),
        frame(0x0106, &[0; 26]),
        frame(0x0208, &[ESC_END; 65]),
        frame(0x3002, &[ESC; 64]),
        frame(0xDDDC, &[0xA5; 189]),
        frame(0x0320, &[0x5A; 216]),
        frame(0xFFFF, &[0xFF; 250]),
    ];
    bodies.extend(frames.iter().map(|frame| escape(frame)));
    bodies
}

/// The places of a body that can be damaged so.
pub fn places(damage: Damage, body: &[u8]) -> usize {
    match damage {
        Damage::Inserted => body.len() + 1,
        Damage::Replaced | Damage::Lost => body.len(),
    }
}

/// One capture for each place, with shared ENDs and with doubled ones.
pub fn count(damage: Damage) -> usize {
    2 * bodies()
        .iter()
        .map(|body| places(damage, body))
        .sum::<usize>()
}

pub fn capture(damage: Damage, index: usize, random: &mut Random) -> Vec<u8> {
    let ends = [Ends::Shared, Ends::Doubled][index % 2];
    let damaged = match systematic(damage, index / 2) {
        Some((body, place)) => damaged_at(damage, &body, place),
        None => drawn(damage, random),
    };
    let mut all = vec![neighbour(random)];
    for body in damaged {
        all.push(body);
        all.push(neighbour(random));
    }
    join(&all, ends, random)
}

/// The body and place of a number, counted through all bodies.
fn systematic(damage: Damage, mut number: usize) -> Option<(Vec<u8>, usize)> {
    for body in bodies() {
        let places = places(damage, &body);
        if number < places {
            return Some((body, number));
        }
        number -= places;
    }
    None
}

/// All ways to damage a body at one place.
fn damaged_at(damage: Damage, body: &[u8], place: usize) -> Vec<Vec<u8>> {
    match damage {
        Damage::Lost => vec![damaged(damage, body, place, 0)],
        Damage::Replaced => values(body)
            .into_iter()
            .chain([body[place] ^ 1])
            .filter(|&value| value != END && value != body[place])
            .map(|value| damaged(damage, body, place, value))
            .collect(),
        Damage::Inserted => values(body)
            .into_iter()
            .map(|value| damaged(damage, body, place, value))
            .collect(),
    }
}

/// The bytes to damage a body with.
fn values(body: &[u8]) -> Vec<u8> {
    if body.len() <= SHORT {
        (0..=255).filter(|&value| value != END).collect()
    } else {
        FEW.to_vec()
    }
}

/// A body damaged at one place.
pub fn damaged(damage: Damage, body: &[u8], place: usize, value: u8) -> Vec<u8> {
    let mut body = body.to_vec();
    match damage {
        Damage::Replaced => body[place] = value,
        Damage::Inserted => body.insert(place, value),
        Damage::Lost => {
            body.remove(place);
        }
    }
    body
}

/// One to three drawn frames, each damaged at a drawn place.
fn drawn(damage: Damage, random: &mut Random) -> Vec<Vec<u8>> {
    (0..random.between(1, 3))
        .map(|_| {
            let length = data_length(random);
            let body = escape(&frame_of(length, random));
            let place = random.below(places(damage, &body));
            let old = body.get(place).copied();
            let value = other_value(old, random);
            damaged(damage, &body, place, value)
        })
        .collect()
}

/// A byte that is neither END nor the old one.
pub fn other_value(old: Option<u8>, random: &mut Random) -> u8 {
    loop {
        let special = random.pick(&[ESC, ESC_END, ESC_ESC]);
        let any = random.byte();
        let value = random.pick(&[special, any]);
        if value != END && Some(value) != old {
            return value;
        }
    }
}

#[cfg(test)]
mod tests {
    use super::*;
    use crate::outcome::Outcome;
    use crate::paper;

    /// A damaged frame gives one refusal, and its neighbours are read.
    fn only_the_damaged_are_refused(damage: Damage) {
        for index in 0..count(damage) + 2000 {
            let wire = capture(damage, index, &mut Random::new(&[2, index as u64]));
            let outcomes = paper::read(&wire).outcomes;
            assert!(outcomes.len() % 2 == 1 && outcomes.len() >= 3);
            for (place, outcome) in outcomes.iter().enumerate() {
                let refused = matches!(outcome, Outcome::Refused(_));
                assert_eq!(refused, place % 2 == 1, "{damage:?} {index}");
            }
        }
    }

    #[test]
    fn a_replaced_byte() {
        only_the_damaged_are_refused(Damage::Replaced);
    }

    #[test]
    fn an_inserted_byte() {
        only_the_damaged_are_refused(Damage::Inserted);
    }

    #[test]
    fn a_lost_byte() {
        only_the_damaged_are_refused(Damage::Lost);
    }
}
