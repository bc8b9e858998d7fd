//! Seeded captures of every kind that the comparison runs.
//!
//! A capture is known by its name and a seed. The first indices of a kind
//! are its systematic captures, the others are drawn.

pub mod broken;
pub mod damage;
pub mod edges;
pub mod frames;
pub mod limits;
pub mod noise;
pub mod rows;

use std::fmt;

use crate::random::Random;
use damage::Damage;

/// The least size of a large capture in bytes.
pub const LARGE: usize = 3_000_000;
/// The size of the open piece behind some large captures.
const LARGE_OPEN: usize = 200_000;

/// What a capture is made of.
#[derive(Clone, Copy, Debug, PartialEq, Eq)]
pub enum Kind {
    /// The rows P1 to P11 of the paper, alone, in pairs and all together.
    Rows,
    /// Short words of special bytes, no input, no END, an end anywhere.
    Edges,
    /// Good frames of every data length.
    Good,
    /// Frames whose length byte or check byte is END or ESC.
    Special,
    /// Frames with a wrong protocol, length or check byte, and short ones.
    Wrong,
    /// Pieces of about 255 decoded bytes, with escapes around that place.
    Limits,
    /// One byte of a frame replaced, between good neighbours.
    Replaced,
    /// One byte inserted into a frame, between good neighbours.
    Inserted,
    /// One byte of a frame lost, between good neighbours.
    Lost,
    /// The bytes of two senders mixed on one wire.
    Spliced,
    /// Drawn bytes, many of them special.
    Rich,
    /// Packets that break in each way, with escapes around the place.
    Broken,
}

impl Kind {
    pub const ALL: [Kind; 12] = [
        Kind::Rows,
        Kind::Edges,
        Kind::Good,
        Kind::Special,
        Kind::Wrong,
        Kind::Limits,
        Kind::Replaced,
        Kind::Inserted,
        Kind::Lost,
        Kind::Spliced,
        Kind::Rich,
        Kind::Broken,
    ];

    pub fn name(self) -> &'static str {
        match self {
            Kind::Rows => "rows",
            Kind::Edges => "edges",
            Kind::Good => "good",
            Kind::Special => "special",
            Kind::Wrong => "wrong",
            Kind::Limits => "limits",
            Kind::Replaced => "replaced",
            Kind::Inserted => "inserted",
            Kind::Lost => "lost",
            Kind::Spliced => "spliced",
            Kind::Rich => "rich",
            Kind::Broken => "broken",
        }
    }

    pub fn from_name(name: &str) -> Option<Kind> {
        Kind::ALL.into_iter().find(|kind| kind.name() == name)
    }

    /// The number of systematic captures of this kind.
    pub fn systematic(self) -> usize {
        match self {
            Kind::Rows => rows::count(),
            Kind::Edges => edges::count(),
            Kind::Good => frames::GOOD_COUNT,
            Kind::Special => frames::SPECIAL_COUNT,
            Kind::Wrong => frames::WRONG_COUNT,
            Kind::Limits => limits::count(),
            Kind::Replaced => damage::count(Damage::Replaced),
            Kind::Inserted => damage::count(Damage::Inserted),
            Kind::Lost => damage::count(Damage::Lost),
            Kind::Spliced | Kind::Rich => 0,
            Kind::Broken => broken::COUNT,
        }
    }

    /// Whether captures behind the systematic ones are new.
    pub fn is_drawn(self) -> bool {
        self != Kind::Rows
    }
}

/// Which capture: its kind, its index, and whether it is a large one.
#[derive(Clone, Copy, Debug, PartialEq, Eq)]
pub struct Name {
    pub kind: Kind,
    pub index: usize,
    pub large: bool,
}

impl Name {
    /// Reads `KIND INDEX` or `large KIND INDEX`.
    pub fn parse(words: &[String]) -> Option<Name> {
        let (large, words) = match words {
            [first, rest @ ..] if first == "large" => (true, rest),
            _ => (false, words),
        };
        let [kind, index] = words else {
            return None;
        };
        Some(Name {
            kind: Kind::from_name(kind)?,
            index: index.parse().ok()?,
            large,
        })
    }

    /// The bytes of the capture.
    pub fn capture(self, seed: u64) -> Vec<u8> {
        if self.large {
            large(self.kind, seed, self.index)
        } else {
            capture(self.kind, seed, self.index)
        }
    }
}

impl fmt::Display for Name {
    fn fmt(&self, out: &mut fmt::Formatter) -> fmt::Result {
        let large = if self.large { "large " } else { "" };
        write!(out, "{large}{} {}", self.kind.name(), self.index)
    }
}

/// One capture.
pub fn capture(kind: Kind, seed: u64, index: usize) -> Vec<u8> {
    let random = &mut Random::new(&[seed, kind as u64, index as u64]);
    match kind {
        Kind::Rows => rows::capture(index),
        Kind::Edges => edges::capture(index, random),
        Kind::Good => frames::good_capture(index, random),
        Kind::Special => frames::special_capture(index, random),
        Kind::Wrong => frames::wrong_capture(index, random),
        Kind::Limits => limits::capture(index, random),
        Kind::Replaced => damage::capture(Damage::Replaced, index, random),
        Kind::Inserted => damage::capture(Damage::Inserted, index, random),
        Kind::Lost => damage::capture(Damage::Lost, index, random),
        Kind::Spliced => noise::spliced(random),
        Kind::Rich => noise::rich(random),
        Kind::Broken => broken::capture(index, random),
    }
}

/// Some megabytes of one kind: its captures one after the other. An odd
/// index has a long open piece behind them.
pub fn large(kind: Kind, seed: u64, index: usize) -> Vec<u8> {
    let mut whole = Vec::new();
    let mut next = index * 1000;
    while whole.len() < LARGE {
        whole.extend(capture(kind, seed, next));
        next += 1;
    }
    if index % 2 == 1 {
        whole.extend(vec![7; LARGE_OPEN]);
    }
    whole
}

#[cfg(test)]
mod tests {
    use super::*;
    use crate::outcome::{Outcome, DATA_MOST};
    use crate::paper;

    #[test]
    fn a_capture_is_known_by_kind_seed_and_index() {
        for kind in Kind::ALL {
            assert_eq!(Kind::from_name(kind.name()), Some(kind));
            assert_eq!(capture(kind, 3, 5), capture(kind, 3, 5));
            let drawn = kind.systematic() + 1;
            let same = capture(kind, 3, drawn) == capture(kind, 4, drawn);
            assert_eq!(same, !kind.is_drawn(), "{}", kind.name());
        }
    }

    #[test]
    fn a_name_is_read_as_it_is_written() {
        for large in [false, true] {
            for kind in Kind::ALL {
                let name = Name {
                    kind,
                    index: 17,
                    large,
                };
                let words: Vec<_> = name.to_string().split(' ').map(String::from).collect();
                assert_eq!(Name::parse(&words), Some(name));
            }
        }
        assert_eq!(Name::parse(&[]), None);
    }

    #[test]
    fn good_frames_have_every_data_length() {
        let mut reached = [false; DATA_MOST + 1];
        for index in 0..Kind::Good.systematic() {
            for outcome in paper::read(&capture(Kind::Good, 1, index)).outcomes {
                match outcome {
                    Outcome::Frame { data, .. } => reached[data] = true,
                    Outcome::Refused(_) => panic!("a good frame was refused"),
                }
            }
        }
        assert!(reached.iter().all(|&length| length));
    }

    #[test]
    fn large_captures_have_their_size() {
        let even = large(Kind::Rich, 1, 0);
        let odd = large(Kind::Rich, 1, 1);
        assert!(even.len() >= LARGE);
        assert!(paper::read(&odd).left >= LARGE_OPEN);
    }
}
