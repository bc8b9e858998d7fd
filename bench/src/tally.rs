//! What a comparison reached: captures and outcomes of each kind, and how
//! refused packets broke.

use std::fmt;

use crate::breaks::{self, Breaks};
use crate::generate::Kind;
use crate::outcome::{Outcome, Refusal};
use crate::paper::{self, Listing};

const KINDS: usize = Kind::ALL.len();
/// Frames, then refusals in their order.
const OUTCOMES: usize = 1 + Refusal::ALL.len();
const OUTCOME_NAMES: [&str; OUTCOMES] = [
    "frame",
    "refused 1",
    "refused 2",
    "refused 3",
    "refused 4",
    "refused 5",
    "refused 6",
    "refused 15",
];

/// The numbers of one kind.
#[derive(Clone, Copy, Default)]
struct Line {
    captures: u64,
    bytes: u64,
    outcomes: [u64; OUTCOMES],
    /// Captures that end in an open piece.
    open: u64,
}

impl Line {
    fn add(&mut self, other: &Line) {
        self.captures += other.captures;
        self.bytes += other.bytes;
        self.open += other.open;
        for (sum, number) in self.outcomes.iter_mut().zip(other.outcomes) {
            *sum += number;
        }
    }
}

#[derive(Clone, Default)]
pub struct Tally {
    lines: [Line; KINDS],
    breaks: Breaks,
}

impl Tally {
    /// Counts one capture and its outcomes.
    pub fn count(&mut self, kind: Kind, capture: &[u8], listing: &Listing) {
        let line = &mut self.lines[kind as usize];
        line.captures += 1;
        line.bytes += capture.len() as u64;
        line.open += u64::from(listing.left > 0);
        let pieces = paper::closed_pieces(capture).into_iter();
        for (piece, outcome) in pieces.zip(&listing.outcomes) {
            line.outcomes[column(outcome)] += 1;
            if let Outcome::Refused(broken) = outcome {
                let cases = breaks::cases(&capture[piece], *broken);
                self.breaks.count(broken.refusal, cases);
            }
        }
    }

    pub fn add(&mut self, other: &Tally) {
        for (line, more) in self.lines.iter_mut().zip(&other.lines) {
            line.add(more);
        }
        self.breaks.add(&other.breaks);
    }

    pub fn captures(&self) -> u64 {
        self.total().captures
    }

    /// The names of all that was never reached.
    pub fn missing(&self) -> Vec<String> {
        let total = self.total();
        let kinds = Kind::ALL
            .into_iter()
            .filter(|&kind| self.lines[kind as usize].captures == 0)
            .map(Kind::name);
        let outcomes = (0..OUTCOMES)
            .filter(|&column| total.outcomes[column] == 0)
            .map(|column| OUTCOME_NAMES[column]);
        let open = (total.open == 0).then_some("left above 0");
        let names = kinds.chain(outcomes).chain(open).map(String::from);
        names.chain(self.breaks.missing()).collect()
    }

    fn total(&self) -> Line {
        let mut total = Line::default();
        for line in &self.lines {
            total.add(line);
        }
        total
    }
}

fn column(outcome: &Outcome) -> usize {
    match outcome {
        Outcome::Frame { .. } => 0,
        Outcome::Refused(broken) => {
            let refusals = Refusal::ALL.iter();
            1 + refusals
                .take_while(|&&other| other != broken.refusal)
                .count()
        }
    }
}

/// A table with a line for each kind and one for all, then a line for each
/// refusal with the ways in which packets broke.
impl fmt::Display for Tally {
    fn fmt(&self, out: &mut fmt::Formatter) -> fmt::Result {
        write!(out, "{:<9} {:>8} {:>10}", "kind", "captures", "bytes")?;
        for name in OUTCOME_NAMES {
            write!(out, " {name:>10}")?;
        }
        writeln!(out, " {:>8}", "left > 0")?;
        for kind in Kind::ALL {
            write_line(out, kind.name(), &self.lines[kind as usize])?;
        }
        write_line(out, "all", &self.total())?;
        write!(out, "{}", self.breaks)
    }
}

fn write_line(out: &mut fmt::Formatter, name: &str, line: &Line) -> fmt::Result {
    write!(out, "{name:<9} {:>8} {:>10}", line.captures, line.bytes)?;
    for number in line.outcomes {
        write!(out, " {number:>10}")?;
    }
    writeln!(out, " {:>8}", line.open)
}

#[cfg(test)]
mod tests {
    use super::*;

    #[test]
    fn what_was_not_reached_is_missing() {
        let mut tally = Tally::default();
        let all = KINDS + OUTCOMES + 1 + Breaks::default().missing().count();
        assert_eq!(tally.missing().len(), all);
        let capture = [0xC0, 0xDB, 0xC0, 1];
        tally.count(Kind::Rows, &capture, &paper::read(&capture));
        let missing = tally.missing();
        // The kind, the refusal, bytes left, and what is around the place.
        assert_eq!(missing.len(), all - 6);
        let is_missing = |name: &str| missing.iter().any(|missing| missing == name);
        assert!(!is_missing("rows") && !is_missing("refused 1"));
        assert!(!is_missing("packet 1: at the END") && is_missing("packet 1: at an ESC"));
    }
}
