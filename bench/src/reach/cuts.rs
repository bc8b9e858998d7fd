//! Cuts: how the feeds of a refused packet lie around the place where it broke,
//! and the places of lines shown as skipping.

use std::collections::{BTreeSet, HashMap};
use std::mem;

use crate::breaks::{self, Breaks};
use crate::by_refusal::{Counts, Named, Table};
use crate::hub::LINES;
use crate::outcome::{Broken, Outcome, Refusal, END, ESC};
use crate::plain::Mode;
use crate::replay::call::Call;
use crate::replay::{Replay, Told};

/// How a packet is cut into feeds.
#[derive(Clone, Copy, Debug, PartialEq, Eq, PartialOrd, Ord)]
pub enum Cut {
    Whole,
    PlaceBefore,
    PlaceLast,
    AtPlace,
    BehindEsc,
    Refused,
    Everywhere,
}

use Cut::*;

impl Named for Cut {
    fn name(self) -> &'static str {
        match self {
            Whole => "one",
            PlaceBefore => "several, the place before the last",
            PlaceLast => "several, the place in the last",
            AtPlace => "one begins at the place",
            BehindEsc => "one ends in ESC, the fault in the next",
            Refused => "one refused meanwhile",
            Everywhere => "cut at every place",
        }
    }
}

const ALL: [Cut; 3] = [Whole, Refused, Everywhere];

/// The cuts that each refusal has. A wrong escape is told at the byte after
/// ESC, 3 and 5 at the END, 4 at the first byte.
const CUTS: Table<Cut> = [
    (
        Refusal::WrongEscape,
        &[&ALL, &[PlaceBefore, PlaceLast, BehindEsc]],
    ),
    (
        Refusal::TooLong,
        &[&ALL, &[PlaceBefore, PlaceLast, AtPlace, BehindEsc]],
    ),
    (Refusal::Short, &[&ALL, &[PlaceLast, AtPlace]]),
    (Refusal::Protocol, &[&ALL, &[PlaceBefore, BehindEsc]]),
    (Refusal::Shorter, &[&ALL, &[PlaceLast, AtPlace]]),
    (
        Refusal::Check,
        &[&ALL, &[PlaceBefore, PlaceLast, AtPlace, BehindEsc]],
    ),
    (
        Refusal::Longer,
        &[&ALL, &[PlaceBefore, PlaceLast, AtPlace, BehindEsc]],
    ),
];

/// Lines shown as skipping, at the bounds of their places and behind escapes.
pub const ROWS: [&str; 7] = [
    "show: skip1 at 1 0",
    "show: skip1 at 256 255",
    "show: skip1 at 511 255",
    "show: skip2 at 255 255",
    "show: skip2 at 510 255",
    "show: skip1 behind escapes",
    "show: skip2 behind escapes",
];

/// How refused packets broke, and how they were cut into feeds.
#[derive(Clone)]
pub struct Cuts {
    pub breaks: Breaks,
    pub cuts: Counts<Cut>,
}

impl Default for Cuts {
    fn default() -> Self {
        Cuts {
            breaks: Breaks::default(),
            cuts: Counts::new("feeds of packet", &CUTS),
        }
    }
}

impl Cuts {
    pub fn add(&mut self, other: &Cuts) {
        self.breaks.add(&other.breaks);
        self.cuts.add(&other.cuts);
    }

    /// What was never reached.
    pub fn missing(&self) -> impl Iterator<Item = String> + '_ {
        self.breaks.missing().chain(self.cuts.missing())
    }

    /// Counts a call if it refuses a packet, and tells the rows of lines shown.
    pub fn count(
        &mut self,
        call: &Call,
        told: &Told,
        after: &Replay,
        watch: &mut Watch,
    ) -> Vec<String> {
        match (call, told) {
            (Call::Feed { line, bytes, .. }, Told::Fed(fed)) => {
                let refused = watch.take(*line, &bytes[..fed.used], fed.outcome);
                if let Some((open, broken)) = refused {
                    self.count_broken(&open, broken, &mut watch.cut_once);
                }
            }
            (Call::Feed { line, .. }, Told::Refused(_)) => watch.refuse(*line),
            (Call::Close { line }, Told::Done) => watch.open[usize::from(*line)] = Open::default(),
            (Call::Show, _) => return watch.shown(after),
            _ => {}
        }
        Vec::new()
    }

    fn count_broken(&mut self, open: &Open, broken: Broken, cut_once: &mut CutOnce) {
        let cases = breaks::cases(&open.piece, broken);
        self.breaks.count(broken.refusal, cases);
        let mut cuts = open.cuts(broken);
        if cut_once.is_everywhere(open) {
            cuts.push(Everywhere);
        }
        self.cuts.count(broken.refusal, cuts);
    }
}

/// The open piece of each line, and pieces that were cut once.
#[derive(Default)]
pub struct Watch {
    open: [Open; LINES],
    cut_once: CutOnce,
}

impl Watch {
    /// Takes the bytes that a feed used, and tells the piece that it refuses.
    fn take(&mut self, line: u8, used: &[u8], outcome: Option<Outcome>) -> Option<(Open, Broken)> {
        let open = &mut self.open[usize::from(line)];
        let Some(outcome) = outcome else {
            open.take(used);
            return None;
        };
        // The last byte is the END of the piece.
        open.take(&used[..used.len() - 1]);
        let closed = mem::take(open);
        match outcome {
            Outcome::Refused(broken) => Some((closed, broken)),
            Outcome::Frame { .. } => None,
        }
    }

    fn refuse(&mut self, line: u8) {
        if let Some(open) = self.open.get_mut(usize::from(line)) {
            open.refused = !open.piece.is_empty();
        }
    }

    /// The rows of the lines that skip.
    fn shown(&self, after: &Replay) -> Vec<String> {
        let mut rows = Vec::new();
        for (record, open) in after.records.iter().zip(&self.open) {
            let Mode::Skipping(broken) = record.mode() else {
                continue;
            };
            let skips = format!("show: skip{}", broken.refusal as u8);
            let row = format!("{skips} {}", broken.places());
            rows.extend(ROWS.contains(&&row[..]).then_some(row));
            let before = &open.piece[..broken.wire.0];
            // The ESC of a wrong escape is none.
            let before = before.strip_suffix(&[ESC]).unwrap_or(before);
            if before.contains(&ESC) {
                rows.push(format!("{skips} behind escapes"));
            }
        }
        rows
    }
}

/// The bytes of a piece so far, and where in it feeds began.
#[derive(Default)]
struct Open {
    piece: Vec<u8>,
    begins: Vec<usize>,
    /// Whether a feed was refused since the piece began.
    refused: bool,
}

impl Open {
    /// Takes bytes of one feed. Behind an END a new piece begins.
    fn take(&mut self, bytes: &[u8]) {
        if let Some(end) = bytes.iter().rposition(|&byte| byte == END) {
            *self = Open::default();
            self.piece.extend(&bytes[end + 1..]);
            return;
        }
        let begin = self.piece.len();
        if begin > 0 && self.begins.last() != Some(&begin) {
            self.begins.push(begin);
        }
        self.piece.extend(bytes);
    }

    fn cuts(&self, broken: Broken) -> Vec<Cut> {
        let place = broken.wire.0;
        let mut cuts = vec![match self.begins.last() {
            None => Whole,
            Some(last) if place < *last => PlaceBefore,
            Some(_) => PlaceLast,
        }];
        let begins = |place| self.begins.contains(&place);
        if broken.refusal == Refusal::WrongEscape {
            cuts.extend(begins(place).then_some(BehindEsc));
        } else {
            let escaped = self.piece.get(place) == Some(&ESC);
            cuts.extend(begins(place).then_some(AtPlace));
            cuts.extend((escaped && begins(place + 1)).then_some(BehindEsc));
        }
        cuts.extend(self.refused.then_some(Refused));
        cuts
    }
}

/// Pieces that came in two feeds, with the places where the second began.
#[derive(Default)]
struct CutOnce {
    places: HashMap<Vec<u8>, BTreeSet<usize>>,
}

impl CutOnce {
    /// Whether the piece has now been cut at every place, the last one before
    /// its END.
    fn is_everywhere(&mut self, open: &Open) -> bool {
        let [begin] = open.begins[..] else {
            return false;
        };
        let places = self.places.entry(open.piece.clone()).or_default();
        places.insert(begin);
        let everywhere = places.len() == open.piece.len();
        if everywhere {
            self.places.remove(&open.piece);
        }
        everywhere
    }
}

#[cfg(test)]
mod tests {
    use super::*;
    use crate::plain::Reader;

    /// The cuts of a packet that comes in these feeds.
    fn cuts(feeds: &[&[u8]]) -> Vec<Cut> {
        let mut watch = Watch::default();
        let mut reader = Reader::new();
        for feed in feeds {
            let (used, outcome) = reader.read(feed);
            if let Some((open, broken)) = watch.take(3, &feed[..used], outcome) {
                return open.cuts(broken);
            }
        }
        panic!("no packet is refused");
    }

    #[test]
    fn feeds_lie_around_the_place() {
        // The check byte is wrong, and escaped.
        let piece = [0, 3, 0, 1, ESC, 0xDD];
        let fed = |cut| {
            let (first, rest) = piece.split_at(cut);
            let first = [&[END, END], first].concat();
            cuts(&[&first, &[], &[rest, &[END, 7]].concat()])
        };
        assert_eq!(cuts(&[&[7, END]]), [Whole]);
        assert_eq!(cuts(&[&[END, END, 7, END]]), [Whole]);
        assert_eq!(fed(0), [Whole]);
        assert_eq!(fed(3), [PlaceLast]);
        assert_eq!(fed(4), [PlaceLast, AtPlace]);
        assert_eq!(fed(5), [PlaceBefore, BehindEsc]);
        assert_eq!(fed(6), [PlaceBefore]);
        assert_eq!(cuts(&[&[5, ESC], &[END]]), [PlaceLast, BehindEsc]);
        assert_eq!(cuts(&[&[5], &[ESC, 7], &[END]]), [PlaceBefore]);
        assert_eq!(cuts(&[&[5], &[END]]), [PlaceLast, AtPlace]);
    }

    #[test]
    fn a_piece_is_cut_at_every_place() {
        let mut cut_once = CutOnce::default();
        let mut cut = |begins: &[usize]| {
            let (piece, begins) = (vec![1, 2, 3], begins.to_vec());
            cut_once.is_everywhere(&Open {
                piece,
                begins,
                refused: false,
            })
        };
        assert!(!cut(&[1]) && !cut(&[]) && !cut(&[3]) && !cut(&[1, 2]) && !cut(&[1]));
        assert!(cut(&[2]));
        assert!(!cut(&[2]));
    }
}
