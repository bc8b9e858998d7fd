//! How refused packets break: the cases that a comparison must reach, counted
//! by refusal.

use crate::by_refusal::{Counts, Named, Table};
use crate::outcome::{Broken, Refusal, END, ESC, ESC_END, PACKET_MOST};

/// What a broken piece shows.
#[derive(Clone, Copy, Debug, PartialEq, Eq, PartialOrd, Ord)]
pub enum Case {
    NothingBefore,
    NoEscapeBefore,
    SomeEscapesBefore,
    OnlyEscapesBefore,
    AtEnd,
    AtEsc,
    AtPlain,
    AtEscaped,
    NoEscapeBehind,
    EscapesBehind,
    OneOff,
    MoreOff,
    LengthOf0,
    LengthOf1,
    LengthOf2,
    LengthEscaped,
    NoneOf255,
    SomeOf255,
    AllOf255,
}

use Case::*;

impl Named for Case {
    fn name(self) -> &'static str {
        match self {
            NothingBefore => "nothing before",
            NoEscapeBefore => "no escape before",
            SomeEscapesBefore => "some escapes before",
            OnlyEscapesBefore => "only escapes before",
            AtEnd => "at the END",
            AtEsc => "at an ESC",
            AtPlain => "at a plain byte",
            AtEscaped => "at an escaped byte",
            NoEscapeBehind => "no escape behind",
            EscapesBehind => "escapes behind",
            OneOff => "length byte off by one",
            MoreOff => "length byte off by more",
            LengthOf0 => "length byte 0",
            LengthOf1 => "length byte 1",
            LengthOf2 => "length byte 2",
            LengthEscaped => "length byte escaped",
            NoneOf255 => "255 bytes, none escaped",
            SomeOf255 => "255 bytes, some escaped",
            AllOf255 => "255 bytes, all escaped",
        }
    }
}

/// Cases that go together: none, some or all bytes of a run are escaped.
const BEFORE: [Case; 3] = [NoEscapeBefore, SomeEscapesBefore, OnlyEscapesBefore];
const OF_255: [Case; 3] = [NoneOf255, SomeOf255, AllOf255];
const AT: [Case; 2] = [AtPlain, AtEscaped];
const BEHIND: [Case; 2] = [NoEscapeBehind, EscapesBehind];
const OFF: [Case; 2] = [OneOff, MoreOff];

/// The cases that each refusal has. 3 and 5 are told at the END, so nothing is
/// behind; 4 has nothing before its place, 6 nothing behind.
const CASES: Table<Case> = [
    (
        Refusal::WrongEscape,
        &[
            &[NothingBefore, AtEnd, AtEsc, AtPlain],
            &BEFORE,
            &BEHIND,
            &OF_255,
        ],
    ),
    (Refusal::TooLong, &[&AT, &BEHIND, &OF_255]),
    (Refusal::Short, &[&BEFORE]),
    (Refusal::Protocol, &[&AT, &BEHIND, &OF_255]),
    (
        Refusal::Shorter,
        &[&BEFORE, &OFF, &[LengthEscaped], &OF_255],
    ),
    (Refusal::Check, &[&BEFORE, &AT, &[LengthEscaped], &OF_255]),
    (
        Refusal::Longer,
        &[
            &BEFORE,
            &AT,
            &BEHIND,
            &OFF,
            &[LengthOf0, LengthOf1, LengthOf2, LengthEscaped],
            &OF_255,
        ],
    ),
];

/// How often each case came.
pub type Breaks = Counts<Case>;

impl Default for Breaks {
    fn default() -> Self {
        Counts::new("packet", &CASES)
    }
}

/// All that a closed piece shows, without its END, that is refused so.
pub fn cases(piece: &[u8], broken: Broken) -> Vec<Case> {
    let (before, from) = piece.split_at(broken.wire.0);
    match broken.refusal {
        Refusal::WrongEscape => wrong_escape(&before[..before.len() - 1], from),
        Refusal::TooLong => [at(from), of_255(before, 0)].concat(),
        Refusal::Short => by_share(before, BEFORE),
        Refusal::Protocol => [at(piece), of_255(piece, 0)].concat(),
        Refusal::Shorter => lengths(before, from),
        Refusal::Check => [lengths(before, from), vec![at(from)[0]]].concat(),
        Refusal::Longer => [lengths(before, from), at(from)].concat(),
    }
}

/// The bytes before the ESC, and those from the place on.
fn wrong_escape(before: &[u8], from: &[u8]) -> Vec<Case> {
    let mut cases = by_share(before, BEFORE);
    if before.is_empty() {
        cases = vec![NothingBefore];
    }
    cases.push(match from {
        [] => AtEnd,
        [ESC, ..] => AtEsc,
        _ => AtPlain,
    });
    cases.push(behind(from.get(1..).unwrap_or_default()));
    cases.extend(of_255(before, 0));
    cases
}

/// The byte at the place, and what is behind it.
fn at(from: &[u8]) -> Vec<Case> {
    let escaped = usize::from(from[0] == ESC);
    vec![AT[escaped], behind(&from[1 + escaped..])]
}

fn behind(rest: &[u8]) -> Case {
    BEHIND[usize::from(rest.contains(&ESC))]
}

/// A packet whose protocol byte is right, before the place and from it on. The
/// head, protocol and length byte, is no part of the run before the place.
fn lengths(before: &[u8], from: &[u8]) -> Vec<Case> {
    let piece = [before, from].concat();
    let (length, head) = match piece[1..] {
        [ESC, ESC_END, ..] => (END, 3),
        [ESC, ..] => (ESC, 3),
        _ => (piece[1], 2),
    };
    let mut cases = by_share(&before[head..], BEFORE);
    if head == 3 {
        cases.push(LengthEscaped);
    }
    match (usize::from(length) + 2).abs_diff(decoded(&piece)) {
        0 => {}
        1 => cases.push(OneOff),
        _ => cases.push(MoreOff),
    }
    let no_frame = [LengthOf0, LengthOf1, LengthOf2];
    cases.extend(no_frame.get(usize::from(length)));
    cases.extend(of_255(&piece, head));
    cases
}

/// The case of 255 decoded bytes, if there are as many. Those of the head are
/// not asked to be escaped.
fn of_255(piece: &[u8], head: usize) -> Vec<Case> {
    if decoded(piece) == PACKET_MOST {
        by_share(&piece[head..], OF_255)
    } else {
        Vec::new()
    }
}

/// The case of a run by how many of its bytes are escaped: none, some, all.
fn by_share(run: &[u8], [none, some, all]: [Case; 3]) -> Vec<Case> {
    let escaped = run.len() - decoded(run);
    vec![match escaped {
        0 => none,
        _ if escaped == decoded(run) => all,
        _ => some,
    }]
}

/// The decoded bytes of a run in which each ESC is followed as it must be.
fn decoded(run: &[u8]) -> usize {
    run.iter().filter(|&&byte| byte != ESC).count()
}

#[cfg(test)]
mod tests {
    use super::*;
    use crate::outcome::{Outcome, ESC_ESC};
    use crate::paper;

    /// What a piece shows, in the order of the cases.
    fn shown(piece: &[u8]) -> (u8, Vec<Case>) {
        let wire = [piece, &[END]].concat();
        let Outcome::Refused(broken) = paper::read(&wire).outcomes[0] else {
            panic!("{piece:02X?} is a frame");
        };
        let mut cases = cases(piece, broken);
        cases.sort();
        (broken.refusal as u8, cases)
    }

    #[test]
    fn pieces_show_their_cases() {
        let c = [ESC, ESC_END];
        let tail = |head: &[u8], more: &[u8]| [head, more].concat();
        let expected: [(Vec<u8>, u8, &[Case]); 14] = [
            (vec![ESC], 1, &[NothingBefore, AtEnd, NoEscapeBehind]),
            (
                tail(&c, &[ESC, ESC, 1, ESC]),
                1,
                &[OnlyEscapesBefore, AtEsc, EscapesBehind],
            ),
            (
                tail(&c.repeat(255), &[ESC, 7]),
                1,
                &[OnlyEscapesBefore, AtPlain, NoEscapeBehind, AllOf255],
            ),
            (
                tail(&[1; 255], &[ESC, ESC_END, ESC]),
                2,
                &[AtEscaped, EscapesBehind, NoneOf255],
            ),
            (tail(&[1], &c), 3, &[SomeEscapesBefore]),
            (c.repeat(255), 4, &[AtEscaped, EscapesBehind, AllOf255]),
            (vec![1; 5], 4, &[AtPlain, NoEscapeBehind]),
            (vec![0, 4, 0, 1, 5], 5, &[NoEscapeBefore, OneOff]),
            (
                tail(&[0, ESC, ESC_ESC], &c.repeat(3)),
                5,
                &[OnlyEscapesBefore, MoreOff, LengthEscaped],
            ),
            (
                tail(&[0, 254], &c.repeat(253)),
                5,
                &[OnlyEscapesBefore, OneOff, AllOf255],
            ),
            (tail(&[0, 3, 1, 1], &c), 6, &[NoEscapeBefore, AtEscaped]),
            (
                tail(&[0, 2, 1], &tail(&c, &[1])),
                15,
                &[
                    SomeEscapesBefore,
                    AtPlain,
                    NoEscapeBehind,
                    OneOff,
                    LengthOf2,
                ],
            ),
            (
                tail(&[0, 0], &c.repeat(3)),
                15,
                &[NoEscapeBefore, AtEscaped, EscapesBehind, MoreOff, LengthOf0],
            ),
            (
                tail(&[0, 252], &tail(&c, &[1; 252])),
                15,
                &[
                    SomeEscapesBefore,
                    AtPlain,
                    NoEscapeBehind,
                    OneOff,
                    SomeOf255,
                ],
            ),
        ];
        for (piece, number, cases) in expected {
            assert_eq!(shown(&piece), (number, cases.to_vec()), "{piece:02X?}");
        }
    }

    #[test]
    fn what_was_not_reached_is_missing() {
        let mut breaks = Breaks::default();
        let all = breaks.missing().count();
        let piece = [0xDB];
        let Outcome::Refused(broken) = paper::read(&[0xDB, END]).outcomes[0] else {
            panic!("a wrong escape");
        };
        breaks.count(broken.refusal, cases(&piece, broken));
        assert_eq!(breaks.missing().count(), all - 3);
        let line = "        1  packet 1: nothing before 1, no escape before 0, ";
        assert!(breaks.to_string().starts_with(line));
    }
}
