//! The parts about refused packets and the places where they broke.

use super::Tour;
use crate::hub::nodes::TABLE;
use crate::outcome::{END, ESC, ESC_END, ESC_ESC};

/// The line of all these parts.
const LINE: u8 = 3;

/// The error reply fits, or is one byte too long.
const ROOM: usize = 8;
const SHORT_ROOM: usize = 7;

/// Packets with escapes before, at and behind the place where they break.
const PIECES: [&[u8]; 24] = [
    // 1: at a byte, at an ESC, at the END.
    &[ESC, 7],
    &[5, ESC, 7, ESC, ESC_END],
    &[5, ESC, ESC_ESC, ESC, ESC, 1],
    &[ESC, ESC_END, ESC],
    // 3: at the END.
    &[ESC, ESC_END, ESC, ESC_ESC],
    &[1, ESC, ESC_END, ESC_END],
    // 4: at the protocol byte.
    &[ESC, ESC_END, 3, 0, 1, 3],
    &[1, 3, ESC, ESC_ESC, 1, 3],
    // 5: at the END; the length byte is too large by one and by more, and C0.
    &[0, 4, 0, 1, 5],
    &[0, 4, 0, ESC, ESC_END, 5],
    &[0, 9, ESC, ESC_END, ESC, ESC_ESC, ESC, ESC_END],
    &[0, ESC, ESC_END, 0, 1, 5],
    // 6: at the check byte.
    &[0, 3, 0, ESC, ESC_END, 9],
    &[0, 3, ESC, ESC_END, ESC, ESC_END, ESC, ESC_ESC],
    &[0, 3, 0, 1, ESC, ESC_END],
    // 15: at the first byte too many; the length byte is too small by one and
    // by more, and less than any frame's.
    &[0, 3, 0, 1, 2, 9],
    &[0, 3, 0, ESC, ESC_END, 2, 9],
    &[
        0, 3, ESC, ESC_END, ESC, ESC_END, ESC, ESC_ESC, ESC, ESC_ESC, 9,
    ],
    &[0, 3, 0, 1, 2, 9, ESC, ESC_END, 9],
    &[0, 0, 1, 1, 1],
    &[0, 0, ESC, ESC_END, 1, 1],
    &[0, 1, 1, ESC, ESC_END, 1],
    &[0, 2, 1, 1, ESC, ESC_ESC],
    &[0, 2, ESC, ESC_END, 1, 1],
];

/// A packet of each refusal but 2, short ones.
const SHORT: [&[u8]; 6] = [
    &[1, ESC, 7],
    &[1, ESC, ESC_END],
    &[ESC, ESC_END, 3, 0, 1, 3],
    &[0, 4, ESC, ESC_END, 1, 5],
    &[0, 3, ESC, ESC_END, 1, ESC, ESC_ESC],
    &[0, 3, ESC, ESC_END, 1, 2, ESC, ESC_ESC],
];

/// So many decoded bytes on the wire, the first few of them escaped.
fn body(count: usize, escaped: usize) -> Vec<u8> {
    [[ESC, ESC_END].repeat(escaped), vec![1; count - escaped]].concat()
}

impl Tour {
    /// A packet in parts, its END in the last.
    fn broken(&mut self, parts: &[&[u8]]) {
        let (last, before) = parts.split_last().expect("a packet has a part");
        for part in before {
            self.feed_lent(LINE, 0, part, TABLE);
        }
        self.feed_lent(LINE, ROOM, &[last, &[END][..]].concat(), TABLE);
    }

    pub(super) fn places(&mut self) {
        self.part("places of refusals 1, 3, 4, 5, 6, 15: escapes before, at and behind; length bytes 0, 1, 2");
        for piece in PIECES {
            self.broken(&[piece]);
        }
        // Length bytes C0 and DB, the check byte wrong, one byte too many.
        self.broken(&[&[0, ESC, ESC_END], &body(192, 1)]);
        self.broken(&[&[0, ESC, ESC_ESC], &body(220, 1)]);
    }

    pub(super) fn places_of_255(&mut self) {
        self.part("places at 255 and 256 decoded bytes: none, some and all escaped; up to 510, and 511 for 1");
        for escaped in [0, 100, 255] {
            self.broken(&[&body(255, escaped)]);
            let inner = body(253, escaped.min(253));
            for length in [254, 253, 100] {
                self.broken(&[&[&[0, length], &inner[..]].concat()]);
            }
            for tail in [&[1][..], &[ESC, 7]] {
                self.feed_lent(LINE, 0, &[&body(255, escaped), tail].concat(), TABLE);
                self.show();
                self.broken(&[&[ESC, ESC]]);
            }
        }
    }

    pub(super) fn places_behind_esc(&mut self) {
        self.part(
            "ESC ends a feed, the fault is in the next; the place is in the last feed or before",
        );
        self.broken(&[&[5, ESC, ESC_END, ESC], &[7]]);
        self.broken(&[&[5, ESC, ESC_END, ESC], &[]]);
        self.broken(&[&body(255, 1), &[ESC], &[ESC_END]]);
        self.broken(&[&body(255, 1), &[1]]);
        self.broken(&[&body(255, 1), &[ESC], &[7], &[1]]);
    }

    pub(super) fn cut_everywhere(&mut self) {
        self.part("the same packet cut at every place, for refusals 1, 3, 4, 5, 6, 15; one feed is refused meanwhile");
        for piece in SHORT {
            for cut in 1..=piece.len() {
                let (first, rest) = piece.split_at(cut);
                if cut == 2 {
                    self.feed_lent(LINE, 0, first, TABLE);
                    self.feed_lent(LINE, SHORT_ROOM, &[rest, &[END]].concat(), TABLE);
                    self.broken(&[rest]);
                } else {
                    self.broken(&[first, rest]);
                }
            }
        }
        self.show();
    }
}
