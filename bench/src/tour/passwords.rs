//! The parts about passwords that end at their first zero.

use super::Tour;
use crate::hub::commands::PASSWORD_CHANGE;
use crate::hub::nodes::TABLE;

type Bytes = [u8; 32];

/// All passwords here are first letters of this one. END and ESC are in it.
const LETTERS: Bytes = *b"East \xC0 vent \xDB or west roof blind";

/// Lengths at the edges and between, and whether stale bytes stand behind.
const GIVEN: [(usize, bool); 8] = [
    (0, false),
    (0, true),
    (1, false),
    (1, true),
    (10, false),
    (10, true),
    (31, false),
    (32, false),
];

/// A password with zeros behind it.
fn padded(length: usize) -> Bytes {
    let mut bytes = LETTERS;
    bytes[length..].fill(0);
    bytes
}

/// The same password with the other letters behind its zero.
fn stale(length: usize) -> Bytes {
    let mut bytes = LETTERS;
    if let Some(zero) = bytes.get_mut(length) {
        *zero = 0;
    }
    bytes
}

/// The same with one byte at the end.
fn one_stale(length: usize) -> Bytes {
    let mut bytes = padded(length);
    if length < 31 {
        bytes[31] = b'!';
    }
    bytes
}

fn given((length, is_stale): (usize, bool)) -> Bytes {
    if is_stale {
        stale(length)
    } else {
        padded(length)
    }
}

/// The passwords that are one byte shorter and one byte longer. Stale bytes
/// stand behind them if they are not behind the right one.
fn next_to((length, is_stale): (usize, bool)) -> Vec<Bytes> {
    let lengths = [length.wrapping_sub(1), length + 1];
    let lengths = lengths.into_iter().filter(|&length| length <= 32);
    lengths.map(|length| given((length, !is_stale))).collect()
}

/// Wrong ones for the first ten letters: shorter, with a zero put in, longer, a
/// byte off, and another.
fn wrong() -> [Bytes; 9] {
    let mut zero_put_in = padded(10);
    zero_put_in[5] = 0;
    let mut byte_off = stale(10);
    byte_off[9] ^= 1;
    let mut other = padded(12);
    other[..2].fill(b'x');
    [
        stale(0),
        padded(9),
        stale(5),
        zero_put_in,
        stale(11),
        one_stale(20),
        LETTERS,
        byte_off,
        other,
    ]
}

impl Tour {
    fn change(&mut self, line: u8, old: Bytes, new: Bytes) {
        self.send(line, PASSWORD_CHANGE, &[old, new].concat());
    }

    pub(super) fn passwords_entered(&mut self) {
        self.part("passwords of 0, 1, 10, 31 and 32 bytes, stale bytes behind either zero; one byte less and more");
        self.line("close 1");
        for kind in GIVEN {
            self.start(&given(kind), TABLE);
            for wrong in next_to(kind) {
                self.enter(3, &wrong);
            }
            let (length, _) = kind;
            self.enter(0, &padded(length));
            if length < 31 {
                self.enter(1, &stale(length));
                self.enter(2, &one_stale(length));
            }
        }
        self.show();
        // Lent in fewer and more bytes than 32.
        self.start(&padded(10)[..31], TABLE);
        self.start(&[&padded(10)[..], &[0]].concat(), TABLE);
        self.enter(3, &LETTERS);
        self.show();
    }

    pub(super) fn wrong_passwords(&mut self) {
        self.part("wrong passwords: empty, prefixes, a zero put in, longer ones, a byte off; entered and to change");
        self.start(&stale(10), TABLE);
        self.enter(0, &one_stale(10));
        for (wrong, kind) in wrong().into_iter().zip(GIVEN.into_iter().cycle()) {
            self.enter(1, &wrong);
            self.change(0, wrong, given(kind));
        }
        self.change(0, padded(0), padded(0));
        self.change(0, padded(9), stale(9));
        self.enter(1, &padded(9));
        self.show();
        self.enter(1, &padded(10));
    }

    pub(super) fn passwords_changed(&mut self) {
        self.part(
            "changes, stale bytes in both halves: refused, then to each kind; equal old and new",
        );
        self.start(&LETTERS, TABLE);
        self.enter(0, &LETTERS);
        let mut kept = (32, false);
        let sent = [stale, padded, one_stale];
        for (kind, right) in GIVEN.into_iter().zip(sent.into_iter().cycle()) {
            if let Some(wrong) = next_to(kept).pop() {
                self.change(0, wrong, given(kind));
            }
            self.enter(1, &given(kind));
            self.enter(1, &right(kept.0));
            self.change(0, right(kept.0), given(kind));
            self.enter(1, &right(kind.0));
            self.enter(1, &right(kept.0));
            kept = kind;
        }
        self.change(0, LETTERS, padded(10));
        self.change(0, padded(10), padded(10));
        self.change(0, padded(10), one_stale(10));
        self.change(0, stale(10), stale(10));
        self.enter(1, &padded(10));
        self.show();
    }
}
