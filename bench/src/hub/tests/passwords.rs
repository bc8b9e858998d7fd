//! Passwords: the bytes before the first zero, or all 32, on both sides. What a
//! hub keeps behind its zero is set by hand, since no call leaves anything.

use super::*;
use crate::outcome::ESC;

/// The bytes of all passwords here, none of them zero or twice. So a shorter
/// password is a prefix of each longer one.
const LETTERS: [u8; 32] = {
    let mut letters = [0; 32];
    let mut place = 0;
    while place < 32 {
        letters[place] = b'A' + place as u8;
        place += 1;
    }
    letters[1] = END;
    letters[30] = ESC;
    letters[31] = 0xFF;
    letters
};

/// The first letters, so many of them, with zeros behind.
fn padded(length: usize) -> [u8; 32] {
    let mut bytes = LETTERS;
    bytes[length..].fill(0);
    bytes
}

/// The same password with all kinds of bytes behind its zero: none, the same
/// ones, the other letters, one behind the zero, one at the end.
fn tails(length: usize) -> Vec<[u8; 32]> {
    let mut tails = vec![padded(length)];
    if length < 31 {
        let behind = length + 1;
        let mut tail = |fill: fn(&mut [u8])| {
            let mut bytes = padded(length);
            fill(&mut bytes[behind..]);
            tails.push(bytes);
        };
        tail(|stale| stale.fill(END));
        tail(|stale| stale.copy_from_slice(&LETTERS[32 - stale.len()..]));
        tail(|stale| stale[0] = 1);
        tail(|stale| stale[stale.len() - 1] = 1);
    }
    tails
}

/// All passwords with all kinds of bytes behind them.
fn all() -> impl Iterator<Item = (usize, [u8; 32])> {
    let each = |length| tails(length).into_iter().map(move |bytes| (length, bytes));
    (0..=32).flat_map(each)
}

impl Whole {
    /// Ready, and the hub keeps these bytes.
    fn keeping(bytes: [u8; 32]) -> Whole {
        let mut whole = Whole::ready();
        whole.hub.password = bytes;
        whole
    }

    /// The status of an entry on line 2, which it logs in or leaves as it was.
    /// Nothing else changes.
    fn enter(&mut self, entry: &[u8; 32]) -> u8 {
        let mut before = self.clone();
        let status = status(0x3001, self.ask(2, 0x3000, entry));
        before.hub.logins[2] |= status == 0;
        assert!(self.same_as(&before));
        status
    }

    /// The status of a change on line 0. Nothing but the password changes, and
    /// that only if it is 0.
    fn change(&mut self, old: &[u8; 32], new: &[u8; 32]) -> u8 {
        let mut before = self.clone();
        let status = status(0x3003, self.ask(0, 0x3002, &[*old, *new].concat()));
        if status == 0 {
            before.hub.password = self.hub.password;
        }
        assert!(self.same_as(&before));
        status
    }
}

fn status(confirm: u16, reply: Vec<u8>) -> u8 {
    let status = reply[5];
    assert_eq!(reply, wire(confirm, &[status]));
    status
}

#[test]
fn a_password_ends_at_its_first_zero() {
    for (length, bytes) in all() {
        assert_eq!(password::of(&bytes), &LETTERS[..length]);
        assert_eq!(password::stored(&bytes), padded(length));
        assert!(password::same(&bytes, &padded(length)));
    }
    assert_eq!(padded(32), LETTERS);
    assert_eq!(tails(31), [padded(31)]);
    assert!(tails(30).iter().any(|bytes| bytes[31] != 0));
}

/// Every cut on both sides, with all kinds of bytes behind both zeros. Shorter
/// entries are prefixes of the right one, longer ones go on behind it.
#[test]
fn enter_compares_what_stands_before_the_zeros() {
    for (kept, kept_bytes) in all() {
        let mut whole = Whole::keeping(kept_bytes);
        for (entered, entry) in all() {
            for login in [false, true] {
                whole.hub.logins[2] = login;
                let status = u8::from(entered != kept);
                assert_eq!(whole.enter(&entry), status, "{kept_bytes:?} {entry:?}");
            }
        }
    }
}

/// A bit changed before the zero, in it or behind it: only behind it the entry
/// stays right.
#[test]
fn one_bit_off() {
    for (length, kept) in all() {
        let mut whole = Whole::keeping(kept);
        for (place, bit) in (0..32).flat_map(|place| (0..8).map(move |bit| (place, bit))) {
            let mut entry = kept;
            entry[place] ^= 1 << bit;
            assert_eq!(whole.enter(&entry), u8::from(place <= length));
        }
    }
}

/// A zero within the right password makes it another one, though the right
/// bytes stand behind.
#[test]
fn a_zero_put_into_the_right_one() {
    for (length, kept) in all() {
        let mut whole = Whole::keeping(kept);
        for place in 0..length {
            let mut entry = kept;
            entry[place] = 0;
            assert_eq!(whole.enter(&entry), 1);
            assert_eq!(whole.change(&entry, &kept), 1);
        }
    }
}

/// The first half is judged as an entry is; the new half is stored with zeros
/// behind, or not at all.
#[test]
fn change_compares_its_first_half() {
    for (kept, kept_bytes) in all() {
        let before = Whole::keeping(kept_bytes);
        for (old, old_bytes) in all() {
            let new = (kept * 7 + old) % 33;
            let tails = tails(new);
            let mut whole = before.clone();
            let status = u8::from(old != kept);
            assert_eq!(whole.change(&old_bytes, &tails[old % tails.len()]), status);
            let stored = if status == 0 { padded(new) } else { kept_bytes };
            assert_eq!(whole.hub.password, stored);
        }
    }
}

/// Both halves with all kinds of bytes behind them. The new password logs in
/// with any bytes behind its zero, the old one no more.
#[test]
fn change_stores_zeros_behind_its_new_half() {
    for (kept, old_bytes) in all() {
        for (new, new_bytes) in all() {
            let mut whole = Whole::keeping(tails(kept)[0]);
            assert_eq!(whole.change(&old_bytes, &new_bytes), 0);
            assert_eq!(whole.hub.password, padded(new));
            let tails = tails(new);
            assert_eq!(whole.enter(&tails[kept % tails.len()]), 0);
            assert_eq!(whole.enter(&old_bytes), u8::from(new != kept));
        }
    }
}

/// Equal old and new is accepted, whatever stands behind the three zeros. What
/// the hub kept behind its own is gone then.
#[test]
fn equal_old_and_new() {
    for (length, kept) in all() {
        for old in tails(length) {
            for new in tails(length) {
                let mut whole = Whole::keeping(kept);
                assert_eq!(whole.change(&old, &new), 0);
                assert_eq!(whole.hub.password, padded(length));
            }
        }
    }
}

/// The new half of a refused change logs nobody in.
#[test]
fn a_refused_change_changes_nothing() {
    for (length, kept) in all() {
        let other = padded((length + 1) % 33);
        let mut whole = Whole::keeping(kept);
        assert_eq!(whole.change(&other, &other), 1);
        assert_eq!(whole.change(&other, &kept), 1);
        assert_eq!(whole.enter(&other), 1);
        let frame = wire(0x3002, &[kept, other].concat());
        assert_eq!(whole.feed_lent(0, &frame, 7), Err(9));
        assert_eq!(whole.ask(3, 0x3002, &[kept, other].concat()), error(12));
        assert_eq!(whole.hub.password, kept);
        assert_eq!(whole.enter(&padded(length)), 0);
    }
}

#[test]
fn start_stores_zeros_behind() {
    for (length, bytes) in all() {
        let mut whole = Whole::ready();
        whole.hub.start(&bytes, &mut whole.table).unwrap();
        assert_eq!(whole.hub.password, padded(length));
        assert_eq!(whole.hub.logins, [false; 4]);
        for (entered, entry) in all() {
            assert_eq!(whole.enter(&entry), u8::from(entered != length));
        }
    }
}

/// A password is sent in 32 bytes, also one that is shorter.
#[test]
fn start_of_another_length() {
    for (_, kept) in all() {
        let mut whole = Whole::keeping(kept);
        let before = whole.clone();
        for more in [0, 1] {
            let longer = [&kept[..], &[more]].concat();
            for bytes in [&longer[..], &kept[..31], &kept[..1], &[]] {
                assert_eq!(given(whole.hub.start(bytes, &mut whole.table)), Some(14));
                assert!(whole.same_bytes(&before));
            }
        }
    }
}

/// Before any start the password is the empty one. Every entry that begins with
/// zero logs in, no other does.
#[test]
fn the_empty_password() {
    let mut whole = Whole::ready();
    whole.hub = Hub::new();
    for (length, entry) in all() {
        whole.hub.logins[2] = false;
        assert_eq!(whole.enter(&entry), u8::from(length > 0));
    }
    whole.hub.logins[0] = true;
    let stale = tails(0)[1];
    assert_eq!(whole.change(&stale, &LETTERS), 0);
    assert_eq!(whole.enter(&stale), 1);
    assert_eq!(whole.change(&LETTERS, &stale), 0);
    assert_eq!(whole.hub.password, [0; 32]);
    assert_eq!(whole.enter(&tails(0)[2]), 0);
}

/// Logins are the lines' own: a change logs nobody in or out.
#[test]
fn logins_stay() {
    let mut whole = Whole::ready();
    assert_eq!(whole.change(&PASSWORD, &LETTERS), 0);
    assert_eq!(whole.hub.logins, [true, true, false, false]);
    assert_eq!(whole.enter(&PASSWORD), 1);
    assert_eq!(whole.enter(&LETTERS), 0);
    assert_eq!(whole.hub.logins, [true, true, true, false]);
    assert_eq!(whole.enter(&PASSWORD), 1);
    assert_eq!(whole.hub.logins, [true, true, true, false]);
}
