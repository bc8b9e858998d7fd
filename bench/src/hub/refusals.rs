//! The refusals of calls under the paper's numbers.

#[derive(Clone, Copy, Debug, PartialEq, Eq)]
pub enum CallRefusal {
    Table = 7,
    Line = 8,
    Room = 9,
    Node = 11,
    InUse = 12,
    NotOpen = 13,
    Password = 14,
}

/// The order in which they are judged: 9 comes last.
const ORDER: [CallRefusal; 7] = [
    CallRefusal::Table,
    CallRefusal::Line,
    CallRefusal::Node,
    CallRefusal::InUse,
    CallRefusal::NotOpen,
    CallRefusal::Password,
    CallRefusal::Room,
];

/// All refusals that apply to a call, a bit for each number. Where there are
/// several, the first in order is given.
#[derive(Clone, Copy, Debug, PartialEq, Eq)]
pub struct Refusals(u16);

impl Refusals {
    /// Passes if none of the refusals applies.
    pub fn none_of(tests: &[(CallRefusal, bool)]) -> Result<(), Refusals> {
        let mut bits = 0;
        for &(refusal, applies) in tests {
            bits |= u16::from(applies) << refusal as u8;
        }
        if bits == 0 {
            Ok(())
        } else {
            Err(Refusals(bits))
        }
    }

    /// The number that is given.
    pub fn given(self) -> u32 {
        self.all()[0]
    }

    /// The numbers that apply, in order.
    pub fn all(self) -> Vec<u32> {
        let numbers = ORDER.map(|refusal| refusal as u32);
        let applies = |number: &u32| self.0 >> number & 1 == 1;
        numbers.into_iter().filter(applies).collect()
    }
}
