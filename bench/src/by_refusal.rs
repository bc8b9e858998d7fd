//! Counts of cases, apart for each packet refusal.

use std::collections::BTreeMap;
use std::fmt;

use crate::outcome::Refusal;

pub trait Named: Copy + Ord + fmt::Debug {
    fn name(self) -> &'static str;
}

/// The cases that each refusal has, in groups.
pub type Table<Case> = [(Refusal, &'static [&'static [Case]]); 7];

#[derive(Clone)]
pub struct Counts<Case> {
    /// What stands before a refusal's number.
    label: &'static str,
    /// Packets by the refusal's number.
    packets: BTreeMap<u8, u64>,
    cases: BTreeMap<(u8, Case), u64>,
}

impl<Case: Named> Counts<Case> {
    pub fn new(label: &'static str, table: &Table<Case>) -> Self {
        let mut counts = Counts {
            label,
            packets: BTreeMap::new(),
            cases: BTreeMap::new(),
        };
        for (refusal, groups) in table {
            let number = *refusal as u8;
            counts.packets.insert(number, 0);
            let cases = groups.iter().copied().flatten();
            counts.cases.extend(cases.map(|&case| ((number, case), 0)));
        }
        counts
    }

    /// Counts a packet and its cases.
    pub fn count(&mut self, refusal: Refusal, cases: Vec<Case>) {
        let number = refusal as u8;
        *self.packets.entry(number).or_default() += 1;
        for case in cases {
            match self.cases.get_mut(&(number, case)) {
                Some(count) => *count += 1,
                None => panic!("{number} has no case {case:?}"),
            }
        }
    }

    pub fn add(&mut self, other: &Counts<Case>) {
        for (number, count) in &other.packets {
            *self.packets.entry(*number).or_default() += count;
        }
        for (key, count) in &other.cases {
            *self.cases.entry(*key).or_default() += count;
        }
    }

    /// What was never reached.
    pub fn missing(&self) -> impl Iterator<Item = String> + '_ {
        let never = self.cases.iter().filter(|(_, count)| **count == 0);
        never.map(|((number, case), _)| format!("{} {number}: {}", self.label, case.name()))
    }
}

/// A line for each refusal.
impl<Case: Named> fmt::Display for Counts<Case> {
    fn fmt(&self, out: &mut fmt::Formatter) -> fmt::Result {
        for (number, packets) in &self.packets {
            let cases = self.cases.iter().filter(|((other, _), _)| other == number);
            let each = cases.map(|((_, case), count)| format!("{} {count}", case.name()));
            let each: Vec<_> = each.collect();
            let label = self.label;
            writeln!(out, "{packets:>9}  {label} {number}: {}", each.join(", "))?;
        }
        Ok(())
    }
}
