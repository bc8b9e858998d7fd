//! The node table: 200 records of 72 bytes in lent memory.

use std::ops::Range;

pub const NODES: usize = 200;
pub const RECORD: usize = 72;
pub const TABLE: usize = NODES * RECORD;

/// The first byte of a record that is in use.
const IN_USE: u8 = 1;

/// The fields of a record behind its first byte; the last byte is spare.
pub const KIND: Range<usize> = 1..3;
pub const NAME: Range<usize> = 3..67;
pub const ORDER: Range<usize> = 67..69;
pub const PLACEMENT: usize = 69;
pub const VARIATION: usize = 70;

/// Whether a table of any length has this node in use.
pub fn in_use(table: &[u8], node: u8) -> bool {
    usize::from(node) < NODES && table.get(usize::from(node) * RECORD) == Some(&IN_USE)
}

pub fn record(table: &[u8], node: u8) -> &[u8] {
    &table[place(node)]
}

pub fn record_mut(table: &mut [u8], node: u8) -> &mut [u8] {
    &mut table[place(node)]
}

fn place(node: u8) -> Range<usize> {
    let start = usize::from(node) * RECORD;
    start..start + RECORD
}

/// A new record: in use, its type, all other fields zero.
pub fn enrol(table: &mut [u8], node: u8, kind: u16) {
    let record = record_mut(table, node);
    record.fill(0);
    record[0] = IN_USE;
    record[KIND].copy_from_slice(&kind.to_be_bytes());
}

/// A field of two bytes as a number.
pub fn two(record: &[u8], field: Range<usize>) -> u16 {
    record[field]
        .iter()
        .fold(0, |sum, &byte| sum << 8 | u16::from(byte))
}

/// All nodes in use, ascending.
pub fn all_in_use(table: &[u8]) -> Vec<u8> {
    (0..NODES as u8)
        .filter(|&node| in_use(table, node))
        .collect()
}
