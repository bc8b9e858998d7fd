//! The bench: a second reader of captures and a second hub, written from the
//! papers alone.
//!
//! It makes seeded captures and scripts, compares a listing program and a
//! replay program with its own byte for byte, and measures them.

pub mod arguments;
pub mod breaks;
pub mod by_refusal;
pub mod difference;
pub mod directory;
pub mod drive;
pub mod generate;
pub mod hub;
pub mod input;
pub mod mix;
pub mod outcome;
pub mod paper;
pub mod plain;
pub mod random;
pub mod reach;
pub mod replay;
pub mod scripts;
pub mod sender;
pub mod stand;
pub mod tally;
pub mod tour;
pub mod watch;
pub mod workers;
