//! What a reader tells of a piece: a frame, or a refusal and where the packet
//! broke.

use std::fmt;

/// Cuts the wire into pieces.
pub const END: u8 = 0xC0;
/// Begins an escape.
pub const ESC: u8 = 0xDB;
/// Behind ESC it stands for END.
pub const ESC_END: u8 = 0xDC;
/// Behind ESC it stands for ESC.
pub const ESC_ESC: u8 = 0xDD;

/// The most decoded bytes that a packet has.
pub const PACKET_MOST: usize = 255;
/// The fewest bytes of a frame: protocol, length, command, check byte.
pub const FRAME_LEAST: usize = 5;
/// The most data bytes of a frame.
pub const DATA_MOST: usize = 250;

/// The packet refusals under the paper's numbers.
#[derive(Clone, Copy, Debug, PartialEq, Eq)]
pub enum Refusal {
    WrongEscape = 1,
    TooLong = 2,
    Short = 3,
    Protocol = 4,
    /// Shorter than its length byte claims.
    Shorter = 5,
    Check = 6,
    /// Longer than its length byte claims.
    Longer = 15,
}

impl Refusal {
    pub const ALL: [Refusal; 7] = [
        Refusal::WrongEscape,
        Refusal::TooLong,
        Refusal::Short,
        Refusal::Protocol,
        Refusal::Shorter,
        Refusal::Check,
        Refusal::Longer,
    ];
}

/// A place among the wire bytes since the last END, from 0.
#[derive(Clone, Copy, Debug, PartialEq, Eq)]
pub struct WirePlace(pub usize);

/// A place among the decoded bytes of a piece, from 0.
#[derive(Clone, Copy, Debug, PartialEq, Eq)]
pub struct DecodedPlace(pub usize);

/// A packet refusal, told at a byte of the wire and at a decoded byte. The two
/// are counted apart.
#[derive(Clone, Copy, Debug, PartialEq, Eq)]
pub struct Broken {
    pub refusal: Refusal,
    pub wire: WirePlace,
    pub decoded: DecodedPlace,
}

/// The one outcome of a closed piece that is not empty.
#[derive(Clone, Copy, Debug, PartialEq, Eq)]
pub enum Outcome {
    Frame { command: u16, data: usize },
    Refused(Broken),
}

impl Broken {
    /// The places as they are written.
    pub fn places(&self) -> String {
        format!("at {} {}", self.wire.0, self.decoded.0)
    }
}

/// The refusal's number and its places.
impl fmt::Display for Broken {
    fn fmt(&self, out: &mut fmt::Formatter) -> fmt::Result {
        write!(out, "{} {}", self.refusal as u8, self.places())
    }
}

/// The outcome as the listing shows it.
impl fmt::Display for Outcome {
    fn fmt(&self, out: &mut fmt::Formatter) -> fmt::Result {
        match self {
            Outcome::Frame { command, data } => write!(out, "frame {command:04X} data {data}"),
            Outcome::Refused(broken) => write!(out, "refused {broken}"),
        }
    }
}
