//! What a sender does: build a frame, escape it, put ENDs around it.

use crate::outcome::{END, ESC, ESC_END, ESC_ESC};
use crate::random::Random;

/// How the ENDs of neighbours stand.
#[derive(Clone, Copy, Debug)]
pub enum Ends {
    /// One END between neighbours.
    Shared,
    /// Each neighbour has its own two ENDs.
    Doubled,
    /// One to four ENDs between neighbours.
    Mixed,
}

/// A frame before escaping. The data has at most 250 bytes.
pub fn frame(command: u16, data: &[u8]) -> Vec<u8> {
    let mut frame = vec![0, (data.len() + 3) as u8];
    frame.extend(command.to_be_bytes());
    frame.extend(data);
    frame.push(0);
    mend_check(&mut frame);
    frame
}

/// Makes the last byte the exclusive or of all before it.
pub fn mend_check(frame: &mut [u8]) {
    if let Some((check, before)) = frame.split_last_mut() {
        *check = before.iter().fold(0, |sum, byte| sum ^ byte);
    }
}

/// The escaped form of any bytes, without ENDs.
pub fn escape(bytes: &[u8]) -> Vec<u8> {
    let mut body = Vec::with_capacity(bytes.len() + 2);
    for &byte in bytes {
        match byte {
            END => body.extend([ESC, ESC_END]),
            ESC => body.extend([ESC, ESC_ESC]),
            _ => body.push(byte),
        }
    }
    body
}

/// The wire form of a frame, with both ENDs.
pub fn wire(command: u16, data: &[u8]) -> Vec<u8> {
    let mut wire = vec![END];
    wire.extend(escape(&frame(command, data)));
    wire.push(END);
    wire
}

/// Sends bodies one after the other, with an END before and after each.
pub fn join(bodies: &[Vec<u8>], ends: Ends, random: &mut Random) -> Vec<u8> {
    let mut wire = vec![END];
    for (place, body) in bodies.iter().enumerate() {
        let more = match ends {
            Ends::Shared => 0,
            Ends::Doubled => usize::from(place > 0),
            Ends::Mixed => random.below(4),
        };
        wire.extend(vec![END; more]);
        wire.extend(body);
        wire.push(END);
    }
    wire
}
