//! The reader as the paper states it, clause by clause.
//!
//! It looks at the whole capture at once: cut at every END, then unescape
//! each piece, then check the packet. It is written to be believed, not to
//! be fast.

use std::ops::Range;

use crate::outcome::{
    Broken, DecodedPlace, Outcome, Refusal, WirePlace, END, ESC, ESC_END, ESC_ESC, FRAME_LEAST,
    PACKET_MOST,
};

/// All that a capture gives: its outcomes in order, and the number of wire
/// bytes since the last END.
#[derive(Clone, Debug, PartialEq, Eq)]
pub struct Listing {
    pub outcomes: Vec<Outcome>,
    pub left: usize,
}

/// Reads a whole capture.
pub fn read(capture: &[u8]) -> Listing {
    let outcomes = closed_pieces(capture)
        .into_iter()
        .map(|piece| outcome(&capture[piece]))
        .collect();
    let left = capture.len() - open_start(capture);
    Listing { outcomes, left }
}

/// The exact text of the listing.
pub fn render(listing: &Listing) -> String {
    let mut text = String::new();
    for outcome in &listing.outcomes {
        text.push_str(&format!("{outcome}\n"));
    }
    text.push_str(&format!("left {}\n", listing.left));
    text
}

/// The places of the pieces that have an outcome.
///
/// The wire is cut at every END, and a piece is what ends at one. What
/// stands before the first END is a piece too. An empty piece gives no
/// outcome.
pub fn closed_pieces(capture: &[u8]) -> Vec<Range<usize>> {
    let ends = ends(capture);
    let starts = [0].into_iter().chain(ends.iter().map(|end| end + 1));
    starts
        .zip(&ends)
        .map(|(start, &end)| start..end)
        .filter(|piece| !piece.is_empty())
        .collect()
}

/// The place where the open last piece starts.
pub fn open_start(capture: &[u8]) -> usize {
    ends(capture).last().map_or(0, |end| end + 1)
}

/// The places of all ENDs.
fn ends(capture: &[u8]) -> Vec<usize> {
    (0..capture.len())
        .filter(|&place| capture[place] == END)
        .collect()
}

/// A decoded byte and its wire place, which is its ESC's if it is escaped.
struct Decoded {
    byte: u8,
    wire: WirePlace,
}

/// The outcome of a closed piece that is not empty.
fn outcome(piece: &[u8]) -> Outcome {
    let packet = match unescape(piece) {
        Err(broken) => return Outcome::Refused(broken),
        Ok(packet) => packet,
    };
    let bytes: Vec<u8> = packet.iter().map(|decoded| decoded.byte).collect();
    match judge(&bytes) {
        Ok(frame) => frame,
        Err((refusal, decoded)) => {
            // Behind the last decoded byte stands the END.
            let end = WirePlace(piece.len());
            let wire = packet.get(decoded.0).map_or(end, |decoded| decoded.wire);
            Outcome::Refused(Broken {
                refusal,
                wire,
                decoded,
            })
        }
    }
}

/// The decoded bytes of a closed piece, or the first fault from the left.
///
/// The piece was closed by END, so an ESC at its end is followed by END. The
/// place of a wrong escape is the byte after ESC, that of too many bytes is
/// the 256th.
fn unescape(piece: &[u8]) -> Result<Vec<Decoded>, Broken> {
    let mut packet = Vec::new();
    let mut rest = piece;
    while !rest.is_empty() {
        let place = piece.len() - rest.len();
        let broken = |refusal, wire| Broken {
            refusal,
            wire: WirePlace(wire),
            decoded: DecodedPlace(packet.len()),
        };
        let Some((byte, behind)) = first_decoded(rest) else {
            return Err(broken(Refusal::WrongEscape, place + 1));
        };
        if packet.len() == PACKET_MOST {
            return Err(broken(Refusal::TooLong, place));
        }
        let wire = WirePlace(place);
        packet.push(Decoded { byte, wire });
        rest = behind;
    }
    Ok(packet)
}

/// The first decoded byte of a rest that is not empty, and what is behind it.
///
/// ESC not followed by DC or DD is a wrong escape. All other values stand
/// for themselves, DC and DD included.
fn first_decoded(rest: &[u8]) -> Option<(u8, &[u8])> {
    match rest {
        [ESC, ESC_END, behind @ ..] => Some((END, behind)),
        [ESC, ESC_ESC, behind @ ..] => Some((ESC, behind)),
        [ESC, ..] => None,
        _ => Some((rest[0], &rest[1..])),
    }
}

/// The checks on a packet: short, protocol, length, check byte. A refusal has
/// its decoded place; the count is that of the END.
fn judge(packet: &[u8]) -> Result<Outcome, (Refusal, DecodedPlace)> {
    let count = packet.len();
    if count < FRAME_LEAST {
        return Err((Refusal::Short, DecodedPlace(count)));
    }
    let claimed = usize::from(packet[1]) + 2;
    let last = count - 1;
    if packet[0] != 0 {
        Err((Refusal::Protocol, DecodedPlace(0)))
    } else if count < claimed {
        Err((Refusal::Shorter, DecodedPlace(count)))
    } else if count > claimed {
        Err((Refusal::Longer, DecodedPlace(claimed)))
    } else if packet[last] != check_byte(&packet[..last]) {
        Err((Refusal::Check, DecodedPlace(last)))
    } else {
        Ok(Outcome::Frame {
            command: u16::from_be_bytes([packet[2], packet[3]]),
            data: count - FRAME_LEAST,
        })
    }
}

/// The exclusive or of all bytes before the check byte.
fn check_byte(before: &[u8]) -> u8 {
    before.iter().fold(0, |check, byte| check ^ byte)
}

#[cfg(test)]
mod tests {
    use super::*;
    use crate::generate::rows::ROWS;
    use crate::outcome::DATA_MOST;
    use crate::sender;

    fn listing(capture: &[u8]) -> String {
        render(&read(capture))
    }

    /// A closed piece and the text of its one outcome.
    fn told(piece: &[u8]) -> String {
        let mut capture = piece.to_vec();
        capture.push(END);
        let listing = read(&capture);
        assert_eq!((listing.outcomes.len(), listing.left), (1, 0));
        listing.outcomes[0].to_string()
    }

    #[test]
    fn the_rows_of_the_paper() {
        for row in &ROWS {
            assert_eq!(listing(row.wire), row.told, "{}", row.name);
        }
    }

    #[test]
    fn the_example_of_the_paper() {
        let capture = [ROWS[2].wire, ROWS[10].wire].concat();
        assert_eq!(
            listing(&capture),
            "frame 0001 data 0\nrefused 6 at 4 4\nleft 0\n"
        );
    }

    #[test]
    fn the_longest_frame() {
        let frame = sender::frame(0xABCD, &[7; DATA_MOST]);
        assert_eq!(frame.len(), PACKET_MOST);
        assert_eq!(told(&sender::escape(&frame)), "frame ABCD data 250");
    }

    #[test]
    fn byte_255_is_judged_and_256_refused() {
        assert_eq!(told(&[1; 255]), "refused 4 at 0 0");
        assert_eq!(told(&[1; 256]), "refused 2 at 255 255");
        assert_eq!(told(&[ESC, ESC_END].repeat(255)), "refused 4 at 0 0");
        let escaped = [ESC, ESC_END].repeat(256);
        assert_eq!(told(&escaped), "refused 2 at 510 255");
    }

    #[test]
    fn an_escape_behind_255_bytes() {
        let behind = |tail: &[u8]| told(&[&[1; 255], tail].concat());
        assert_eq!(behind(&[ESC]), "refused 1 at 256 255");
        assert_eq!(behind(&[ESC, 0]), "refused 1 at 256 255");
        assert_eq!(behind(&[ESC, ESC]), "refused 1 at 256 255");
        assert_eq!(behind(&[ESC, ESC_END]), "refused 2 at 255 255");
        assert_eq!(behind(&[ESC, ESC_ESC]), "refused 2 at 255 255");
        assert_eq!(behind(&[0, ESC]), "refused 2 at 255 255");
    }

    #[test]
    fn the_first_fault_settles_the_piece() {
        let long = [1; 300];
        assert_eq!(told(&[&[ESC, 0], &long[..]].concat()), "refused 1 at 1 0");
        assert_eq!(
            told(&[&long[..], &[ESC, 0]].concat()),
            "refused 2 at 255 255"
        );
        assert_eq!(told(&[ESC, ESC, ESC_END]), "refused 1 at 1 0");
        assert_eq!(told(&[ESC_END, ESC_ESC]), "refused 3 at 2 2");
    }

    #[test]
    fn the_checks_come_in_order() {
        assert_eq!(told(&[1, 9, 9, 9]), "refused 3 at 4 4");
        assert_eq!(told(&[1, 9, 9, 9, 9]), "refused 4 at 0 0");
        assert_eq!(told(&[0, 9, 9, 9, 9]), "refused 5 at 5 5");
        assert_eq!(told(&[0, 2, 9, 9, 9]), "refused 15 at 4 4");
        assert_eq!(told(&[0, 3, 9, 9, 9]), "refused 6 at 4 4");
        assert_eq!(told(&[0, 3, 9, 9, 3]), "frame 0909 data 0");
    }

    #[test]
    fn left_counts_wire_bytes_whatever_they_are() {
        assert_eq!(listing(&[ESC, 0, 0]), "left 3\n");
        assert_eq!(listing(&[END, ESC]), "left 1\n");
        assert_eq!(listing(&[1; 1000]), "left 1000\n");
        assert_eq!(listing(&[5, END, 5]), "refused 3 at 1 1\nleft 1\n");
    }
}
