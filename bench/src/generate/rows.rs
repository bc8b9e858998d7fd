//! The rows P1 to P11 of the paper, and captures made of them.

use crate::outcome::END;

/// A row of the paper: its wire bytes and the listing that it gives.
pub struct Row {
    pub name: &'static str,
    pub wire: &'static [u8],
    pub told: &'static str,
}

pub const ROWS: [Row; 11] = [
    Row {
        name: "P1",
        wire: &[],
        told: "left 0\n",
    },
    Row {
        name: "P2",
        wire: &[0xC0, 0xC0, 0xC0],
        told: "left 0\n",
    },
    Row {
        name: "P3",
        wire: &[0xC0, 0x00, 0x03, 0x00, 0x01, 0x02, 0xC0],
        told: "frame 0001 data 0\nleft 0\n",
    },
    Row {
        name: "P4",
        wire: &[0xC0, 0x00, 0x05, 0x02, 0x06, 0xDB, 0xDC, 0x00, 0xC1, 0xC0],
        told: "frame 0206 data 2\nleft 0\n",
    },
    Row {
        name: "P5",
        wire: &[0xC0, 0x00, 0x05, 0x02, 0x06, 0xC1, 0x00, 0xDB, 0xDC, 0xC0],
        told: "frame 0206 data 2\nleft 0\n",
    },
    Row {
        name: "P6",
        wire: &[0xC0, 0x00, 0x05, 0x02, 0x06, 0xDB, 0xDD, 0x00, 0xDA, 0xC0],
        told: "frame 0206 data 2\nleft 0\n",
    },
    Row {
        name: "P7",
        wire: &[0xC0, 0xDB, 0xC0],
        told: "refused 1 at 1 0\nleft 0\n",
    },
    Row {
        name: "P8",
        wire: &[0xC0, 0x00, 0x03, 0x00, 0x03, 0xC0],
        told: "refused 3 at 4 4\nleft 0\n",
    },
    Row {
        name: "P9",
        wire: &[0xC0, 0x01, 0x03, 0x00, 0x01, 0x03, 0xC0],
        told: "refused 4 at 0 0\nleft 0\n",
    },
    Row {
        name: "P10",
        wire: &[0xC0, 0x00, 0x04, 0x00, 0x01, 0x05, 0xC0],
        told: "refused 5 at 5 5\nleft 0\n",
    },
    Row {
        name: "P11",
        wire: &[0xC0, 0x00, 0x03, 0x00, 0x01, 0x03, 0xC0],
        told: "refused 6 at 4 4\nleft 0\n",
    },
];

/// The rows alone, all together, and the pairs with two ENDs or one between.
pub fn count() -> usize {
    let rows = ROWS.len();
    rows + 1 + 2 * rows * rows
}

pub fn capture(index: usize) -> Vec<u8> {
    let rows = ROWS.len();
    match index % count() {
        index if index < rows => ROWS[index].wire.to_vec(),
        index if index == rows => ROWS.iter().flat_map(|row| row.wire).copied().collect(),
        index => pair(index - rows - 1),
    }
}

fn pair(number: usize) -> Vec<u8> {
    let rows = ROWS.len();
    let first = ROWS[number / 2 / rows].wire;
    let second = ROWS[number / 2 % rows].wire;
    let shared = number % 2 == 1;
    let second = match second {
        [END, rest @ ..] if shared => rest,
        _ => second,
    };
    [first, second].concat()
}
