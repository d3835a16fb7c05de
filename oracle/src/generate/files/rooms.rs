//! Files with as many rows as there is room for, and with one more.

use crate::file::{put_number, write};
use crate::refusal::{LONGEST_LABEL, MOST_COMPONENTS, MOST_WIRES};
use crate::rows::{Component, Rows, Wire};
use random::Random;

/// Horizontal wires, vertical wires, components: at the rooms, and one above.
pub const COUNTS: [[usize; 3]; 14] = [
    [512, 0, 0],
    [0, 512, 1],
    [511, 1, 0],
    [256, 256, 128],
    [128, 384, 127],
    [1, 1, 128],
    [513, 0, 0],
    [0, 513, 0],
    [512, 1, 0],
    [1, 512, 1],
    [257, 256, 128],
    [384, 129, 0],
    [0, 0, 129],
    [2, 2, 129],
];

/// So many rows far from each other: a lawful drawing, if there is room for them.
pub fn apart([horizontal, vertical, components]: [usize; 3]) -> Rows {
    let wire = |vertical, n: usize| Wire { vertical, line: 8 * n as i32 - 5000, start: 1000, end: 1100 };
    let component = |n: usize| Component {
        y: 400 * (n as i32 / 16) + 2000,
        x: 400 * (n as i32 % 16) - 3000,
        kind: n % 3,
        orient: n % 8,
        label: format!("K{n:0width$}", width = LONGEST_LABEL - 1).into_bytes(),
    };
    let wires = (0..horizontal).map(|n| wire(false, n)).chain((0..vertical).map(|n| wire(true, n)));
    Rows { wires: wires.collect(), joints: Vec::new(), components: (0..components).map(component).collect() }
}

/// No lawful drawing has a longer file: 512 wires and 128 components, every label of 16 bytes, and two groups for each number
/// that may have two, the three counts included.
pub fn largest_file() -> Vec<u8> {
    write(&apart([MOST_WIRES / 2, MOST_WIRES / 2, MOST_COMPONENTS]))
}

/// All rows, or cut anywhere, or counts alone.
pub fn by_lot(random: &mut Random) -> Vec<u8> {
    let counts = random.pick(&COUNTS);
    let mut file = write(&apart(counts));
    match random.below(4) {
        0 => {}
        1 => file.truncate(random.below(8)),
        2 => file.truncate(random.below(file.len() + 1)),
        _ => file = counts_alone(counts),
    }
    file
}

/// The counts, without the rows that they tell.
pub fn counts_alone(counts: [usize; 3]) -> Vec<u8> {
    let mut file = Vec::new();
    for count in counts {
        put_number(&mut file, count as u32);
    }
    file
}
