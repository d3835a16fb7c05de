//! The Rust's orientations, shapes and constants in the forms that the programs print.

use oracle::orientation::{number_of, numbered};
use oracle::shapes::{constants, shapes};
use oracle::symbols::symbols;

/// Document 01's list of the eight.
const EIGHT: [[i32; 4]; 8] = [
    [1, 0, 0, 1],
    [0, -1, 1, 0],
    [-1, 0, 0, -1],
    [0, 1, -1, 0],
    [-1, 0, 0, 1],
    [0, -1, -1, 0],
    [1, 0, 0, -1],
    [0, 1, 1, 0],
];

#[test]
fn orientations_have_document_01s_numbers() {
    for (number, [a, b, c, d]) in EIGHT.into_iter().enumerate() {
        let it = numbered(number);
        assert_eq!(it.apply([1, 0].into()), [a, c].into());
        assert_eq!(it.apply([0, 1].into()), [b, d].into());
        assert_eq!(number_of(it), number);
    }
}

#[test]
fn boxes_and_pads_of_a_plain_contact() {
    let printed = symbols();
    assert!(printed.contains("\nB 1 0 0 0: -50 -100 50 100\nP 1 0 0 0: 3 0 -100 -50 100 50 100\n"));
    assert_eq!(printed.lines().count(), 8 + 3 + 6 * 3 * 8 * 2 + 10);
}

#[test]
fn shapes_at_the_origin() {
    let printed = shapes();
    for line in [
        "S 0 0 0 0 L 00000000 c2c80000 00000000 00000000 40c00000",
        "S 0 0 0 3 N",
        "J 1 C 00000000 00000000 41200000 3f800000",
    ] {
        assert!(printed.lines().any(|other| other == line), "{line}");
    }
}

#[test]
fn no_printed_coordinate_is_a_negative_zero() {
    for line in shapes().lines().filter(|line| !line.starts_with('P')) {
        assert!(line.split(' ').all(|word| word != "80000000"), "{line}");
    }
}

#[test]
fn constants_built_with_a_square_root() {
    let bits: Vec<String> = constants().lines().map(|line| line[..8].to_string()).collect();
    assert_eq!(bits, ["41e6f0ab", "43075af8", "404959c6", "c22207fa", "420b3ff7", "425c2294"]);
}
