//! Turns, boxes and pads as the Rust has them, in the form of the program panel_symbols.

use crate::orientation::{number_of, numbered};
use crate::original::kind_numbered;
use crate::schematic::Component;
use rstar::RTreeObject;
use std::fmt::Write;

const POSITIONS: [[i32; 2]; 6] = [[0, 0], [-5800, -5800], [5800, 5800], [-5800, 5800], [137, -4211], [-7, 9]];

/// The Rust knows no refusals, so these lines are document 01's.
const REFUSED: &str = "\
B 3 0 0 0: 4
P 3 0 0 0: 4
B 0 8 0 0: 4
P 0 8 0 0: 4
B 1 0 5801 0: 1
P 1 0 5801 0: 1
B 1 0 0 -5801: 1
P 1 0 0 -5801: 1
B 9 9 9999 9999: 4
P 9 9 9999 9999: 4
";

pub fn symbols() -> String {
    let mut out = String::new();
    for orient in 0..8 {
        let it = numbered(orient);
        let turned = [it.rotate_r(), it.rotate_l(), it.mirror()].map(number_of);
        put(&mut out, format!("T {orient}"), turned.map(|n| n as i32));
    }
    for kind in 0..3 {
        let turns = kind_numbered(kind).can_rotate();
        assert_eq!(turns, kind_numbered(kind).can_mirror());
        put(&mut out, format!("K {kind}"), [i32::from(turns)]);
    }
    for position in POSITIONS {
        for kind in 0..3 {
            for orient in 0..8 {
                put_symbol(&mut out, kind, orient, position);
            }
        }
    }
    out + REFUSED
}

fn put_symbol(out: &mut String, kind: usize, orient: usize, [x, y]: [i32; 2]) {
    let symbol = kind_numbered(kind);
    let part = Component::new([x, y].into(), symbol, numbered(orient), String::new());
    let aabb = part.envelope();
    put(out, format!("B {kind} {orient} {x} {y}"), [aabb.lower(), aabb.upper()].concat());
    let pads = symbol.pads().transform(part.rot_mirror, part.position).flat_map(|pad| <[i32; 2]>::from(pad.position));
    let count = symbol.pads().len() as i32;
    put(out, format!("P {kind} {orient} {x} {y}"), [count].into_iter().chain(pads));
}

fn put(out: &mut String, head: String, numbers: impl IntoIterator<Item = i32>) {
    write!(out, "{head}:").expect("a string takes all");
    for number in numbers {
        write!(out, " {number}").expect("a string takes all");
    }
    out.push('\n');
}
