//! The file of a drawing.

use super::{put_number, STORED_PLUS};
use crate::rows::{Component, Rows, Wire};

/// The file of these rows in the order in which they stand, horizontal wires first, whether they are a lawful drawing or not.
/// Joints aren't stored.
pub fn write(rows: &Rows) -> Vec<u8> {
    let mut out = Vec::new();
    for vertical in [false, true] {
        let wires: Vec<_> = rows.wires.iter().filter(|wire| wire.vertical == vertical).collect();
        put_number(&mut out, wires.len() as u32);
        for Wire { line, start, end, .. } in wires {
            for &at in [line, start, end] {
                put_coordinate(&mut out, at);
            }
        }
    }
    put_number(&mut out, rows.components.len() as u32);
    for part in &rows.components {
        put_component(&mut out, part);
    }
    out
}

fn put_component(out: &mut Vec<u8>, part: &Component) {
    put_number(out, part.kind as u32);
    put_number(out, part.orient as u32);
    put_coordinate(out, part.x);
    put_coordinate(out, part.y);
    put_number(out, part.label.len() as u32);
    out.extend_from_slice(&part.label);
}

fn put_coordinate(out: &mut Vec<u8>, at: i32) {
    put_number(out, (at + STORED_PLUS) as u32);
}
