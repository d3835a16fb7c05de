//! Wires as a set: meeting, splitting, merging.

use super::Point;
use crate::rows::Wire;
use std::collections::BTreeMap;

pub fn ends(wire: &Wire) -> [Point; 2] {
    [point_of(wire, wire.start), point_of(wire, wire.end)]
}

pub fn point_of(wire: &Wire, along: i32) -> Point {
    if wire.vertical {
        (along, wire.line)
    } else {
        (wire.line, along)
    }
}

/// The point's place along the wire's line, if it lies on that line.
fn along(wire: Wire, (y, x): Point) -> Option<i32> {
    let (along, across) = if wire.vertical { (y, x) } else { (x, y) };
    (across == wire.line).then_some(along)
}

pub fn on(wire: Wire, point: Point) -> bool {
    along(wire, point).is_some_and(|at| wire.start <= at && at <= wire.end)
}

/// Strictly inside.
pub fn inside(wire: Wire, point: Point) -> bool {
    along(wire, point).is_some_and(|at| wire.start < at && at < wire.end)
}

/// Wires of one direction meet where they share a point, an end touch included.
pub fn meets(one: Wire, other: Wire) -> bool {
    one.vertical == other.vertical && one.line == other.line && one.start <= other.end && other.start <= one.end
}

/// Splits each wire that has the point strictly inside.
pub fn split_at(wires: &mut Vec<Wire>, point: Point) {
    for i in 0..wires.len() {
        if inside(wires[i], point) {
            let at = along(wires[i], point).expect("a point inside a wire is on its line");
            wires.push(Wire { start: at, ..wires[i] });
            wires[i].end = at;
        }
    }
}

/// Where exactly two wire ends in line meet without a pad, the two become one wire, until no such point is left.
pub fn merge(wires: &mut Vec<Wire>, pads: &[Point]) {
    while let Some((first, second)) = two_in_line(wires, pads) {
        let (start, end) = (wires[first].start.min(wires[second].start), wires[first].end.max(wires[second].end));
        wires[first] = Wire { start, end, ..wires[first] };
        wires.remove(second);
    }
}

/// The places of two wires to merge, the lower first.
fn two_in_line(wires: &[Wire], pads: &[Point]) -> Option<(usize, usize)> {
    let mut ending: BTreeMap<Point, Vec<usize>> = BTreeMap::new();
    for (i, wire) in wires.iter().enumerate() {
        for end in ends(wire) {
            ending.entry(end).or_default().push(i);
        }
    }
    ending.into_iter().find_map(|(point, there)| match there[..] {
        [one, other] if wires[one].vertical == wires[other].vertical && !pads.contains(&point) => Some((one, other)),
        _ => None,
    })
}
