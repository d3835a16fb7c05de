//! Damage to the rows of a drawing. Its file is in order but for the rules of a lawful drawing; now and then these hold too.

use crate::refusal::{FARTHEST_POINT, FARTHEST_POSITION};
use crate::rows::{Component, Rows, Wire};
use random::Random;

/// Two neighbours change places.
pub fn swap(rows: &mut Rows, random: &mut Random) {
    if random.percent(50) && rows.components.len() > 1 {
        let at = random.below(rows.components.len() - 1);
        rows.components.swap(at, at + 1);
    } else if rows.wires.len() > 1 {
        let at = random.below(rows.wires.len() - 1);
        rows.wires.swap(at, at + 1);
    }
}

/// A row stands twice.
pub fn repeat(rows: &mut Rows, random: &mut Random) {
    if random.percent(50) && !rows.components.is_empty() {
        let at = random.below(rows.components.len());
        rows.components.insert(at, rows.components[at].clone());
    } else if !rows.wires.is_empty() {
        let at = random.below(rows.wires.len());
        rows.wires.insert(at, rows.wires[at]);
    }
}

/// A row is missing: what met in its points may now have to merge.
pub fn leave_out(rows: &mut Rows, random: &mut Random) {
    if random.percent(30) && !rows.components.is_empty() {
        rows.components.remove(random.below(rows.components.len()));
    } else if !rows.wires.is_empty() {
        rows.wires.remove(random.below(rows.wires.len()));
    }
}

/// A wire ends where it starts, or before.
pub fn start_at_end(rows: &mut Rows, random: &mut Random) {
    if !rows.wires.is_empty() {
        let at = random.below(rows.wires.len());
        let Wire { start, end, .. } = rows.wires[at];
        rows.wires[at] = match random.below(4) {
            0 => Wire { start: end, ..rows.wires[at] },
            1 => Wire { start: end, end: start, ..rows.wires[at] },
            2 => Wire { end: (start - 1).max(-FARTHEST_POINT), ..rows.wires[at] },
            _ => Wire { end: start, ..rows.wires[at] },
        };
    }
}

/// One more wire that has to do with one that is there.
pub fn add_wire(rows: &mut Rows, random: &mut Random) {
    if !rows.wires.is_empty() {
        let at = random.below(rows.wires.len());
        let beside = beside(rows.wires[at], random);
        rows.wires.push(limited(beside));
        rows.sort();
    }
}

/// In line and overlapping, or touching, or apart; across with an end inside, or touching an end, or crossing.
fn beside(wire: Wire, random: &mut Random) -> Wire {
    let Wire { vertical, line, start, end } = wire;
    let inner = start + (end - start) / 2;
    let step = random.pick(&[1, 50, 100]);
    let across = |along, from, to| Wire { vertical: !vertical, line: along, start: line + from, end: line + to };
    match random.below(9) {
        0 => Wire { start: inner, end: end + step, ..wire },
        1 => Wire { start: end - 1, end: end + step, ..wire },
        2 => Wire { start: end, end: end + step, ..wire },
        3 => Wire { start: end + 1, end: end + 1 + step, ..wire },
        4 => Wire { start: start - step, end: start, ..wire },
        5 => across(inner, 0, step),
        6 => across(start + 1, -step, 0),
        7 => across(inner, -step, step),
        _ => across(end, 0, step),
    }
}

fn limited(wire: Wire) -> Wire {
    let [line, start, end] = [wire.line, wire.start, wire.end].map(|at| at.clamp(-FARTHEST_POINT, FARTHEST_POINT));
    Wire { line, start, end, ..wire }
}

/// A wire is two, in line.
pub fn cut_wire(rows: &mut Rows, random: &mut Random) {
    let long: Vec<usize> = (0..rows.wires.len()).filter(|&at| rows.wires[at].end - rows.wires[at].start > 1).collect();
    if !long.is_empty() {
        let at = random.pick(&long);
        let Wire { start, end, .. } = rows.wires[at];
        let inner = start + 1 + random.below((end - start - 1) as usize) as i32;
        rows.wires[at].end = inner;
        rows.wires.insert(at + 1, Wire { start: inner, end, ..rows.wires[at] });
    }
}

/// A power symbol whose pad lies inside a wire, or at its end.
pub fn pad_on_wire(rows: &mut Rows, random: &mut Random) {
    if !rows.wires.is_empty() {
        let Wire { vertical, line, start, end } = rows.wires[random.below(rows.wires.len())];
        let along = random.pick(&[start, start + 1, start + (end - start) / 2, end - 1, end]);
        let (x, y) = if vertical { (line, along) } else { (along, line) };
        put(rows, x, y, random);
    }
}

/// A component whose box touches that of another, or just does not.
pub fn box_beside_box(rows: &mut Rows, random: &mut Random) {
    if !rows.components.is_empty() {
        let at = random.below(rows.components.len());
        let [right, down] = [0, 1].map(|_| random.pick(&[-201, -200, -101, -100, 0, 0, 100, 101, 151, 200, 201, 251]));
        let (x, y) = (rows.components[at].x + right, rows.components[at].y + down);
        put(rows, x, y, random);
    }
}

fn put(rows: &mut Rows, x: i32, y: i32, random: &mut Random) {
    let [x, y] = [x, y].map(|at| at.clamp(-FARTHEST_POSITION, FARTHEST_POSITION));
    rows.components.push(Component { y, x, kind: 0, orient: random.below(8), label: b"V+".to_vec() });
    rows.sort();
}

/// A component becomes another one.
pub fn other_symbol(rows: &mut Rows, random: &mut Random) {
    if !rows.components.is_empty() {
        let at = random.below(rows.components.len());
        rows.components[at].kind = random.below(3);
        rows.components[at].orient = random.below(8);
    }
}
