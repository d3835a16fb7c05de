//! What of document 01's rules is judged once all rows of a file are there: start < end and rules 2 to 7, each in its own words.
//! Rule 6 holds for every file, since joints are counted again.

use crate::model::symbols::{pads, Bounds};
use crate::model::wires::{ends, inside};
use crate::model::Point;
use crate::rows::{Rows, Wire};
use std::collections::BTreeMap;

/// Whether wires and components whose values are in their ranges make a lawful drawing.
pub fn lawful(rows: &Rows) -> bool {
    rows_rise(rows)
        && rows.wires.iter().all(|wire| wire.start < wire.end)
        && no_length_shared(&rows.wires)
        && no_end_or_pad_inside(rows)
        && nothing_to_merge(rows)
        && boxes_apart(rows)
}

/// Rule 7: rows strictly rise, horizontal wires by (y, x1), then vertical by (x, y1); components by (y, x).
fn rows_rise(rows: &Rows) -> bool {
    rows.wires.is_sorted_by(|one, next| key(one) < key(next))
        && rows.components.is_sorted_by(|one, next| (one.y, one.x) < (next.y, next.x))
}

fn key(wire: &Wire) -> (bool, i32, i32) {
    (wire.vertical, wire.line, wire.start)
}

/// Rule 2: no two wires of one direction share a length of line.
fn no_length_shared(wires: &[Wire]) -> bool {
    let share = |one: &Wire, other: &Wire| {
        one.line == other.line && one.vertical == other.vertical && one.start.max(other.start) < one.end.min(other.end)
    };
    no_pair(wires, share)
}

/// Rule 3: no wire end and no pad lies strictly inside a wire.
fn no_end_or_pad_inside(rows: &Rows) -> bool {
    let mut points: Vec<Point> = rows.wires.iter().flat_map(ends).collect();
    points.extend(rows.components.iter().flat_map(pads));
    rows.wires.iter().all(|&wire| !points.iter().any(|&point| inside(wire, point)))
}

/// What meets in a point.
#[derive(Default)]
struct Meeting {
    horizontal_ends: usize,
    vertical_ends: usize,
    pads: usize,
}

/// Rule 4: no point holds exactly two wire ends in line and no pad.
fn nothing_to_merge(rows: &Rows) -> bool {
    let mut meetings: BTreeMap<Point, Meeting> = BTreeMap::new();
    for wire in &rows.wires {
        for end in ends(wire) {
            let meeting = meetings.entry(end).or_default();
            if wire.vertical {
                meeting.vertical_ends += 1;
            } else {
                meeting.horizontal_ends += 1;
            }
        }
    }
    for pad in rows.components.iter().flat_map(pads) {
        meetings.entry(pad).or_default().pads += 1;
    }
    !meetings.values().any(|at| at.pads == 0 && matches!((at.horizontal_ends, at.vertical_ends), (2, 0) | (0, 2)))
}

/// Rule 5: no two component boxes share a point, edges counted.
fn boxes_apart(rows: &Rows) -> bool {
    let boxes: Vec<Bounds> = rows.components.iter().map(Bounds::of).collect();
    no_pair(&boxes, |one, other| one.touches(*other))
}

fn no_pair<T>(items: &[T], bad: impl Fn(&T, &T) -> bool) -> bool {
    (0..items.len()).all(|at| !items[..at].iter().any(|earlier| bad(earlier, &items[at])))
}
