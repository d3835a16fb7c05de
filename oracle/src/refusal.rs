//! Document 01's limits, and the replies that need no look at the drawing: 4, 1, 2, 3 and 5, the first that applies.

use crate::script::{Edit, Pointer};

pub const MOST_WIRES: usize = 512;
pub const MOST_COMPONENTS: usize = 128;
pub const FARTHEST_POINT: i32 = 6000;
pub const FARTHEST_POSITION: i32 = 5800;
const LARGEST_SIZE: i32 = 1000;
pub const LONGEST_LABEL: usize = 16;

pub fn refusal(edit: &Edit) -> Option<u32> {
    match edit {
        Edit::Wire { line, start, end, .. } => refuse_wire(*line, *start, *end),
        Edit::Place { kind, orient, x, y, label } => refuse_place(*kind, *orient, *x, *y, label),
        Edit::Delete(pointer) | Edit::TurnRight(pointer) | Edit::Mirror(pointer) => refuse_pointer(*pointer),
    }
}

fn refuse_wire(line: i32, start: i32, end: i32) -> Option<u32> {
    if [line, start, end].iter().any(|n| n.abs() > FARTHEST_POINT) {
        Some(1)
    } else if start > end {
        Some(2)
    } else {
        None
    }
}

fn refuse_place(kind: i32, orient: i32, x: i32, y: i32, label: &[u8]) -> Option<u32> {
    if !(0..=2).contains(&kind) || !(0..=7).contains(&orient) {
        Some(4)
    } else if x.abs() > FARTHEST_POSITION || y.abs() > FARTHEST_POSITION {
        Some(1)
    } else if label.len() > LONGEST_LABEL || !label.iter().all(|byte| (0x21..=0x7e).contains(byte)) {
        Some(5)
    } else {
        None
    }
}

fn refuse_pointer(pointer: Pointer) -> Option<u32> {
    if pointer.x.abs() > FARTHEST_POINT || pointer.y.abs() > FARTHEST_POINT {
        Some(1)
    } else if !(0..=LARGEST_SIZE).contains(&pointer.size) {
        Some(3)
    } else {
        None
    }
}
