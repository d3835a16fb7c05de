//! Orientations, boxes and pads as document 01 numbers them.

use super::Point;
use crate::rows::{Component, Wire};
use crate::script::Pointer;

type Orientation = (i32, i32, i32, i32);

const EIGHT: [Orientation; 8] = [
    (1, 0, 0, 1),
    (0, -1, 1, 0),
    (-1, 0, 0, -1),
    (0, 1, -1, 0),
    (-1, 0, 0, 1),
    (0, -1, -1, 0),
    (1, 0, 0, -1),
    (0, 1, 1, 0),
];

/// Low and high corner of Power, Contact, Coil, as (x, y).
const BOXES: [[(i32, i32); 2]; 3] = [[(-50, -100), (50, 0)], [(-50, -100), (50, 100)], [(-50, -100), (50, 150)]];

/// V+; C, A, B; N.
const PADS: [&[(i32, i32)]; 3] = [&[(0, 0)], &[(0, -100), (-50, 100), (50, 100)], &[(0, -100)]];

/// Where a symbol's point (x, y) lies in the drawing.
fn laid(part: &Component, (x, y): (i32, i32)) -> Point {
    let (a, b, c, d) = EIGHT[part.orient];
    (c * x + d * y + part.y, a * x + b * y + part.x)
}

pub fn pads(part: &Component) -> Vec<Point> {
    PADS[part.kind].iter().map(|&pad| laid(part, pad)).collect()
}

#[derive(Debug, Clone, Copy)]
pub enum Turn {
    Right,
    Mirror,
}

pub fn altered(part: &Component, turn: Turn) -> Component {
    let (a, b, c, d) = EIGHT[part.orient];
    let turned = match turn {
        Turn::Right => (-c, -d, a, b),
        Turn::Mirror => (-a, -b, c, d),
    };
    let orient = EIGHT.iter().position(|&other| other == turned).expect("the eight turn into each other");
    Component { orient, ..part.clone() }
}

/// A rectangle with its edges.
#[derive(Debug, Clone, Copy)]
pub struct Bounds {
    low: Point,
    high: Point,
}

impl Bounds {
    pub fn of(part: &Component) -> Self {
        let [p, q] = BOXES[part.kind].map(|corner| laid(part, corner));
        Bounds { low: (p.0.min(q.0), p.1.min(q.1)), high: (p.0.max(q.0), p.1.max(q.1)) }
    }

    pub fn around(wire: Wire) -> Self {
        let [low, high] = super::wires::ends(&wire);
        Bounds { low, high }
    }

    pub fn about(Pointer { x, y, size }: Pointer) -> Self {
        Bounds { low: (y - size, x - size), high: (y + size, x + size) }
    }

    pub fn touches(self, other: Self) -> bool {
        self.low.0 <= other.high.0
            && other.low.0 <= self.high.0
            && self.low.1 <= other.high.1
            && other.low.1 <= self.high.1
    }
}
