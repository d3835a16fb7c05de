//! A few wires and components on few points: about as often lawful as not, each rule being kept or broken by one row.

use crate::rows::{Component, Rows, Wire};
use random::Random;

const POINTS: [i32; 6] = [-100, -50, 0, 50, 100, 150];
const POSITIONS: [i32; 8] = [-200, -101, -100, 0, 0, 50, 151, 250];

pub fn by_lot(random: &mut Random) -> Rows {
    let wires = (0..random.below(5)).map(|_| wire(random)).collect();
    let components = (0..random.pick(&[0, 0, 1, 1, 2, 3])).map(|_| component(random)).collect();
    let mut rows = Rows { wires, components, joints: Vec::new() };
    if random.percent(95) {
        rows.sort();
    }
    if random.percent(90) {
        rows.wires.dedup();
    }
    rows
}

fn wire(random: &mut Random) -> Wire {
    let (one, other) = (random.pick(&POINTS), random.pick(&POINTS));
    let longer = if one == other && random.percent(90) { 50 } else { 0 };
    Wire {
        vertical: random.percent(50),
        line: random.pick(&POINTS),
        start: one.min(other),
        end: one.max(other) + longer,
    }
}

fn component(random: &mut Random) -> Component {
    let (x, y) = (random.pick(&POSITIONS), random.pick(&POSITIONS));
    let label = random.pick(&["", "K1", "K-16-bytes-long!"]).into();
    Component { y, x, kind: random.below(3), orient: random.below(8), label }
}
