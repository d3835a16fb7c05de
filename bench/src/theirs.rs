//! The Rust, timed: `State` as published, over lists that stand in for its trees.

use crate::clock::{timed, timed_nothing};
use batches::{time_of_one, FEWEST};
use oracle::orientation::numbered;
use oracle::original::kind_numbered;
use oracle::schematic::{Component, State, WireH, WireV};
use oracle::script::{Edit, Pointer};
use serde::RoundTrip;
use std::hint::black_box;

/// The Rust's own call and nothing else.
fn edit(state: &mut State, edit: Prepared) {
    match edit {
        Prepared::H(wire) => state.add_wire(wire),
        Prepared::V(wire) => state.add_wire(wire),
        Prepared::Place(part) => drop(black_box(state.add_component(part))),
        Prepared::Delete(Pointer { x, y, size }) => state.delete_at_point([x, y], size),
        Prepared::TurnRight(Pointer { x, y, size }) => state.rotate_component_at_point([x, y].into(), size),
        Prepared::Mirror(Pointer { x, y, size }) => state.mirror_component_at_point([x, y].into(), size),
    }
}

/// An edit with what the Rust takes by value made already.
#[derive(Clone)]
enum Prepared {
    H(WireH),
    V(WireV),
    Place(Component),
    Delete(Pointer),
    TurnRight(Pointer),
    Mirror(Pointer),
}

fn prepared(edit: &Edit) -> Prepared {
    match *edit {
        Edit::Wire { vertical: false, line, start, end } => Prepared::H(WireH { y: line, x1: start, x2: end }),
        Edit::Wire { vertical: true, line, start, end } => Prepared::V(WireV { x: line, y1: start, y2: end }),
        Edit::Place { kind, orient, x, y, ref label } => Prepared::Place(Component::new(
            [x, y].into(),
            kind_numbered(kind as usize),
            numbered(orient as usize),
            String::from_utf8_lossy(label).into_owned(),
        )),
        Edit::Delete(pointer) => Prepared::Delete(pointer),
        Edit::TurnRight(pointer) => Prepared::TurnRight(pointer),
        Edit::Mirror(pointer) => Prepared::Mirror(pointer),
    }
}

/// A copy with room to grow, as a state has that was edited before: something far away was put in and taken out again.
fn copy(state: &State) -> State {
    let mut copy = state.round_trip();
    copy.add_wire(WireH { y: 5000, x1: 5000, x2: 5050 });
    copy.add_component(Component::new([4000, 4000].into(), kind_numbered(1), numbered(0), String::new()));
    copy.delete_at_point([5025, 5000], 5);
    copy.delete_at_point([4000, 4000], 5);
    copy
}

/// Nanoseconds of one edit, by batches that last at least so long.
pub fn time_edit(state: &State, asked: &Edit, enough: f64) -> f64 {
    let asked = prepared(asked);
    let looking = timed_nothing();
    time_of_one(enough, |calls| (0..calls / FEWEST).map(|_| edit_copies(state, &asked) - looking).sum())
}

/// Nanoseconds of the edit on a few copies, one behind the other. The clock stands still while they are made, and they are
/// few, so that they stay in the processor's caches as our one drawing does.
fn edit_copies(state: &State, asked: &Prepared) -> f64 {
    let mut copies: Vec<_> = (0..FEWEST).map(|_| (copy(state), asked.clone())).collect();
    let (time, ()) = timed(|| {
        for (state, asked) in copies.iter_mut() {
            edit(state, std::mem::replace(asked, Prepared::Delete(Pointer { x: 0, y: 0, size: 0 })));
        }
    });
    black_box(copies);
    time
}

/// Nanoseconds of one look at the state, by batches that last at least so long.
pub fn time_look<T>(state: &State, enough: f64, look: impl Fn(&State) -> T) -> f64 {
    time_of_one(enough, |calls| timed(|| (0..calls).for_each(|_| drop(black_box(look(black_box(state)))))).0)
}
