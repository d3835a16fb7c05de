//! The Rust's `State` behind document 01's refusals.

use crate::drawing::{Answer, Drawing};
use crate::list::{list_of, loose_of};
use crate::orientation::{number_of, numbered};
use crate::refusal::{refusal, MOST_COMPONENTS, MOST_WIRES};
use crate::rows::{self, Rows};
use crate::schematic::{Component, State, WireH, WireV};
use crate::script::{Edit, Pointer};
use crate::symbol::Kind;
use rstar::{set_order, Order, RTreeObject, AABB};
use serde::RoundTrip;

pub struct Original {
    pub state: State,
}

impl Original {
    /// The empty drawing, whose trees tell their items in this order.
    pub fn new(order: Order) -> Self {
        set_order(order);
        Original { state: State::default() }
    }

    /// How many wires and components it holds.
    pub fn sizes(&self) -> (usize, usize) {
        (self.state.wires_iter(&everywhere()).count(), self.state.components_iter(everywhere()).count())
    }

    /// Whether tree order decides what this turn loses: two contacts hit would touch each other once turned, and neither
    /// is lost anyhow to a component that stays.
    pub fn hangs_on_tree_order(&self, edit: &Edit) -> bool {
        let altered = match edit {
            _ if refusal(edit).is_some() => return false,
            Edit::TurnRight(pointer) => self.altered(*pointer, |part| part.rot_mirror.rotate_r()),
            Edit::Mirror(pointer) => self.altered(*pointer, |part| part.rot_mirror.mirror()),
            _ => return false,
        };
        let boxes: Vec<_> = altered.iter().map(RTreeObject::envelope).collect();
        let touching = |i: usize| boxes[..i].iter().any(|other| other.intersects(&boxes[i]));
        (0..boxes.len()).any(touching)
    }

    /// The lowest row of those components that the Rust finds about the one it turned down.
    fn first_met(&self, position: [i32; 2], kind: i32, orient: i32) -> usize {
        let part =
            Component::new(position.into(), kind_numbered(kind as usize), numbered(orient as usize), String::new());
        let met: Vec<_> = self.state.components_iter(part.envelope()).map(|other| other.position).collect();
        let rows = rows_of(&self.state).components;
        let is_met = |row: &rows::Component| met.iter().any(|at| (at.x, at.y) == (row.x, row.y));
        rows.iter().position(is_met).expect("the Rust turned it down for a component that it has")
    }

    /// The contacts that the square meets, altered, but for those that would touch a component that stays.
    fn altered(&self, pointer: Pointer, turn: impl Fn(&Component) -> crate::schematic::RotMirror) -> Vec<Component> {
        let hit = contacts_hit(&self.state, pointer);
        let stays = |part: &&Component| !hit.contains(part);
        hit.iter()
            .map(|part| Component::new(part.position, part.symbol, turn(part), String::new()))
            .filter(|part| !self.state.components_iter(part.envelope()).any(|other| stays(&other)))
            .collect()
    }
}

impl Drawing for Original {
    /// The Rust has no limits of its own, so it edits a copy, and 7 and 11 are judged on what came out.
    fn edit(&mut self, edit: &Edit) -> Answer {
        if let Some(reply) = refusal(edit) {
            return Answer::reply(reply);
        }
        let mut after = Original { state: self.state.round_trip() };
        let answer = edit_unlimited(&mut after.state, edit);
        if let (6, Edit::Place { kind, orient, x, y, .. }) = (answer.reply, edit) {
            return Answer::touching(self.first_met([*x, *y], *kind, *orient));
        }
        let (wires, components) = after.sizes();
        if components > MOST_COMPONENTS {
            return Answer::reply(7);
        }
        if wires > MOST_WIRES {
            return Answer::reply(11);
        }
        *self = after;
        answer
    }

    fn rows(&self) -> Rows {
        rows_of(&self.state)
    }

    fn list(&self) -> Vec<u8> {
        list_of(&self.rows())
    }

    fn loose(&self) -> usize {
        loose_of(&self.rows())
    }
}

/// The Rust's edit with no refusal before it and no copy: what a timing of the Rust times. 6 where it turns a component
/// down, with no row: the Rust tells none.
pub fn edit_unlimited(state: &mut State, edit: &Edit) -> Answer {
    match *edit {
        Edit::Wire { vertical: false, line, start, end } => state.add_wire(WireH { y: line, x1: start, x2: end }),
        Edit::Wire { vertical: true, line, start, end } => state.add_wire(WireV { x: line, y1: start, y2: end }),
        Edit::Place { kind, orient, x, y, ref label } => {
            let label = String::from_utf8(label.clone()).expect("an accepted label is ASCII");
            let part = Component::new([x, y].into(), kind_numbered(kind as usize), numbered(orient as usize), label);
            if !state.add_component(part) {
                return Answer::reply(6);
            }
        }
        Edit::Delete(Pointer { x, y, size }) => state.delete_at_point([x, y], size),
        Edit::TurnRight(pointer) => return turn(state, pointer, State::rotate_component_at_point),
        Edit::Mirror(pointer) => return turn(state, pointer, State::mirror_component_at_point),
    }
    Answer::reply(0)
}

type Turn = fn(&mut State, nalgebra::Vector2<i32>, i32);

/// The Rust does not tell what it hit, so the contacts are looked for before and after; no two share a position.
fn turn(state: &mut State, pointer: Pointer, turn: Turn) -> Answer {
    let hit = contacts_hit(state, pointer);
    turn(state, [pointer.x, pointer.y].into(), pointer.size);
    let gone = |part: &&Component| !state.components_iter(everywhere()).any(|other| other.position == part.position);
    Answer { hit: hit.len() as u32, lost: hit.iter().filter(gone).count() as u32, ..Answer::default() }
}

fn contacts_hit(state: &State, Pointer { x, y, size }: Pointer) -> Vec<Component> {
    let square = AABB::from_corners([x - size, y - size], [x + size, y + size]);
    state.components_iter(square).filter(|part| part.symbol == Kind::Contact).cloned().collect()
}

pub fn rows_of(state: &State) -> Rows {
    let wires = state.wires_iter(&everywhere()).map(|wire| {
        let vertical = wire.from[0] == wire.to[0];
        let (along, across) = if vertical { (1, 0) } else { (0, 1) };
        rows::Wire { vertical, line: wire.from[across], start: wire.from[along], end: wire.to[along] }
    });
    let joints =
        state.junctions_iter(&everywhere()).map(|(p, count)| rows::Joint { y: p.y, x: p.x, count: count.into() });
    let components = state.components_iter(everywhere()).map(|part| rows::Component {
        y: part.position.y,
        x: part.position.x,
        kind: number_of_kind(part.symbol),
        orient: number_of(part.rot_mirror),
        label: part.label.clone().into_bytes(),
    });
    let mut rows = Rows { wires: wires.collect(), joints: joints.collect(), components: components.collect() };
    rows.sort();
    rows
}

/// A box that meets everything.
pub fn everywhere() -> AABB<[i32; 2]> {
    AABB::from_corners([i32::MIN; 2], [i32::MAX; 2])
}

pub fn kind_numbered(number: usize) -> Kind {
    [Kind::Power, Kind::Contact, Kind::Coil][number]
}

pub fn number_of_kind(kind: Kind) -> usize {
    match kind {
        Kind::Power => 0,
        Kind::Contact => 1,
        Kind::Coil => 2,
    }
}
