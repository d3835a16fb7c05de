//! Document 01 once more, and what document 02 puts in its place, from their words alone and with nothing of the Rust: a drawing
//! is a set of wires and a set of components, joints are counted afresh, and every edit leaves out, splits, puts in and merges.

mod loose;
mod nets;
pub(crate) mod symbols;
pub(crate) mod wires;

use crate::drawing::{Answer, Drawing};
use crate::refusal::{refusal, MOST_COMPONENTS, MOST_WIRES};
use crate::rows::{Component, Joint, Rows, Wire};
use crate::script::{Edit, Pointer};
use std::collections::BTreeMap;
use symbols::{altered, pads, Bounds, Turn};
use wires::{meets, merge, on, split_at};

/// (y, x), so that points rise as joints do.
pub(crate) type Point = (i32, i32);

#[derive(Clone, Default)]
pub struct Model {
    wires: Vec<Wire>,
    components: Vec<Component>,
}

impl Drawing for Model {
    fn edit(&mut self, edit: &Edit) -> Answer {
        if let Some(reply) = refusal(edit) {
            return Answer::reply(reply);
        }
        let mut after = self.clone();
        let answer = after.edit_unlimited(edit);
        if answer.reply != 0 {
            return answer;
        }
        if after.components.len() > MOST_COMPONENTS {
            return Answer::reply(7);
        }
        if after.wires.len() > MOST_WIRES {
            return Answer::reply(11);
        }
        *self = after;
        answer
    }

    fn rows(&self) -> Rows {
        let joints = self.joints().into_iter().map(|((y, x), count)| Joint { y, x, count });
        let mut rows =
            Rows { wires: self.wires.clone(), joints: joints.collect(), components: self.components.clone() };
        rows.sort();
        rows
    }

    fn list(&self) -> Vec<u8> {
        nets::list(&self.rows())
    }

    fn loose(&self) -> usize {
        loose::loose(&self.rows())
    }
}

impl Model {
    /// The drawing of these wires and components, which are lawful.
    pub fn of(wires: Vec<Wire>, components: Vec<Component>) -> Self {
        Model { wires, components }
    }

    fn edit_unlimited(&mut self, edit: &Edit) -> Answer {
        match *edit {
            Edit::Wire { vertical, line, start, end } => self.add_wire(Wire { vertical, line, start, end }),
            Edit::Place { kind, orient, x, y, ref label } => {
                let part = Component { y, x, kind: kind as usize, orient: orient as usize, label: label.clone() };
                if let Some(row) = self.first_touched(&part) {
                    return Answer::touching(row);
                }
                self.place(part);
            }
            Edit::Delete(pointer) => self.delete(pointer),
            Edit::TurnRight(pointer) => return self.turn(pointer, Turn::Right),
            Edit::Mirror(pointer) => return self.turn(pointer, Turn::Mirror),
        }
        Answer::reply(0)
    }

    /// Each point with a wire end or pad, with the number of both.
    fn joints(&self) -> BTreeMap<Point, u32> {
        let mut joints = BTreeMap::new();
        let ends = self.wires.iter().flat_map(wires::ends);
        for point in ends.chain(self.components.iter().flat_map(pads)) {
            *joints.entry(point).or_insert(0) += 1;
        }
        joints
    }

    /// Keep what does not meet the new wire, split at its two ends, put in the run, split it at the standing joints.
    fn add_wire(&mut self, new: Wire) {
        if new.start == new.end {
            return;
        }
        let (met, kept): (Vec<_>, Vec<_>) = self.wires.iter().copied().partition(|&wire| meets(wire, new));
        let start = met.iter().map(|wire| wire.start).fold(new.start, i32::min);
        let end = met.iter().map(|wire| wire.end).fold(new.end, i32::max);
        self.wires = kept;
        for point in wires::ends(&new) {
            split_at(&mut self.wires, point);
        }
        let standing: Vec<Point> = self.joints().into_keys().filter(|&point| on(new, point)).collect();
        self.wires.push(Wire { start, end, ..new });
        for point in standing {
            split_at(&mut self.wires, point);
        }
    }

    /// The row of the first placed component, in row order, whose box shares a point with this one's.
    fn first_touched(&self, part: &Component) -> Option<usize> {
        self.rows().components.iter().position(|other| Bounds::of(other).touches(Bounds::of(part)))
    }

    /// False, and nothing placed, if its box shares a point with a placed one.
    fn place(&mut self, part: Component) -> bool {
        if self.components.iter().any(|other| Bounds::of(other).touches(Bounds::of(&part))) {
            return false;
        }
        for pad in pads(&part) {
            split_at(&mut self.wires, pad);
        }
        self.components.push(part);
        true
    }

    fn delete(&mut self, pointer: Pointer) {
        let square = Bounds::about(pointer);
        self.wires.retain(|&wire| !Bounds::around(wire).touches(square));
        self.components.retain(|part| !Bounds::of(part).touches(square));
        self.merge();
    }

    /// No lawful drawing has a point to merge, so one that has it now fell to two wire ends by this edit.
    fn merge(&mut self) {
        let pads: Vec<Point> = self.components.iter().flat_map(pads).collect();
        merge(&mut self.wires, &pads);
    }

    fn turn(&mut self, pointer: Pointer, turn: Turn) -> Answer {
        let square = Bounds::about(pointer);
        let contact_hit = |part: &Component| part.kind == 1 && Bounds::of(part).touches(square);
        let (mut hit, others): (Vec<_>, Vec<_>) = self.components.drain(..).partition(contact_hit);
        self.components = others;
        self.merge();
        hit.sort();
        let lost = hit.iter().filter(|part| !self.place(altered(part, turn))).count();
        Answer { hit: hit.len() as u32, lost: lost as u32, ..Answer::default() }
    }
}

#[cfg(test)]
mod tests {
    use super::wires::{inside, on};
    use super::Wire;

    #[test]
    fn an_end_is_on_a_wire_but_not_inside() {
        let wire = Wire { vertical: false, line: 0, start: 0, end: 10 };
        assert!(on(wire, (0, 10)) && !inside(wire, (0, 10)) && inside(wire, (0, 9)));
    }
}
