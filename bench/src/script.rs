//! Drawings of a size by seeded edits, and edits to be timed on them.

use oracle::original::{edit_unlimited, everywhere};
use oracle::refusal::{refusal, MOST_COMPONENTS, MOST_WIRES};
use oracle::schematic::State;
use oracle::script::{Edit, Pointer};
use oracle::symbol::Kind;
use random::Random;
use serde::RoundTrip;

/// An edit as the proved calls take it: `crates/bench_calls/specs/Numbered.antt`.
#[derive(Debug, Clone, Copy)]
pub struct Numbered {
    pub what: u8,
    pub numbers: [i32; 3],
}

impl Numbered {
    pub const NONE: Self = Numbered { what: 0, numbers: [0; 3] };
}

pub fn numbered(edit: &Edit) -> Numbered {
    let (what, numbers) = match *edit {
        Edit::Wire { vertical, line, start, end } => (u8::from(vertical), [line, start, end]),
        Edit::Delete(Pointer { x, y, size }) => (2, [x, y, size]),
        Edit::TurnRight(Pointer { x, y, size }) => (3, [x, y, size]),
        Edit::Mirror(Pointer { x, y, size }) => (4, [x, y, size]),
        Edit::Place { kind, orient, x, y, .. } => (8 * (kind as u8 + 1) + orient as u8, [x, y, 0]),
    };
    Numbered { what, numbers }
}

pub fn sizes(state: &State) -> (usize, usize) {
    (state.wires_iter(&everywhere()).count(), state.components_iter(everywhere()).count())
}

/// A drawing of a size: the edits that make it, and the Rust's state after them.
pub struct Board {
    pub edits: Vec<Edit>,
    pub state: State,
    random: Random,
    /// Coordinates of wires go from -reach to reach in steps of 50, those of components in steps of 300.
    reach: i32,
}

/// How far a drawing stays below its size, so that each timed edit finds room.
const SPARE_WIRES: usize = 8;
const SPARE_COMPONENTS: usize = 1;

impl Board {
    /// As crowded at every size: the board grows as its wires do.
    pub fn new(wires: usize, seed: u64) -> Self {
        let reach = (36.0 * (wires as f64 / MOST_WIRES as f64).sqrt()).round() as i32 * 50;
        let mut board = Board { edits: Vec::new(), state: State::default(), random: Random(seed), reach };
        let components = wires * MOST_COMPONENTS / MOST_WIRES - SPARE_COMPONENTS;
        while sizes(&board.state).1 < components {
            let edit = board.place();
            board.perform(edit, wires - SPARE_WIRES);
        }
        while sizes(&board.state).0 < wires - SPARE_WIRES {
            let edit = board.wire();
            board.perform(edit, wires - SPARE_WIRES);
        }
        board
    }

    /// Keeps the edit if it is accepted and leaves at most so many wires.
    fn perform(&mut self, edit: Edit, most: usize) {
        if let Some(after) = self.after(&edit) {
            if sizes(&after).0 <= most {
                self.state = after;
                self.edits.push(edit);
            }
        }
    }

    /// The state after the edit, if it is accepted.
    pub fn after(&self, edit: &Edit) -> Option<State> {
        let mut after = self.state.round_trip();
        let accepted = refusal(edit).is_none() && edit_unlimited(&mut after, edit).reply == 0;
        let (wires, components) = sizes(&after);
        (accepted && wires <= MOST_WIRES && components <= MOST_COMPONENTS).then_some(after)
    }

    fn coordinate(&mut self, step: i32) -> i32 {
        let places = self.reach / step;
        (self.random.below(2 * places as usize + 1) as i32 - places) * step
    }

    fn wire(&mut self) -> Edit {
        let vertical = self.random.percent(50);
        let (line, start) = (self.coordinate(50), self.coordinate(50));
        let end = (start + 50 * (1 + self.random.below(12) as i32)).min(self.reach);
        Edit::Wire { vertical, line, start, end }
    }

    fn place(&mut self) -> Edit {
        // Contacts twice: they have most pads, and only they turn.
        let kind = self.random.pick(&[0, 1, 1, 2]);
        let orient = self.random.below(8) as i32;
        let (x, y) = (self.coordinate(300), self.coordinate(300));
        Edit::Place { kind, orient, x, y, label: b"K".to_vec() }
    }

    /// The middle of a wire by lot.
    fn delete(&mut self) -> Edit {
        let wires: Vec<_> = self.state.wires_iter(&everywhere()).copied().collect();
        let wire = self.random.pick(&wires);
        let size = self.random.pick(&[0, 5, 25]);
        Edit::Delete(Pointer { x: (wire.from[0] + wire.to[0]) / 2, y: (wire.from[1] + wire.to[1]) / 2, size })
    }

    /// The position of a contact by lot.
    fn contact(&mut self) -> Pointer {
        let contacts: Vec<_> = self
            .state
            .components_iter(everywhere())
            .filter(|part| part.symbol == Kind::Contact)
            .map(|part| part.position)
            .collect();
        let at = self.random.pick(&contacts);
        Pointer { x: at.x, y: at.y, size: 0 }
    }

    /// So many edits of a kind that are accepted.
    pub fn edits_of(&mut self, kind: EditKind, count: usize) -> Vec<Edit> {
        let mut edits = Vec::new();
        while edits.len() < count {
            let edit = match kind {
                EditKind::Wire => self.wire(),
                EditKind::Place => self.place(),
                EditKind::Delete => self.delete(),
                EditKind::TurnRight => Edit::TurnRight(self.contact()),
                EditKind::Mirror => Edit::Mirror(self.contact()),
            };
            if self.after(&edit).is_some() {
                edits.push(edit);
            }
        }
        edits
    }
}

#[derive(Debug, Clone, Copy, PartialEq, Eq)]
pub enum EditKind {
    Wire,
    Place,
    Delete,
    TurnRight,
    Mirror,
}
