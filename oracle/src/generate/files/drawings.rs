//! The drawings that a script goes through.

use crate::drawing::Drawing;
use crate::generate::{fills_a_drawing, script};
use crate::model::Model;
use crate::rows::Rows;
use crate::script::{read_line, Command};
use random::Random;

/// So many drawings of a script, and fewer of one that fills its drawing: reading a full one takes long.
const DRAWINGS: usize = 100;
const FULL_DRAWINGS: usize = 20;
/// A script's first board has so many lines.
const FIRST_BOARD: usize = 250;

/// The drawings behind lines of the seed's script drawn by lot, half of them early ones, which are small.
pub fn on_the_way(seed: u64, random: &mut Random) -> Vec<Rows> {
    let script = script(seed);
    let count = if fills_a_drawing(seed) { FULL_DRAWINGS } else { DRAWINGS };
    let mut places: Vec<usize> = (0..count).map(|n| place(n, script.len(), random)).collect();
    places.sort_unstable();
    let mut drawing = Model::default();
    let mut done = 0;
    let mut drawings = Vec::new();
    for place in places {
        for line in &script[done..place] {
            if let Command::Edit(edit) = read_line(line) {
                drawing.edit(&edit);
            }
        }
        done = place;
        drawings.push(drawing.rows());
    }
    drawings
}

fn place(n: usize, lines: usize, random: &mut Random) -> usize {
    if n.is_multiple_of(2) {
        let early = 1 + random.below(FIRST_BOARD);
        random.below(early)
    } else {
        random.below(lines + 1)
    }
}
