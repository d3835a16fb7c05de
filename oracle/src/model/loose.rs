//! Loose pads (document 02, P2): "a pad of a contact or coil that isn't fed and is alone on its net, unless it is A or B of a
//! contact whose other one of the two is on a net with a further pad or fed".

use super::nets::colours;
use super::symbols::pads;
use crate::rows::Rows;

struct Pad {
    kind: usize,
    /// Its place among the pads of its symbol.
    place: usize,
    /// 0 if fed; else that of its net.
    colour: usize,
}

pub fn loose(rows: &Rows) -> usize {
    let colours = colours(rows);
    let mut all = Vec::new();
    for part in &rows.components {
        for (place, point) in pads(part).into_iter().enumerate() {
            all.push(Pad { kind: part.kind, place, colour: colours[&point] });
        }
    }
    (0..all.len()).filter(|&at| is_loose(&all, at)).count()
}

fn is_loose(pads: &[Pad], at: usize) -> bool {
    let further = |at: usize| (0..pads.len()).any(|other| other != at && pads[other].colour == pads[at].colour);
    let connected = |at: usize| pads[at].colour == 0 || further(at);
    let other_of_two = match (pads[at].kind, pads[at].place) {
        (1, 1) => Some(at + 1),
        (1, 2) => Some(at - 1),
        _ => None,
    };
    pads[at].kind != 0 && !connected(at) && !other_of_two.is_some_and(connected)
}
