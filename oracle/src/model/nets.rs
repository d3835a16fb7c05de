//! Nets by colours: each joint its own, a wire gives both its ends the smaller of their two, until nothing alters.

use super::symbols::pads;
use super::{wires, Point};
use crate::rows::Rows;
use std::collections::HashMap;

/// The R and S lines of the list.
pub fn list(rows: &Rows) -> Vec<u8> {
    let colours = colours(rows);
    let mut number_of = HashMap::from([(0, 0)]);
    let (mut relays, mut switches) = (Vec::new(), Vec::new());
    for part in &rows.components {
        let mut nets = Vec::new();
        for pad in pads(part) {
            let next = number_of.len();
            nets.push(*number_of.entry(colours[&pad]).or_insert(next));
        }
        let label: String = part.label.iter().map(|&byte| byte as char).collect();
        match part.kind {
            1 => {
                switches.extend(format!("S {label}.A N{} N{}\n", nets[0], nets[1]).bytes());
                switches.extend(format!("S {label}.B N{} N{}\n", nets[0], nets[2]).bytes());
            }
            2 => relays.extend(format!("R N{} {label}.A {label}.B\n", nets[0]).bytes()),
            _ => {}
        }
    }
    relays.extend(switches);
    relays
}

/// Colour 0 at each power pad, another one at each other joint, spread along the wires.
pub fn colours(rows: &Rows) -> HashMap<Point, usize> {
    let mut colours: HashMap<Point, usize> =
        rows.joints.iter().enumerate().map(|(row, joint)| ((joint.y, joint.x), row + 1)).collect();
    for part in rows.components.iter().filter(|part| part.kind == 0) {
        colours.insert(pads(part)[0], 0);
    }
    let mut altered = true;
    while altered {
        altered = false;
        for [from, to] in rows.wires.iter().map(wires::ends) {
            let smaller = colours[&from].min(colours[&to]);
            for end in [from, to] {
                altered |= colours.insert(end, smaller) != Some(smaller);
            }
        }
    }
    colours
}
