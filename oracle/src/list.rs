//! Document 01's list by a plain search, from a pad along wires to every joint of its net; and the loose pads of document 02.

use crate::orientation::numbered;
use crate::original::kind_numbered;
use crate::rows::{Component, Rows};
use std::collections::HashMap;

type Point = [i32; 2];

/// The number of each pad's net, by component row and then in symbol order.
pub fn nets_of_pads(rows: &Rows) -> Vec<Vec<usize>> {
    let pads: Vec<Vec<Point>> = rows.components.iter().map(pads_of).collect();
    let neighbours = neighbours(rows);
    let mut net_of = HashMap::new();
    for (part, pads) in rows.components.iter().zip(&pads) {
        if part.kind == 0 {
            reach(pads[0], 0, &neighbours, &mut net_of);
        }
    }
    let mut next = 1;
    for &pad in pads.iter().flatten() {
        if !net_of.contains_key(&pad) {
            reach(pad, next, &neighbours, &mut net_of);
            next += 1;
        }
    }
    pads.iter().map(|pads| pads.iter().map(|pad| net_of[pad]).collect()).collect()
}

pub fn pads_of(part: &Component) -> Vec<Point> {
    let pads = kind_numbered(part.kind).pads();
    pads.transform(numbered(part.orient), [part.x, part.y].into()).map(|pad| pad.position.into()).collect()
}

fn neighbours(rows: &Rows) -> HashMap<Point, Vec<Point>> {
    let mut neighbours: HashMap<Point, Vec<Point>> = HashMap::new();
    for wire in &rows.wires {
        let [from, to] = wire.ends();
        neighbours.entry(from).or_default().push(to);
        neighbours.entry(to).or_default().push(from);
    }
    neighbours
}

/// Gives every point that a chain joins with this one the net's number.
fn reach(from: Point, net: usize, neighbours: &HashMap<Point, Vec<Point>>, net_of: &mut HashMap<Point, usize>) {
    let mut waiting = vec![from];
    while let Some(point) = waiting.pop() {
        if net_of.insert(point, net).is_none() {
            waiting.extend(neighbours.get(&point).into_iter().flatten());
        }
    }
}

/// The R and S lines.
pub fn list_of(rows: &Rows) -> Vec<u8> {
    let nets = nets_of_pads(rows);
    let mut out = String::new();
    for (part, nets) in rows.components.iter().zip(&nets).filter(|(part, _)| part.kind == 2) {
        let label = String::from_utf8_lossy(&part.label);
        out += &format!("R N{} {label}.A {label}.B\n", nets[0]);
    }
    for (part, nets) in rows.components.iter().zip(&nets).filter(|(part, _)| part.kind == 1) {
        let label = String::from_utf8_lossy(&part.label);
        let [c, a, b] = nets[..] else { unreachable!("a contact has three pads") };
        out += &format!("S {label}.A N{c} N{a}\nS {label}.B N{c} N{b}\n");
    }
    out.into_bytes()
}

/// The number of loose pads (document 02, P2), by the net numbers: a pad is spare where its number isn't 0 and no other pad has
/// it. A and B of a contact are loose both or neither: each is excused by the other one.
pub fn loose_of(rows: &Rows) -> usize {
    let nets = nets_of_pads(rows);
    let mut pads_on: HashMap<usize, usize> = HashMap::new();
    for &net in nets.iter().flatten() {
        *pads_on.entry(net).or_default() += 1;
    }
    let spare = |net: usize| net != 0 && pads_on[&net] == 1;
    let loose = |(part, nets): (&Component, &Vec<usize>)| match (part.kind, &nets[..]) {
        (1, &[c, a, b]) => usize::from(spare(c)) + if spare(a) && spare(b) { 2 } else { 0 },
        (2, &[net]) => usize::from(spare(net)),
        _ => 0,
    };
    rows.components.iter().zip(&nets).map(loose).sum()
}
