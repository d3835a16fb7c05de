//! Full drawings of other shapes, on which both forms of the check are timed: 512 wires or as many as the shape has, and 128 contacts.

use crate::script::Numbered;

/// A drawing by its edits.
pub struct Shape {
    pub name: &'static str,
    pub edits: Vec<Numbered>,
}

const HORIZONTAL: u8 = 0;
const VERTICAL: u8 = 1;
/// A contact as it is drawn, not turned.
const CONTACT: u8 = 16;
const MOST_WIRES: i32 = 512;

pub fn shapes() -> Vec<Shape> {
    vec![
        shape("wires apart, contacts all over", apart(), all_over()),
        shape("wires on one line each way, contacts all over", lines(), all_over()),
        shape("combs, contacts all over", combs(), all_over()),
        shape("a mesh, contacts all over", mesh(), all_over()),
        shape("a mesh, contacts in two rows", mesh(), two_rows()),
    ]
}

fn shape(name: &'static str, wires: Vec<Numbered>, contacts: Vec<Numbered>) -> Shape {
    Shape { name, edits: contacts.into_iter().chain(wires).collect() }
}

fn wire(what: u8, line: i32, start: i32, end: i32) -> Numbered {
    Numbered { what, numbers: [line, start, end] }
}

fn contact(x: i32, y: i32) -> Numbered {
    Numbered { what: CONTACT, numbers: [x, y, 0] }
}

/// 128 contacts, sixteen to a row, above all wires.
fn all_over() -> Vec<Numbered> {
    (0..128).map(|n| contact(-5700 + 700 * (n % 16), 500 + 600 * (n / 16))).collect()
}

/// 128 contacts in two rows above all wires.
fn two_rows() -> Vec<Numbered> {
    (0..128).map(|n| contact(-5700 + 180 * (n % 64), 500 + 300 * (n / 64))).collect()
}

/// 256 horizontal and 256 vertical wires, no two of which meet: as many joints as a drawing can have.
fn apart() -> Vec<Numbered> {
    let corner = |n: i32| (-5900 + 350 * (n % 32), -5900 + 300 * (n / 32));
    let level = (0..256).map(|n| {
        let (x, y) = corner(n);
        wire(HORIZONTAL, y, x, x + 100)
    });
    let upright = (0..256).map(|n| {
        let (x, y) = corner(n);
        wire(VERTICAL, x + 200, y, y + 100)
    });
    level.chain(upright).collect()
}

/// 256 wires on one horizontal line and 256 on one vertical line, with gaps.
fn lines() -> Vec<Numbered> {
    let level = (0..256).map(|n| wire(HORIZONTAL, -5900, -5800 + 40 * n, -5780 + 40 * n));
    let upright = (0..256).map(|n| wire(VERTICAL, -5950, -5800 + 22 * n, -5790 + 22 * n));
    level.chain(upright).collect()
}

/// Four combs: a back in 64 pieces, and a tooth where two pieces meet and at the last.
fn combs() -> Vec<Numbered> {
    let mut wires = Vec::new();
    for comb in 0..4 {
        let y = -5900 + 600 * comb;
        for n in 0..64 {
            let x = -5800 + 150 * n;
            wires.push(wire(VERTICAL, x + 150, y, y + 200));
            wires.push(wire(HORIZONTAL, y, x, x + 150));
        }
    }
    wires
}

/// Sixteen lines one way and seventeen the other, a wire from each crossing to the next: as few joints as so many wires can have.
fn mesh() -> Vec<Numbered> {
    let place = |n: i32| -5900 + 300 * n;
    let mut wires = Vec::new();
    for a in 0..17 {
        for b in 0..17 {
            if a < 16 && b < 16 {
                wires.push(wire(HORIZONTAL, place(a), place(b), place(b + 1)));
            }
            if a < 15 {
                wires.push(wire(VERTICAL, place(b), place(a), place(a + 1)));
            }
        }
    }
    assert!(wires.len() as i32 <= MOST_WIRES);
    wires
}
