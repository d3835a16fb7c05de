//! The bits of every shape as the Rust draws it, in the form of the program panel_shapes.
//!
//! Symbols come through the Rust's own lists and its `Draw::transform`. Wire and joint marks are those of cad.rs, which
//! needs a browser and so was read, not run.

use crate::orientation::numbered;
use crate::symbol::{coil, contact, power, Draw};
use nalgebra::{convert, Vector2};
use std::fmt::Write;

const POSITIONS: i32 = 600;
/// Positions whose shapes are printed in full, not by their hash alone.
const IN_FULL: [i32; 2] = [4, 6];
/// Asked for at each symbol: one place past the last shape of a contact or coil.
const PLACES: usize = 8;

pub fn shapes() -> String {
    let mut out = String::new();
    for place in 0..POSITIONS {
        let at = position(place);
        let symbols = [0, 1, 2].map(|kind| shapes_of_kind(kind, at));
        let wires = wire_marks(at);
        let joints = joint_marks(at);
        write!(out, "P {:+05} {:+05}", at.x, at.y).expect("a string takes all");
        for shapes in symbols.iter().chain([&wires, &joints]) {
            write!(out, " {:08x}", hash(shapes)).expect("a string takes all");
        }
        out.push('\n');
        if IN_FULL.contains(&place) {
            for (kind, shapes) in symbols.iter().enumerate() {
                put_symbols(&mut out, kind, shapes);
            }
            put_marks(&mut out, 'W', &wires);
            put_marks(&mut out, 'J', &joints);
        }
    }
    out
}

/// The four corners, then points spread over the square by two strides.
fn position(place: i32) -> Vector2<i32> {
    if place < 4 {
        return Vector2::new(place % 2 * 11600 - 5800, place / 2 * 11600 - 5800);
    }
    let spread = |stride: i32| ((place - 4) * stride + 5800) % 11601 - 5800;
    Vector2::new(spread(7919), spread(4211))
}

/// No shape is `None`.
type Shape = Option<Draw>;

/// Orientations outermost, then the four states, then the places.
fn shapes_of_kind(kind: usize, at: Vector2<i32>) -> Vec<Shape> {
    let mut shapes = Vec::new();
    for orient in 0..8 {
        for state in 0..4 {
            let mut drawn = drawn(kind, state % 2 == 1, state / 2 == 1).into_iter();
            shapes.extend((0..PLACES).map(|_| drawn.next().map(|draw| draw.transform(numbered(orient), at))));
        }
    }
    shapes
}

fn drawn(kind: usize, a: bool, b: bool) -> Vec<Draw> {
    match kind {
        0 => power::DRAW.clone(),
        1 => contact::draw(a, b).collect(),
        _ => coil::draw(a).collect(),
    }
}

/// As `wire` in cad.rs: to the right edge, from the upper edge, and to itself.
fn wire_marks(at: Vector2<i32>) -> Vec<Shape> {
    let lines = [(at, Vector2::new(6000, at.y)), (Vector2::new(at.x, -6000), at), (at, at)];
    lines.map(|(from, to)| Some(Draw::Line(convert(from), convert(to), 6.))).to_vec()
}

/// As `junction` in cad.rs, for the counts 0 to 4.
fn joint_marks(at: Vector2<i32>) -> Vec<Shape> {
    let p = convert(at);
    let mark = |count: u8| match count {
        3.. => Some(Draw::Line(p, p, 40.)),
        1 => Some(Draw::Circle(p, 10., 1.)),
        _ => None,
    };
    (0..5).map(mark).collect()
}

/// The floats of a shape as bits, in the order of its fields.
fn bits(shape: &Draw) -> Vec<u32> {
    let floats = match *shape {
        Draw::Line(p, q, width) => vec![p.x, p.y, q.x, q.y, width],
        Draw::Circle(p, radius, width) => vec![p.x, p.y, radius, width],
    };
    floats.into_iter().map(f32::to_bits).collect()
}

/// A letter, or a number for the hash, tells what follows.
fn tag(shape: &Shape) -> (char, u64) {
    match shape {
        Some(Draw::Line(..)) => ('L', 1),
        Some(Draw::Circle(..)) => ('C', 2),
        None => ('N', 3),
    }
}

fn hash(shapes: &[Shape]) -> u64 {
    let words = shapes.iter().flat_map(|shape| {
        let bits = shape.iter().flat_map(bits).map(u64::from);
        std::iter::once(tag(shape).1).chain(bits)
    });
    words.fold(7, |hash, word| (hash * 16777619 + word + 1) % 4294967291)
}

fn put_symbols(out: &mut String, kind: usize, shapes: &[Shape]) {
    for (at, shape) in shapes.iter().enumerate() {
        let (orient, state, place) = (at / (4 * PLACES), at / PLACES % 4, at % PLACES);
        write!(out, "S {kind} {orient} {state} {place} ").expect("a string takes all");
        put_shape(out, shape);
    }
}

fn put_marks(out: &mut String, letter: char, shapes: &[Shape]) {
    for (at, shape) in shapes.iter().enumerate() {
        write!(out, "{letter} {at} ").expect("a string takes all");
        put_shape(out, shape);
    }
}

fn put_shape(out: &mut String, shape: &Shape) {
    out.push(tag(shape).0);
    for word in shape.iter().flat_map(bits) {
        write!(out, " {word:08x}").expect("a string takes all");
    }
    out.push('\n');
}

/// The constants that the Rust builds with a square root: a name and the bits of the f32.
pub fn constants() -> String {
    let line = |draw: &Draw| match *draw {
        Draw::Line(p, q, _) => [p, q],
        Draw::Circle(..) => unreachable!("these shapes are lines"),
    };
    let [_, arrow] = line(&power::DRAW[2]);
    let [_, tip] = line(&coil::draw(false).nth(4).expect("a coil has seven shapes"));
    // A contact whose A is off and B is on: its moving contact lies at B.
    let [s, e] = line(&contact::draw(false, true).nth(6).expect("a contact has seven shapes"));
    let named = [
        ("power: x of the arrow's right end, 1/√3·50", arrow.x),
        ("coil: y of the tip, 1/√2·50+100", tip.y),
        ("contact: x of the moving contact's start", s.x),
        ("contact: y of the moving contact's start", s.y),
        ("contact: x of the moving contact's end", e.x),
        ("contact: y of the moving contact's end", e.y),
    ];
    named.map(|(name, value)| format!("{:08x} {name}\n", value.to_bits())).concat()
}
