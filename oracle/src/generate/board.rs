//! Boards: which coordinates, sizes and kinds of line a script draws its lots from.

use super::junk;
use random::Random;

/// How often each kind of line comes, relative to the others.
#[derive(Debug, Clone, Copy)]
pub struct Weights {
    pub wire: usize,
    pub place: usize,
    pub delete: usize,
    pub turn: usize,
    pub mirror: usize,
    pub list: usize,
    pub beyond: usize,
    pub junk: usize,
}

pub struct Board {
    /// Coordinates of wires and of the pointer.
    points: Vec<i32>,
    /// Coordinates of components.
    positions: Vec<i32>,
    sizes: Vec<i32>,
    /// The longest wire, in places of `points`.
    reach: usize,
    pub weights: Weights,
}

const BALANCED: Weights = Weights { wire: 50, place: 18, delete: 12, turn: 6, mirror: 5, list: 3, beyond: 4, junk: 2 };
const FILL_WIRES: Weights = Weights { wire: 90, place: 1, delete: 0, turn: 1, mirror: 1, list: 1, beyond: 1, junk: 1 };
const FILL_COMPONENTS: Weights =
    Weights { wire: 3, place: 90, delete: 0, turn: 2, mirror: 1, list: 1, beyond: 1, junk: 1 };
/// Contacts side by side: turned ones meet others and each other.
const CROWDED: Weights = Weights { wire: 25, place: 40, delete: 5, turn: 14, mirror: 10, list: 2, beyond: 2, junk: 2 };
/// On a full board: little is deleted, so that most edits stand at the limit.
const AT_THE_BRIM: Weights =
    Weights { wire: 45, place: 20, delete: 5, turn: 14, mirror: 8, list: 3, beyond: 1, junk: 1 };

pub fn by_lot(random: &mut Random) -> Board {
    match random.below(8) {
        0 | 1 => coarse(4),
        2 => coarse(8),
        3 => quarters(),
        4 | 5 => crowd(),
        6 => close_calls(),
        _ => edges(),
    }
}

/// The three phases of a full board: one table first, then the other, then edits at the limit.
pub fn filling(random: &mut Random) -> [Weights; 3] {
    if random.percent(50) {
        [FILL_WIRES, FILL_COMPONENTS, AT_THE_BRIM]
    } else {
        [FILL_COMPONENTS, FILL_WIRES, AT_THE_BRIM]
    }
}

fn multiples(of: i32, most: i32) -> Vec<i32> {
    (-most..=most).map(|n| n * of).collect()
}

/// The grid of the configurator: multiples of 50.
fn coarse(most: i32) -> Board {
    Board {
        points: multiples(50, most),
        positions: multiples(50, most),
        sizes: vec![0, 0, 5, 12, 25, 49, 50, 51, 100, 12 * most],
        reach: usize::MAX,
        weights: BALANCED,
    }
}

fn quarters() -> Board {
    Board {
        points: multiples(25, 8),
        positions: multiples(25, 8),
        sizes: vec![0, 0, 6, 12, 25, 26, 50, 75],
        reach: usize::MAX,
        weights: BALANCED,
    }
}

fn crowd() -> Board {
    Board {
        points: multiples(50, 10),
        positions: multiples(50, 10),
        sizes: vec![0, 25, 50, 75, 100],
        reach: 8,
        weights: CROWDED,
    }
}

/// Coordinates on both sides of every pad and edge, one apart.
fn close_calls() -> Board {
    let near = |middles: &[i32]| middles.iter().flat_map(|middle| [middle - 1, *middle, middle + 1]).collect();
    Board {
        points: near(&[-150, -100, -50, 0, 50, 100, 150]),
        positions: near(&[-200, -100, 0, 100, 200]),
        sizes: vec![0, 0, 1, 2, 48, 49, 50, 51],
        reach: 6,
        weights: BALANCED,
    }
}

/// Along the limits of the plane.
fn edges() -> Board {
    let both = |far: &[i32]| far.iter().flat_map(|&n| [-n, n]).collect();
    Board {
        points: both(&[6000, 6000, 5999, 5950, 5900, 5850, 5800, 5750, 5700]),
        positions: both(&[5800, 5800, 5799, 5750, 5700, 5699, 5650]),
        sizes: vec![0, 0, 1, 50, 100, 200, 999, 1000],
        reach: usize::MAX,
        weights: BALANCED,
    }
}

/// Room for more wires and components than a drawing may hold; contacts far enough apart to turn without loss.
pub fn full() -> Board {
    Board {
        points: multiples(50, 36),
        positions: multiples(300, 6),
        sizes: vec![0, 0, 0, 5, 10, 25, 300, 1000],
        reach: 12,
        weights: AT_THE_BRIM,
    }
}

impl Board {
    pub fn line(&self, weights: &Weights, random: &mut Random) -> Vec<u8> {
        let Weights { wire, place, delete, turn, mirror, list, beyond, junk } = *weights;
        let shares = [wire, place, delete, turn, mirror, list, beyond, junk];
        let mut lot = random.below(shares.iter().sum());
        let mut kind = 0;
        while lot >= shares[kind] {
            lot -= shares[kind];
            kind += 1;
        }
        match kind {
            0 => self.wire(random),
            1 => self.place(random),
            2 => self.pointer('d', random),
            3 => self.pointer('r', random),
            4 => self.pointer('m', random),
            5 => "n".to_string(),
            6 => return junk::beyond(&self.plain(random), random),
            _ => return junk::unreadable(&self.plain(random), random),
        }
        .into_bytes()
    }

    /// A line of a kind that has numbers.
    fn plain(&self, random: &mut Random) -> String {
        match random.below(5) {
            0 => self.place(random),
            1 | 2 => self.pointer(random.pick(&['d', 'r', 'm']), random),
            _ => self.wire(random),
        }
    }

    fn wire(&self, random: &mut Random) -> String {
        let letter = random.pick(&['h', 'v']);
        let line = random.pick(&self.points);
        let first = random.below(self.points.len());
        let step = random.below(self.reach.min(self.points.len()));
        let second = (first + step) % self.points.len();
        let (one, other) = (self.points[first], self.points[second]);
        format!("{letter} {line} {} {}", one.min(other), one.max(other))
    }

    fn place(&self, random: &mut Random) -> String {
        // Contacts twice: they have most pads, and only they turn.
        let kind = random.pick(&[0, 1, 1, 2]);
        let orient = random.below(8);
        let (x, y) = (random.pick(&self.positions), random.pick(&self.positions));
        let label = random.pick(&["", " K1", " K2", " K3", " !~", " K-16-bytes-long!"]);
        format!("p {kind} {orient} {x} {y}{label}")
    }

    /// Turns look for contacts where contacts are, and now and then for several.
    fn pointer(&self, letter: char, random: &mut Random) -> String {
        let places = if letter == 'd' { &self.points } else { &self.positions };
        let larger = if letter == 'd' { 1 } else { random.pick(&[1, 1, 4]) };
        let (x, y) = (random.pick(places), random.pick(places));
        format!("{letter} {x} {y} {}", (larger * random.pick(&self.sizes)).min(1000))
    }
}

/// Deletes that leave a board other than the full one empty.
pub fn sweep() -> Vec<Vec<u8>> {
    let corners = [-6000, 6000].map(|x| [-6000, 6000].map(|y| format!("d {x} {y} 1000")));
    corners.into_iter().flatten().chain(["d 0 0 1000".to_string()]).map(String::into_bytes).collect()
}
