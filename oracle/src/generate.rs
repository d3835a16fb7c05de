//! Random scripts from a seed, on boards where edits meet: few coordinates, so that ends, pads, lines and boxes coincide.

mod board;
pub mod files;
mod junk;
mod writing;

use random::Random;

/// The lines of a script without their newlines.
pub type Script = Vec<Vec<u8>>;

/// The bytes of a script, each line with its newline.
pub fn bytes_of(script: &[Vec<u8>]) -> Vec<u8> {
    script.iter().flat_map(|line| line.iter().copied().chain([b'\n'])).collect()
}

/// How many lines a script has at least. Long enough that starting a program for it costs little.
const LINES: usize = 1500;
/// One script in so many fills a drawing to its limits.
const FULL_SHARE: u64 = 40;

/// The script of this seed: boards by lot, each swept before the next, or one full board.
pub fn script(seed: u64) -> Script {
    let mut random = Random(seed.wrapping_mul(0x2545_f491_4f6c_dd1d));
    let mut script = Vec::new();
    while script.len() < LINES {
        if fills_a_drawing(seed) {
            full_board(&mut script, &mut random);
        } else {
            small_board(&mut script, 250, &mut random);
        }
    }
    writing::rewrite_numbers(&mut script, seed);
    script
}

/// Whether this seed's script fills a drawing to its limits.
fn fills_a_drawing(seed: u64) -> bool {
    seed.is_multiple_of(FULL_SHARE)
}

/// A script of about so many lines for a recorded sample: short rounds, so that the rows behind every edit stay few.
pub fn sample(seed: u64, lines: usize) -> Script {
    let mut random = Random(seed);
    let mut script = Vec::new();
    while script.len() < lines {
        small_board(&mut script, 50, &mut random);
    }
    writing::rewrite_numbers(&mut script, seed);
    script
}

/// A script that fills a drawing to its limits.
pub fn full_sample(seed: u64) -> Script {
    let mut script = Vec::new();
    full_board(&mut script, &mut Random(seed));
    writing::rewrite_numbers(&mut script, seed);
    script
}

fn small_board(script: &mut Script, lines: usize, random: &mut Random) {
    let board = board::by_lot(random);
    script.extend((0..lines).map(|_| board.line(&board.weights, random)));
    script.extend(board::sweep());
}

fn full_board(script: &mut Script, random: &mut Random) {
    let board = board::full();
    for weights in board::filling(random) {
        script.extend((0..500).map(|_| board.line(&weights, random)));
    }
}
