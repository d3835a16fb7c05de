//! Files by lot from a seed: those of the drawings that a script goes through, and damaged ones.

mod bytes;
mod chosen;
mod damage;
mod drawings;
mod few;
mod fields;
mod rooms;
mod table;
mod values;

pub use chosen::chosen;
pub use rooms::largest_file;

use crate::file::write;
use crate::rows::Rows;
use random::Random;

/// How many files each drawing of a script gives, the whole one among them.
const FILES_EACH: usize = 10;

/// The chosen files, and behind them those of rising seeds without end.
pub fn files(first_seed: u64) -> impl Iterator<Item = Vec<u8>> {
    chosen().into_iter().chain((first_seed..).flat_map(by_lot))
}

/// The files of one seed.
pub fn by_lot(seed: u64) -> Vec<Vec<u8>> {
    let mut random = Random(seed.wrapping_mul(0xd134_2543_de82_ef95));
    let mut files = Vec::new();
    for rows in drawings::on_the_way(seed, &mut random) {
        files.push(write(&rows));
        files.extend((1..FILES_EACH).map(|_| one_by_lot(&rows, &mut random)));
    }
    files
}

fn one_by_lot(rows: &Rows, random: &mut Random) -> Vec<u8> {
    match random.below(100) {
        0..3 => bytes::by_lot(random),
        3..5 => rooms::by_lot(random),
        5..17 => write(&few::by_lot(random)),
        17..20 => damage::damaged(&few::by_lot(random), random),
        _ => damage::damaged(rows, random),
    }
}
