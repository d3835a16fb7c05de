//! Recorded runs of the programs that save and open drawings.

use super::DROP_POINT;
use crate::file::{opened, put_frame, saved};
use crate::generate::files::{by_lot, chosen};
use crate::script::lines;

const SEED: u64 = 1941;
/// So many files by lot behind the chosen ones, none longer than this.
const FILES_BY_LOT: usize = 60;
const LONGEST_BY_LOT: usize = 500;

/// Lines that a drawing refuses or nobody can read, one between each two of the drop point.
const REFUSED: [&[u8]; 12] = [
    b"h 6001 0 9",
    b"v 0 9 8",
    b"p 3 0 0 0 K9",
    b"p 1 0 5801 0 K9",
    b"",
    b"p 1 0 200 200 K9",
    b"p 1 0 3000 3000 K 9",
    b"d 0 0 1001",
    b"x 1 2 3",
    b"r 6001 0 0",
    b"h 0 0 0 ",
    b"p 1 0 3000 3000 a-label-of-17-byt ...........................................................",
];

/// Frames, and what panel_files prints for them.
pub fn record_files() -> (Vec<u8>, Vec<u8>) {
    let short = by_lot(SEED).into_iter().filter(|file| file.len() <= LONGEST_BY_LOT);
    // Every thirteenth, so that they are of many drawings.
    let by_lot = short.step_by(13).take(FILES_BY_LOT);
    let (mut input, mut printed) = (Vec::new(), Vec::new());
    for file in chosen().into_iter().chain(by_lot) {
        put_frame(&mut input, &file);
        printed.extend(opened(&file));
    }
    (input, printed)
}

/// The drop point with lines between its own that alter nothing, the last without its newline, and its file.
pub fn record_save() -> (Vec<u8>, Vec<u8>) {
    let mut script = Vec::new();
    for (place, line) in lines(DROP_POINT).enumerate() {
        script.push(line);
        script.extend(REFUSED.get(place));
    }
    let script = script.join(&b'\n');
    let file = saved(&script).file;
    (script, file)
}

/// The drop point's file, and what panel_open prints for it.
pub fn record_open() -> (Vec<u8>, Vec<u8>) {
    let file = saved(DROP_POINT).file;
    let printed = opened(&file);
    (file, printed)
}
