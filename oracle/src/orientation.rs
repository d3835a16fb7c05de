//! Document 01's numbers 0 to 7 for the Rust's `RotMirror`, whose own numbers are private: 0 is the default, 4 its
//! mirror image, and each next one is the one before, turned right.

use crate::schematic::RotMirror;
use std::sync::LazyLock;

static EIGHT: LazyLock<[RotMirror; 8]> = LazyLock::new(|| {
    let plain = RotMirror::default();
    let mut eight = [plain; 8];
    eight[4] = plain.mirror();
    for next in [1, 2, 3, 5, 6, 7] {
        eight[next] = eight[next - 1].rotate_r();
    }
    eight
});

pub fn numbered(number: usize) -> RotMirror {
    EIGHT[number]
}

pub fn number_of(rot_mirror: RotMirror) -> usize {
    EIGHT.iter().position(|&other| other == rot_mirror).expect("turns and mirrors of the eight are among the eight")
}
