//! Drawings filled to their limits, and edits there that find room or none.

use crate::refusal::{MOST_COMPONENTS, MOST_WIRES};

/// Beside a contact and a wire that the turned contact would cut: wires, a turn and a mirror, first without room and then
/// with some.
const AMONG_WIRES: &str = "\
n\nh 990 200 300\nv 250 999 1001\nr 0 0 0\nm 0 0 0\nn
d 250 5080 0\nr 0 0 0\nn\nh 998 200 300\nh 998 200 400
d 250 1900 1000\nd 250 3900 1000\nd 250 5100 1000\nd -1500 0 1000\nd 0 0 1000\nd 1500 0 1000\n";
/// One more, one where another stands, one after a delete; long wires, turns and mirrors among all; and all deleted.
const AMONG_COMPONENTS: &str = "\
p 0 0 3000 3000\np 0 0 -3000 -3000\nn\nh -1 -3000 3000\nv 1 -3000 3000\nn
d -3000 -3000 0\np 0 0 3000 3000\np 2 0 3000 2000 last\nr 0 -2000 1000\nm -2000 -2000 700\nn
d -2000 -2000 1000\nd 0 -2000 1000\nd 1500 -2000 1000\nd -2000 -1000 1000\nd 0 -1000 1000\nd 1500 -1000 1000\nd 3000 2500 1000\nn\n";

/// A script on an empty drawing that leaves it empty.
pub fn edits_at_the_limits() -> Vec<u8> {
    let wires: String = (0..MOST_WIRES - 1).map(|n| format!("h {} 200 300\n", 1000 + 8 * n)).collect();
    let components: String = (0..MOST_COMPONENTS as i32)
        .map(|n| format!("p {} {} {} {} C{n}\n", n % 3, n % 8, 300 * (n % 16) - 3000, 300 * (n / 16) - 3000))
        .collect();
    format!("p 1 0 0 0 T\nv 100 -10 10\n{wires}{AMONG_WIRES}{components}{AMONG_COMPONENTS}").into_bytes()
}

/// Components close to each other, whose rows are the shortest, up to the limit; one more, one where another stands, and all
/// deleted.
pub fn beyond_128_components() -> Vec<u8> {
    let full: String =
        (0..MOST_COMPONENTS as i32).map(|n| format!("p 0 0 {} {}\n", 101 * (n % 12 - 6), 101 * (n / 12 - 5))).collect();
    format!("{full}p 0 0 900 900\np 0 0 0 0\nn\nd 0 0 1000\n").into_bytes()
}
