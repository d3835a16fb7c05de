//! What panel_open prints.

use super::read;
use crate::list::{list_of, loose_of};
use crate::rows::{put_line, Rows};

/// For a file: the reply, and behind 0 the drawing.
pub fn opened(file: &[u8]) -> Vec<u8> {
    match read(file) {
        Ok(rows) => shown(&rows),
        Err(reply) => format!("A {reply}\n").into_bytes(),
    }
}

/// For the file of this drawing: `A 0`, the tally, all rows, and the list with its `E` line.
pub fn shown(rows: &Rows) -> Vec<u8> {
    let mut out = b"A 0\n".to_vec();
    rows.print_lines(&mut out);
    out.extend(list_of(rows));
    put_line(&mut out, b"E", &[loose_of(rows) as i32]);
    out
}
