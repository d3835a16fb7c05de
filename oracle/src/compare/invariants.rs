//! What must be so for every file, told by the reader, the writer and the model of each other.

use crate::drawing::Drawing;
use crate::file::{lawful, read, read_rows, write, BYTES_BEHIND, ENDS_EARLY, NOT_LAWFUL};
use crate::model::Model;
use crate::rows::Rows;
use crate::script::Edit;

/// Drawings up to so many rows are drawn again by the model, which takes long for larger ones.
const MOST_REDRAWN: usize = 30;

pub fn check(file: &[u8]) -> Result<(), String> {
    let verdict = read(file);
    match &verdict {
        Ok(rows) => check_accepted(file, rows)?,
        Err(reply) => check_refused(file, *reply)?,
    }
    match read_rows(file) {
        Ok((rows, _)) => check_law(&rows),
        Err(_) => Ok(()),
    }
}

/// What was read writes the same bytes; each part from the beginning ends early; a byte more lies behind the end.
fn check_accepted(file: &[u8], rows: &Rows) -> Result<(), String> {
    if write(rows) != file {
        return Err("what was read writes other bytes".into());
    }
    for length in [0, file.len() / 3, file.len() / 2, file.len() - 1] {
        expect(ENDS_EARLY, &file[..length], "a part of an accepted file")?;
    }
    for byte in [0, 0x4b, 0x80] {
        expect(BYTES_BEHIND, &with(file, byte), "an accepted file and a byte more")?;
    }
    Ok(())
}

/// A part of a file that ends early ends early; once refused by 13 or 14, a file is so whatever is put behind it.
fn check_refused(file: &[u8], reply: u32) -> Result<(), String> {
    match reply {
        ENDS_EARLY => expect(ENDS_EARLY, &file[..file.len().saturating_sub(1)], "a part of a file that ends early"),
        NOT_LAWFUL | BYTES_BEHIND => expect(reply, &with(file, 0), "a refused file and a byte more"),
        _ => Err(format!("reply {reply}")),
    }
}

fn with(file: &[u8], byte: u8) -> Vec<u8> {
    [file, &[byte]].concat()
}

fn expect(reply: u32, file: &[u8], what: &str) -> Result<(), String> {
    match read(file) {
        Err(found) if found == reply => Ok(()),
        Err(found) => Err(format!("{what}: expected {reply}, found {found}")),
        Ok(_) => Err(format!("{what}: expected {reply}, found 0")),
    }
}

/// Rows are lawful just if drawing them one by one on an empty drawing leaves these rows: each edit leaves a lawful drawing,
/// and on the way to a lawful one nothing is refused and nothing stays split or merged.
fn check_law(rows: &Rows) -> Result<(), String> {
    if rows.wires.len() + rows.components.len() > MOST_REDRAWN {
        return Ok(());
    }
    let redrawn = redrawn(rows);
    let same = redrawn.wires == rows.wires && redrawn.components == rows.components;
    match (lawful(rows), same) {
        (true, false) => Err("drawn again, a lawful drawing has other rows".into()),
        (false, true) => Err("drawn again, rows that aren't lawful are the same".into()),
        _ => Ok(()),
    }
}

fn redrawn(rows: &Rows) -> Rows {
    let mut drawing = Model::default();
    for wire in &rows.wires {
        drawing.edit(&Edit::Wire { vertical: wire.vertical, line: wire.line, start: wire.start, end: wire.end });
    }
    for part in &rows.components {
        let (kind, orient) = (part.kind as i32, part.orient as i32);
        drawing.edit(&Edit::Place { kind, orient, x: part.x, y: part.y, label: part.label.clone() });
    }
    drawing.rows()
}
