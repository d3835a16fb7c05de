//! What panel_save makes of a script, by the model.

use super::write;
use crate::drawing::Drawing;
use crate::model::Model;
use crate::rows::Rows;
use crate::script::{lines, read_line, Command};

pub struct Saved {
    /// The drawing at the script's end.
    pub rows: Rows,
    /// Its file.
    pub file: Vec<u8>,
    /// `line <n>: A <reply>` for each line that isn't answered with 0, lines counted from 1.
    pub told: Vec<u8>,
}

pub fn saved(script: &[u8]) -> Saved {
    let mut drawing = Model::default();
    let mut told = Vec::new();
    for (place, line) in lines(script).enumerate() {
        let reply = match read_line(line) {
            Command::Edit(edit) => drawing.edit(&edit).reply,
            Command::List => 0,
            Command::Unreadable => 10,
        };
        if reply != 0 {
            told.extend(format!("line {}: A {reply}\n", place + 1).bytes());
        }
    }
    let rows = drawing.rows();
    Saved { file: write(&rows), rows, told }
}
