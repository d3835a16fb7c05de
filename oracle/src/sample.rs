//! A recorded run for a program's files `stdin` and `stdout`: a script, and what the Rust prints for it; or files, and what the
//! reader of saved drawings gives for them.

mod files;
mod limits;

use crate::compare::{in_three_orders, same, Counts};
use crate::drawing::{run, Form};
use crate::generate::{bytes_of, full_sample, sample, Script};
use crate::original::Original;
use crate::script::lines;
use limits::{beyond_128_components, edits_at_the_limits};
use random::Random;
use rstar::Order;
use std::path::Path;

const SEED: u64 = 1941;
const LINES: usize = 2000;

/// The example of docs/SCRIPT.md, and a delete that meets all of it.
const DROP_POINT: &[u8] = include_bytes!("../../docs/examples/drop-point.txt");
const DROP_POINT_CLEARED: &[u8] = b"d 300 600 1000\n";
/// Document 01's examples, each refusal, lines that are read to the letter, turns and merges. Leaves nothing drawn.
const CHOSEN: &[u8] = include_bytes!("../samples/chosen.txt");

/// Which program's run is recorded.
#[derive(Debug, Clone, Copy, PartialEq, Eq)]
pub enum Sample {
    /// panel_rows or panel_list.
    Script(Form),
    /// panel_files.
    Files,
    /// panel_save.
    Save,
    /// panel_open.
    Open,
}

impl Sample {
    pub fn named(name: &str) -> Option<Self> {
        match name {
            "rows" => Some(Sample::Script(Form::Rows)),
            "list" => Some(Sample::Script(Form::List)),
            "files" => Some(Sample::Files),
            "save" => Some(Sample::Save),
            "open" => Some(Sample::Open),
            _ => None,
        }
    }

    /// Input and output.
    pub fn record(self) -> Result<(Vec<u8>, Vec<u8>), String> {
        match self {
            Sample::Script(form) => record(form),
            Sample::Files => Ok(files::record_files()),
            Sample::Save => Ok(files::record_save()),
            Sample::Open => Ok(files::record_open()),
        }
    }
}

/// The script and its output. The last line, `n`, goes without its newline and counts all the same.
pub fn record(form: Form) -> Result<(Vec<u8>, Vec<u8>), String> {
    let mut script = match form {
        Form::Rows => [by_lot(sample(SEED, LINES))?, split(&beyond_128_components())].concat(),
        // Where no rows are printed, full tables cost little room.
        Form::List | Form::Told => {
            let chosen = [DROP_POINT, DROP_POINT_CLEARED, CHOSEN, &edits_at_the_limits()].concat();
            [split(&chosen), by_lot([sample(SEED, LINES), full_sample(SEED)].concat())?].concat()
        }
    };
    script.push(b"n".to_vec());
    let mut bytes = bytes_of(&script);
    bytes.pop();
    let printed = in_every_order(&bytes, form)?;
    Ok((bytes, printed))
}

/// A script on an empty drawing without the turns that tree order decides.
fn by_lot(script: Script) -> Result<Script, String> {
    in_three_orders(&script, Form::List, &mut Counts::default()).map(|(kept, _)| kept)
}

fn split(script: &[u8]) -> Script {
    lines(script).map(<[u8]>::to_vec).collect()
}

/// What the Rust prints, which must be the same in every tree order.
fn in_every_order(script: &[u8], form: Form) -> Result<Vec<u8>, String> {
    let printed = |order| run(&mut Original::new(order), script, form);
    let first = printed(Order::Insertion);
    for order in [Order::Reverse, Order::Shuffled(Random(SEED)), Order::Middle] {
        same(&first, &printed(order), form).map_err(|what| format!("insertion and {order:?} order: {what}"))?;
    }
    Ok(first)
}

/// Writes both files into a folder.
pub fn write_sample(sample: Sample, folder: &Path) -> Result<(), String> {
    let (input, printed) = sample.record()?;
    for (name, content) in [("stdin", input), ("stdout", printed)] {
        std::fs::write(folder.join(name), content).map_err(|error| format!("{name}: {error}"))?;
    }
    Ok(())
}

#[cfg(test)]
mod tests {
    use super::*;
    use crate::drawing::Drawing;
    use crate::model::Model;
    use crate::rows::Rows;

    #[test]
    fn each_chosen_part_leaves_nothing_drawn() {
        let drop_point = [DROP_POINT, DROP_POINT_CLEARED].concat();
        for part in [&drop_point[..], CHOSEN, &edits_at_the_limits(), &beyond_128_components()] {
            let mut drawing = Model::default();
            run(&mut drawing, part, Form::List);
            assert_eq!(drawing.rows(), Rows::default());
        }
    }
}
