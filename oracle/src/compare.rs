//! Seeded scripts through the Rust and through a program, compared line by line.

mod counts;
mod file_counts;
mod files;
mod invariants;
mod saved;

pub use counts::Counts;
pub use file_counts::FileCounts;
pub use files::{compare_files, FileDifference, Opener};
pub use saved::{compare_saved, hex, SaveAndOpen, SavedCounts};

use crate::drawing::{perform, run, Form};
use crate::generate::{bytes_of, script, Script};
use crate::minimise::minimise;
use crate::netlist::{compare_netlist, Agreement};
use crate::original::Original;
use crate::program::Program;
use crate::script::{read_line, Command};
use random::Random;
use rstar::Order;

/// A difference, and the smallest script found that shows one.
#[derive(Debug)]
pub struct Difference {
    pub what: String,
    pub script: Script,
}

/// Compares scripts of rising seeds until so many edits are compared or one differs.
pub fn compare(program: &Program, form: Form, first_seed: u64, edits: u64) -> (Counts, Result<(), Difference>) {
    let mut counts = Counts::default();
    let mut seed = first_seed;
    while counts.edits() < edits {
        let script = script(seed);
        if let Err(what) = judge(&script, program, form, &mut counts) {
            let what = format!("seed {seed}: {what}");
            return (counts, Err(shrink(what, &script, program, form)));
        }
        counts.scripts += 1;
        seed += 1;
    }
    (counts, Ok(()))
}

fn shrink(what: String, script: &[Vec<u8>], program: &Program, form: Form) -> Difference {
    let verdict = |lines: &[Vec<u8>]| judge(lines, program, form, &mut Counts::default());
    let script = minimise(script, |lines| verdict(lines).is_err());
    let smallest = verdict(&script).err().unwrap_or_default();
    Difference { what: format!("{what}\nsmallest script found, {smallest}"), script }
}

/// Compares one script. Where tree order decides a turn, the line is left out of the script that the program and the
/// Rust in three orders run; the Rust in the order of rows runs all lines, and so does the program then.
pub fn judge(script: &[Vec<u8>], program: &Program, form: Form, counts: &mut Counts) -> Result<(), String> {
    let (kept, expected) = in_three_orders(script, form, counts)?;
    same(&expected, &program.output(&sent(&kept), form)?, form)?;
    let in_row_order = run(&mut Original::new(Order::Middle), &bytes_of(script), form);
    if kept.len() == script.len() {
        same(&expected, &in_row_order, form).map_err(|what| format!("insertion order and order of rows: {what}"))
    } else {
        same(&in_row_order, &program.output(&bytes_of(script), form)?, form)
    }
}

/// The bytes of a script. Every other one goes without its last newline, since its last line counts all the same.
fn sent(script: &[Vec<u8>]) -> Vec<u8> {
    let mut bytes = bytes_of(script);
    if script.len() % 2 == 1 && script.last().is_some_and(|line| !line.is_empty()) {
        bytes.pop();
    }
    bytes
}

/// Runs the Rust in three tree orders side by side. Gives the lines that were run and what each order printed.
pub fn in_three_orders(script: &[Vec<u8>], form: Form, counts: &mut Counts) -> Result<(Script, Vec<u8>), String> {
    let seed = bytes_of(script).iter().fold(0u64, |seed, &byte| seed.wrapping_mul(31).wrapping_add(byte.into()));
    let orders = [Order::Insertion, Order::Reverse, Order::Shuffled(Random(seed))];
    let mut originals = orders.map(Original::new);
    let mut kept = Vec::new();
    let mut printed = Vec::new();
    for line in script {
        let command = read_line(line);
        if let Command::Edit(edit) = &command {
            if originals[0].hangs_on_tree_order(edit) {
                counts.skipped += 1;
                continue;
            }
        }
        let [first, second, third] = originals.each_mut().map(|original| {
            let mut out = Vec::new();
            perform(original, &command, form, &mut out);
            out
        });
        let here = |other, what| format!("insertion and {other} order differ at line {}, {what}", kept.len() + 1);
        same(&first, &second, form).map_err(|what| here("reverse", what))?;
        same(&first, &third, form).map_err(|what| here("shuffled", what))?;
        if command == Command::List {
            originals.iter().try_for_each(|original| check_netlist(original, counts))?;
        }
        counts.note(line, &first, originals[0].sizes());
        printed.extend(first);
        kept.push(line.clone());
    }
    Ok((kept, printed))
}

fn check_netlist(original: &Original, counts: &mut Counts) -> Result<(), String> {
    match compare_netlist(&original.state).map_err(|fault| format!("the Rust's own netlist: {fault:?}"))? {
        Agreement::Same => counts.netlists_same += 1,
        Agreement::Parted => counts.netlists_parted += 1,
    }
    Ok(())
}

/// Nothing, or the first line that differs, and to which line of the script it belongs.
pub fn same(expected: &[u8], found: &[u8], form: Form) -> Result<(), String> {
    if expected == found {
        return Ok(());
    }
    let expected = text_lines(expected);
    let (same, what) = first_difference(&expected, &text_lines(found));
    let last_of_its_line = |line: &&String| match form {
        Form::Rows => *line == ".",
        Form::List | Form::Told => line.starts_with("A ") || line.starts_with("E "),
    };
    let script_line = expected[..same].iter().filter(last_of_its_line).count() + 1;
    Err(format!("script line {script_line}: {what}"))
}

/// How many lines are the same, and what stands behind them.
fn first_difference(expected: &[String], found: &[String]) -> (usize, String) {
    let same = expected.iter().zip(found).take_while(|(one, other)| one == other).count();
    let at = |lines: &[String]| lines.get(same).cloned().unwrap_or("the end".into());
    (same, format!("expected `{}`, found `{}`", at(expected), at(found)))
}

fn text_lines(bytes: &[u8]) -> Vec<String> {
    String::from_utf8_lossy(bytes).lines().map(str::to_string).collect()
}
