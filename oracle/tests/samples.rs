//! The recorded runs that the gate replays: what `oracle sample` makes is what stands in the crates.

use oracle::drawing::{run, Form};
use oracle::model::Model;
use oracle::sample::record;
use oracle::script::{lines, read_line, Command};
use std::path::PathBuf;

const SAMPLES: [(Form, &str); 2] = [(Form::Rows, "panel_rows"), (Form::List, "panel_list")];

fn file(path: &str) -> Vec<u8> {
    let path = PathBuf::from(env!("CARGO_MANIFEST_DIR")).join("..").join(path);
    std::fs::read(&path).unwrap_or_else(|error| panic!("{}: {error}", path.display()))
}

fn recorded(program: &str) -> [Vec<u8>; 2] {
    ["stdin", "stdout"].map(|name| file(&format!("crates/{program}/{name}")))
}

#[test]
fn the_recorded_files_are_what_the_oracle_makes() {
    for (form, program) in SAMPLES {
        let (script, printed) = record(form).unwrap();
        // Not assert_eq, which would print a million bytes.
        assert!(recorded(program) == [script, printed], "made again by: oracle sample, into crates/{program}");
    }
}

#[test]
fn they_hold_for_the_model() {
    for (form, program) in SAMPLES {
        let [script, printed] = recorded(program);
        assert!(run(&mut Model::default(), &script, form) == printed, "{program}");
    }
}

#[test]
fn the_drop_point_comes_first() {
    let [script, printed] = recorded("panel_list");
    assert!(script.starts_with(&file("docs/examples/drop-point.txt")));
    assert!(printed.starts_with(&file("docs/examples/drop-point.out")));
}

/// A number that doesn't begin as other numbers do: `007`, `-0`.
fn begins_with_a_zero(word: &str) -> bool {
    let digits = word.strip_prefix('-').unwrap_or(word);
    digits.starts_with('0') && word != "0"
}

#[test]
fn each_has_a_reply_7_and_numbers_that_begin_with_zeros() {
    for (_, program) in SAMPLES {
        let [script, printed] = recorded(program);
        assert!(lines(&printed).any(|line| line == b"A 7"), "{program}");
        let readable = lines(&script).filter(|line| matches!(read_line(line), Command::Edit(_)));
        let zeros = readable.filter(|line| String::from_utf8_lossy(line).split(' ').any(begins_with_a_zero)).count();
        assert!(zeros >= 100, "{program}: {zeros}");
    }
}
