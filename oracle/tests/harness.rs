//! The comparison itself: what it copies and finds.

use oracle::compare::{compare, judge, Counts};
use oracle::drawing::{run, Drawing, Form};
use oracle::generate::script;
use oracle::original::{rows_of, Original};
use oracle::program::Program;
use oracle::script::Edit;
use rstar::Order;
use serde::RoundTrip;

#[test]
fn a_copy_is_equal_and_goes_its_own_way() {
    let mut original = Original::new(Order::Insertion);
    run(&mut original, b"h 0 0 100\np 1 0 50 100 K1\nv 20 0 9\n", Form::List);
    let copy = original.state.round_trip();
    let before = original.rows();
    assert_eq!(rows_of(&copy), before);
    original.edit(&Edit::Wire { vertical: true, line: 90, start: 0, end: 50 });
    assert_ne!(original.rows(), before);
    assert_eq!(rows_of(&copy), before);
}

#[test]
fn the_model_agrees_with_the_rust() {
    for form in [Form::Rows, Form::List] {
        let (counts, verdict) = compare(&Program::Model, form, 1, 5_000);
        assert!(verdict.is_ok() && counts.edits() >= 5_000);
    }
}

#[test]
fn a_program_that_prints_something_else_is_found() {
    let echo = Program::Command(vec!["cat".to_string()]);
    let lines: Vec<Vec<u8>> = vec![b"h 0 0 9".to_vec()];
    let verdict = judge(&lines, &echo, Form::Rows, &mut Counts::default());
    assert_eq!(verdict.unwrap_err(), "script line 1: expected `A 0`, found `h 0 0 9`");
    let (_, verdict) = compare(&echo, Form::Rows, 1, 1);
    assert_eq!(verdict.unwrap_err().script.len(), 1);
}

#[test]
fn a_seed_gives_one_script() {
    assert_eq!(script(7), script(7));
    assert_ne!(script(7), script(8));
}

#[test]
fn tree_order_decides_where_turned_contacts_meet() {
    let edit = |x| Edit::TurnRight(oracle::script::Pointer { x, y: 0, size: 60 });
    let mut original = Original::new(Order::Insertion);
    run(&mut original, b"p 1 0 0 0\np 1 0 101 0\np 1 0 1000 0\np 1 0 1201 0\n", Form::List);
    assert!(original.hangs_on_tree_order(&edit(0)));
    assert!(!original.hangs_on_tree_order(&edit(-80)));
    assert!(!original.hangs_on_tree_order(&edit(1100)));
}
