//! Document 01's examples through the Rust, and through the model; and the drawings of docs/SCRIPT.md for document 02's loose pads.

use oracle::drawing::{run, Drawing, Form};
use oracle::model::Model;
use oracle::original::Original;
use oracle::rows::Rows;
use oracle::script::{lines, read_line, Command};
use rstar::Order;

/// What panel_list prints for the script, by the Rust; the model must print the same.
fn printed(script: &str) -> String {
    let [ours, theirs] = both().map(|mut drawing| run(drawing.as_mut(), script.as_bytes(), Form::List));
    assert_eq!(ours, theirs);
    String::from_utf8(ours).unwrap()
}

/// The drawing behind the script, by the Rust; the model must hold the same.
fn drawn(script: &str) -> Rows {
    let [ours, theirs] = both().map(|mut drawing| {
        run(drawing.as_mut(), script.as_bytes(), Form::List);
        drawing.rows()
    });
    assert_eq!(ours, theirs);
    ours
}

fn both() -> [Box<dyn Drawing>; 2] {
    [Box::new(Original::new(Order::Insertion)), Box::new(Model::default())]
}

fn count_at(rows: &Rows, x: i32, y: i32) -> Option<u32> {
    rows.joints.iter().find(|joint| (joint.x, joint.y) == (x, y)).map(|joint| joint.count)
}

#[test]
fn a_wire_is_joined_and_freed_again() {
    let one = drawn("h 0 0 100\n");
    assert_eq!((count_at(&one, 0, 0), count_at(&one, 100, 0), one.joints.len()), (Some(1), Some(1), 2));
    let three = drawn("h 0 0 100\nv 50 0 80\n");
    assert_eq!((three.wires.len(), count_at(&three, 50, 0)), (3, Some(3)));
    assert_eq!(drawn("h 0 0 100\nv 50 0 80\nd 50 40 5\n"), one);
}

#[test]
fn a_bare_crossing_is_no_joint_until_a_wire_ends_there() {
    let crossing = drawn("h 0 0 100\nv 50 -40 40\n");
    assert_eq!((crossing.wires.len(), count_at(&crossing, 50, 0)), (2, None));
    let joined = drawn("h 0 0 100\nv 50 -40 40\nh 0 50 60\n");
    assert_eq!((joined.wires.len(), count_at(&joined, 50, 0)), (4, Some(4)));
}

#[test]
fn wires_in_line_become_one_and_corners_do_not() {
    assert_eq!(drawn("h 0 0 50\nh 0 50 100\n"), drawn("h 0 0 100\n"));
    let corner = drawn("h 0 0 100\nv 100 0 50\n");
    assert_eq!((corner.wires.len(), count_at(&corner, 100, 0)), (2, Some(2)));
}

#[test]
fn wires_are_refused_by_document_01() {
    assert_eq!(printed("h 0 5 5\nh 0 6 5\nh 6001 0 9\nh 6000 0 9\n"), "A 0\nA 2\nA 1\nA 0\n");
    assert_eq!(drawn("h 0 5 5\n"), Rows::default());
}

#[test]
fn contacts_touch_at_100_and_not_at_101() {
    assert_eq!(printed("p 1 0 0 0\np 1 0 100 0\np 1 0 101 0\n"), "A 0\nA 6\nA 0\n");
}

#[test]
fn a_turned_contact_may_be_lost() {
    let two = "p 1 0 0 0\np 1 0 101 0\n";
    assert_eq!(printed(&format!("{two}r 0 0 0\n")), "A 0\nA 0\nA 0 1 1\n");
    let left: Vec<_> = drawn(&format!("{two}r 0 0 0\n")).components.iter().map(|part| part.x).collect();
    assert_eq!(left, [101]);
    assert_eq!(printed(&format!("{two}r 0 0 60\n")), "A 0\nA 0\nA 0 2 1\n");
    let left: Vec<_> = drawn(&format!("{two}r 0 0 60\n")).components.iter().map(|part| (part.x, part.orient)).collect();
    assert_eq!(left, [(0, 1)]);
}

#[test]
fn a_pad_splits_the_wire_below_it() {
    let rows = drawn("h -100 -200 200\np 1 0 0 0\n");
    assert_eq!((count_at(&rows, 0, -100), rows.ends()), (Some(3), 7));
}

#[test]
fn the_whole_output() {
    let script = "p 0 0 0 0\np 2 0 0 400 K1\np 1 0 300 0 K1\nv 0 0 300\nh 0 0 200\nv 200 -100 0\nh -100 200 300\nn\n";
    let list = "R N0 K1.A K1.B\nS K1.A N0 N1\nS K1.B N0 N2\nE 2\n";
    assert_eq!(printed(script), "A 0\n".repeat(7) + list);
}

#[test]
fn loose_pads_are_counted_by_nets() {
    let loose = |script: &str| printed(&format!("{script}n\n")).lines().last().map(str::to_string).unwrap();
    let contact = "p 0 0 0 -300\nv 0 -300 -100\np 1 0 0 0 K1\n";
    assert_eq!(loose(&format!("{contact}p 2 0 -50 400 K1\nv -50 100 300\n")), "E 0", "a spare B beside a wired A");
    assert_eq!(loose(contact), "E 2", "A and B both spare");
    assert_eq!(loose("p 2 0 0 400 K1\nv 0 200 300\n"), "E 1", "a pad with a wire that leads nowhere");
    assert_eq!(loose("h 0 0 100\n"), "E 0", "wire ends without a pad");
    assert_eq!(loose("p 1 0 0 0 K1\nv 50 100 300\nh 300 0 50\n"), "E 3", "all alone, one with wires that lead nowhere");
}

#[test]
fn refusals_in_order() {
    let script = "p 3 0 9999 0 \x7f\np 1 8 0 0\np 1 0 5801 0 \x7f\np 1 0 5800 0 K K\nh 6001 6 5\nd 6001 0 1001\nr 0 0 1001\nm 0 0 -1\n";
    assert_eq!(printed(script), "A 4\nA 4\nA 1\nA 5\nA 1\nA 1\nA 3 0 0\nA 3 0 0\n");
}

#[test]
fn full_tables_refuse_by_11_and_7() {
    let wires: String = (0..512).map(|n| format!("h {n} 0 9\n")).collect();
    let end = "h 600 0 9\nv 5 600 609\nh 0 9 10\nh 0 0 0\np 1 0 0 700\np 1 0 5 101\nr 0 700 0\n";
    assert!(printed(&(wires + end)).ends_with("A 0\nA 11\nA 11\nA 0\nA 0\nA 0\nA 11\nA 0 1 0\n"));
    let parts: String = (0..128).map(|n| format!("p 1 0 {} {}\n", n % 16 * 101, n / 16 * 201)).collect();
    assert!(printed(&(parts + "p 1 0 0 2000\np 1 0 0 0\n")).ends_with("A 0\nA 7\nA 6\n"));
}

#[test]
fn a_turn_may_lack_room() {
    let wires: String = (0..512).map(|n| format!("h {n} -200 -190\n")).collect();
    let turn = "d -200 511 0\nd -200 510 0\np 1 0 0 -200\nv -100 -160 -140\nh -200 90 110\n";
    assert!(printed(&(wires.clone() + turn + "r 0 -200 0\n")).ends_with("A 0\nA 11 0 0\n"));
    assert!(printed(&(wires + turn + "d -200 509 0\nd -200 508 0\nr 0 -200 0\n")).ends_with("A 0 1 0\n"));
}

#[test]
fn lines_are_read_to_the_letter() {
    let readable = ["h 0 0 0", "v -0 000005 -999999", "p 1 0 0 0", "p 1 0 0 0  K", "p 9 -9 0 0 \t", "d 0 0 0", "n"];
    for line in readable {
        assert_ne!(read_line(line.as_bytes()), Command::Unreadable, "{line}");
    }
    #[rustfmt::skip]
    let unreadable = [
        "", " ", "h", "h 0 0", "h 0 0 0 ", " h 0 0 0", "h  0 0 0", "h 0 0 0 0", "h +0 0 0", "h 0 0 --1", "h 0 0 -",
        "h 0 0 0000000", "H 0 0 0", "hv 0 0 0", "p 1 0 0", "p 1 0 0 0 ", "p 1 0 0 x K", "n ", "nn", "d 0 0", "h 0 0 0\r",
    ];
    for line in unreadable {
        assert_eq!(read_line(line.as_bytes()), Command::Unreadable, "{line}");
    }
}

#[test]
fn a_line_of_80_bytes_is_read_and_one_of_81_is_not() {
    let line = |length| format!("{:K<length$}", "p 1 0 0 0 ");
    assert_eq!(printed(&line(80)), "A 5\n");
    assert_eq!(printed(&line(81)), "A 10\n");
}

#[test]
fn a_last_line_counts_if_not_empty() {
    assert_eq!(lines(b"").count(), 0);
    assert_eq!(lines(b"n").collect::<Vec<_>>(), [b"n"]);
    assert_eq!(lines(b"n\n\nn\n").collect::<Vec<_>>(), [&b"n"[..], b"", b"n"]);
}

#[test]
fn rows_are_printed_behind_each_line() {
    let mut drawing = Original::new(Order::Insertion);
    let printed = run(&mut drawing, b"h 0 0 9\n\np 1 3 700 0\nr 0 0 5\nn\n", Form::Rows);
    let wire = "T 1 2 0 2\nW h 0 0 9\nJ 0 0 1\nJ 9 0 1\n.\n";
    let both = "T 1 5 1 5\nW h 0 0 9\nJ 800 -50 1\nJ 0 0 1\nJ 9 0 1\nJ 600 0 1\nJ 800 50 1\nC 1 3 700 0 \n.\n";
    let expected = format!("A 0\n{wire}A 10\n{wire}A 0\n{both}A 0 0 0\n{both}S .A N1 N2\nS .B N1 N3\nE 3\n.\n");
    assert_eq!(String::from_utf8(printed).unwrap(), expected);
}
