//! Times the proved calls and the Rust on the same drawings, and prints the tables of docs/SPEED.md.

mod clock;
mod ours;
mod script;
mod shapes;
mod table;
mod theirs;

use oracle::list::loose_of;
use oracle::original::rows_of;
use oracle::script::Edit;
use ours::{Call, Ours};
use script::{numbered, sizes, Board, EditKind, Numbered};
use shapes::shapes;
use table::Table;

const SIZES: [usize; 4] = [64, 128, 256, 512];
const SEED: u64 = 9;
/// How often all is timed, in turns: a slow spell of the machine is longer than one time taken. The least counts.
const TURNS: usize = 3;
const LOOSE: &str = "loose, drawing known to be lawful";
const SAVE: &str = "save, public call";
const OPEN: &str = "open, public call";
const NETS: &str = "the net numbers of all pads";
const EDITS: [(EditKind, &str); 5] = [
    (EditKind::Wire, "wire"),
    (EditKind::Place, "place"),
    (EditKind::Delete, "delete"),
    (EditKind::TurnRight, "turn right"),
    (EditKind::Mirror, "mirror"),
];

fn main() {
    let quick = std::env::args().any(|word| word == "--quick");
    let (places, turns) = if quick { (2, 1) } else { (5, TURNS) };
    let mut table = Table::default();
    for (turn, size) in (0..turns).flat_map(|turn| SIZES.map(|size| (turn, size))) {
        let mut board = Board::new(size, SEED);
        let script: Vec<Numbered> = board.edits.iter().map(numbered).collect();
        let ours = Ours::new(&script);
        for (kind, name) in EDITS {
            let edits = board.edits_of(kind, places);
            time_edits(&mut table, name, size, &board, &ours, &edits);
        }
        time_looks(&mut table, size, &board, &ours);
        time_tables(&mut table, size, &mut board, &ours, places);
        if turn == 0 && size == SIZES[0] {
            assert_all_made(&mut board, &ours);
        }
        eprintln!("{size} wires timed, drawn by {} edits", script.len());
    }
    table.print();
    table.print_times("check, plain", "check");
    table.print_times(LOOSE, NETS);
    table.print_times(SAVE, "check");
    table.print_times(OPEN, "check");
    time_shapes();
}

/// Nanoseconds of the plain form of the check and of the fast one, on a lawful drawing.
fn time_checks(ours: &Ours) -> [f64; 2] {
    let forms = [Call::CheckPlainly, Call::Check];
    for form in forms {
        assert_eq!(ours.answer(form, Numbered::NONE), 0, "the drawing is lawful");
    }
    let mut least = [f64::INFINITY; 2];
    for _ in 0..TURNS {
        for (form, least) in forms.into_iter().zip(&mut least) {
            *least = least.min(ours.time(form, Numbered::NONE));
        }
    }
    least
}

/// Both forms of the check on full drawings of other shapes.
fn time_shapes() {
    println!("\n| full drawing | wires | joints | check, plain, ns | check, ns | times |\n|---|---|---|---|---|---|");
    for shape in shapes() {
        let ours = Ours::new(&shape.edits);
        let wires = ours.answer(Call::Merge, Numbered::NONE);
        let joints = ours.answer(Call::CountJoints, Numbered::NONE);
        let [plain, fast] = time_checks(&ours);
        println!("| {} | {wires} | {joints} | {plain:.0} | {fast:.0} | {:.0} |", shape.name, plain / fast);
    }
}

/// Once for each call, on the smallest drawing.
fn assert_all_made(board: &mut Board, ours: &Ours) {
    for (kind, _) in EDITS {
        let edit = numbered(&board.edits_of(kind, 1)[0]);
        for call in [Call::EditOn, Call::Edit] {
            ours.assert_all_made(call, edit);
        }
    }
    let edit = numbered(&board.edits_of(EditKind::Delete, 1)[0]);
    for call in Call::LOOKS.into_iter().chain(Call::TABLES) {
        ours.assert_all_made(call, edit);
    }
}

/// One kind of edit at several places, below the public call and by it.
fn time_edits(table: &mut Table, name: &str, size: usize, board: &Board, ours: &Ours, edits: &[Edit]) {
    let mut on = Vec::new();
    let mut checked = Vec::new();
    let mut theirs = Vec::new();
    for edit in edits {
        let joints = rows_of(&board.after(edit).expect("only accepted edits are timed")).joints.len() as u32;
        let asked = numbered(edit);
        for call in [Call::EditOn, Call::Edit] {
            assert_eq!(ours.answer(call, asked), joints, "joints after {edit:?}");
        }
        on.push(ours.time(Call::EditOn, asked));
        checked.push(ours.time(Call::Edit, asked));
        theirs.push(theirs::time_edit(&board.state, edit, ours.enough()));
    }
    table.row(&format!("{name}, drawing known to be lawful"), size, &on, Some(&theirs));
    table.row(&format!("{name}, public call"), size, &checked, Some(&theirs));
}

/// The operations on tables that the edits are made of. The Rust has none of them by itself.
fn time_tables(table: &mut Table, size: usize, board: &mut Board, ours: &Ours, places: usize) {
    let wires: Vec<_> = board.edits_of(EditKind::Wire, places).iter().map(numbered).collect();
    let deletes: Vec<_> = board.edits_of(EditKind::Delete, places).iter().map(numbered).collect();
    let placed: Vec<_> = board.edits_of(EditKind::Place, places).iter().map(numbered).collect();
    let rows = rows_of(&board.state);
    assert_eq!(ours.answer(Call::CountJoints, Numbered::NONE), rows.joints.len() as u32, "joints");
    assert_eq!(ours.answer(Call::Merge, Numbered::NONE), sizes(&board.state).0 as u32, "wires merge no further");
    for (name, call, edits) in [
        ("split the wires at a point", Call::Split, &deletes[..]),
        ("keep the wires that a square does not meet", Call::KeepWires, &deletes[..]),
        ("keep the components that a square does not meet", Call::KeepComponents, &deletes[..]),
        ("lay a wire in row order, with the pads", Call::Lay, &wires[..]),
        ("insert a component in row order", Call::Insert, &placed[..]),
        ("merge in one pass, with the pads", Call::Merge, &[Numbered::NONE]),
        ("count the joints, with the pads", Call::CountJoints, &[Numbered::NONE]),
        ("the pads of all components", Call::Pads, &[Numbered::NONE]),
        (NETS, Call::NetNumbers, &[Numbered::NONE]),
    ] {
        let times: Vec<_> = edits.iter().map(|edit| ours.time(call, *edit)).collect();
        table.row(name, size, &times, None);
    }
}

fn time_looks(table: &mut Table, size: usize, board: &Board, ours: &Ours) {
    let time = |call| [ours.time(call, Numbered::NONE)];
    let loose = loose_of(&rows_of(&board.state)) as u32;
    for call in [Call::LooseOn, Call::Loose] {
        assert_eq!(ours.answer(call, Numbered::NONE), loose, "loose pads");
    }
    let [plain, fast] = time_checks(ours);
    table.row("check, plain", size, &[plain], None);
    table.row("check", size, &[fast], None);
    let list = [theirs::time_look(&board.state, ours.enough(), |state| state.build_netlist())];
    table.row("list, drawing known to be lawful", size, &time(Call::ListOn), Some(&list));
    table.row("list, public call", size, &time(Call::List), Some(&list));
    table.row(LOOSE, size, &time(Call::LooseOn), None);
    table.row("loose, public call", size, &time(Call::Loose), None);
    time_files(table, size, ours);
}

/// A file is opened straight after it was saved; the time of saving is taken off.
fn time_files(table: &mut Table, size: usize, ours: &Ours) {
    assert_eq!(ours.answer(Call::SaveAndOpen, Numbered::NONE), 0, "what was saved is opened");
    let [saved, public, both] =
        [Call::SaveOn, Call::Save, Call::SaveAndOpen].map(|call| ours.time(call, Numbered::NONE));
    table.row("save, drawing known to be lawful", size, &[saved], None);
    table.row(SAVE, size, &[public], None);
    table.row(OPEN, size, &[both - saved], None);
}
