//! Document 02, P4: what panel_board's record tells, reply and row, is what the Rust and the model tell from the same drawings.

use oracle::drawing::{run, Drawing, Form};
use oracle::model::Model;
use oracle::original::Original;
use rstar::Order;

const BOARD: &[u8] = include_bytes!("../../crates/panel_board/stdout");
const TITLE: &str = "# rows told, from ";

/// The record as text; the files in it are bytes.
fn board() -> String {
    String::from_utf8_lossy(BOARD).into_owned()
}

/// The script of the drawing that a part of the record starts from.
fn start(title: &str) -> String {
    let wires: String = (0..512).map(|n| format!("h {n} -200 -190\n")).collect();
    let parts: String = (0..128).map(|n| format!("p 0 0 {} {}\n", n % 16 * 200, n / 16 * 200)).collect();
    match title {
        "nothing" => String::new(),
        "512 wires" => wires,
        "128 components" => parts,
        "both" => wires + &parts,
        _ => panic!("{title}"),
    }
}

/// The script lines of a part, and the lines printed for them.
fn part(title: &str) -> (String, String) {
    let board = board();
    let (_, behind) = board.split_once(&format!("{TITLE}{title}\n")).unwrap();
    let lines: Vec<_> = behind.lines().take_while(|line| !line.starts_with('#')).collect();
    let asked = lines.iter().filter_map(|line| line.strip_prefix("> ")).map(|line| format!("{line}\n"));
    let told = lines.iter().filter(|line| !line.starts_with("> ")).map(|line| format!("{line}\n"));
    (asked.collect(), told.collect())
}

#[test]
fn the_board_tells_what_the_rust_and_the_model_tell() {
    let board = board();
    let titles: Vec<_> = board.lines().filter_map(|line| line.strip_prefix(TITLE)).collect();
    assert_eq!(titles, ["nothing", "128 components", "512 wires", "both"]);
    for title in titles {
        let (asked, told) = part(title);
        let drawings: [Box<dyn Drawing>; 2] = [Box::new(Original::new(Order::Insertion)), Box::new(Model::default())];
        for mut drawing in drawings {
            run(drawing.as_mut(), start(title).as_bytes(), Form::Told);
            let printed = run(drawing.as_mut(), asked.as_bytes(), Form::Told);
            assert_eq!(String::from_utf8(printed).unwrap(), told, "{title}");
        }
    }
}

#[test]
fn it_tells_each_of_them() {
    let board = board();
    let lines: Vec<_> = board.lines().collect();
    let wanted =
        [("p", "A 6 row 2"), ("p", "A 7 row 0"), ("h", "A 11 row 0"), ("p", "A 11 row 0"), ("r", "A 11 row 0")];
    for (letter, told) in wanted {
        let asked = format!("> {letter} ");
        assert!(lines.windows(2).any(|pair| pair[0].starts_with(&asked) && pair[1] == told), "{letter}: {told}");
    }
}
