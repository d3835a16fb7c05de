//! Saved drawings (document 02, P5): numbers and a file byte by byte, the order of the refusals, drawings written and read
//! again, and the recorded runs of the programs that save and open.

use oracle::compare::{compare_files, compare_saved, Opener, SaveAndOpen};
use oracle::drawing::{run, Drawing, Form};
use oracle::file::{frames, opened, put_frame, put_number, read, saved, write};
use oracle::generate::files::{by_lot, chosen, files, largest_file};
use oracle::generate::{bytes_of, script};
use oracle::model::Model;
use oracle::rows::Rows;
use oracle::sample::Sample;
use oracle::script::{lines, read_line, Command};
use std::path::PathBuf;

fn drawn(script: &str) -> Rows {
    let mut drawing = Model::default();
    run(&mut drawing, script.as_bytes(), Form::List);
    drawing.rows()
}

/// The refusal, or 0.
fn reply(file: &[u8]) -> u32 {
    read(file).err().unwrap_or(0)
}

/// The bytes of one component behind two wire counts of 0.
fn one_component(behind: &[u8]) -> Vec<u8> {
    [&[0, 0, 1], behind].concat()
}

#[test]
fn numbers_in_their_fewest_groups() {
    let written = |number| {
        let mut out = Vec::new();
        put_number(&mut out, number);
        out
    };
    assert_eq!(written(0), [0]);
    assert_eq!(written(127), [0x7f]);
    assert_eq!(written(128), [0x80, 1]);
    assert_eq!(written(300), [0xac, 2]);
    assert_eq!(written(16_383), [0xff, 0x7f]);
    assert_eq!(written(16_384), [0x80, 0x80, 1]);
    assert_eq!(written(u32::MAX), [0xff, 0xff, 0xff, 0xff, 15]);
}

#[test]
fn a_small_file_byte_by_byte() {
    let rows = drawn("h -5990 -6000 -5900\nv 6000 0 6000\np 2 3 -5800 5800 K1\n");
    #[rustfmt::skip]
    let file = [
        1, 10, 0, 100,
        1, 0xe0, 0x5d, 0xf0, 0x2e, 0xe0, 0x5d,
        1, 2, 3, 0xc8, 1, 0x98, 0x5c, 2, b'K', b'1',
    ];
    assert_eq!(write(&rows), file);
    assert_eq!(read(&file), Ok(rows));
    let printed =
        "A 0\nT 2 5 1 5\nW h -5990 -6000 -5900\nW v 6000 0 6000\nJ -6000 -5990 1\nJ -5900 -5990 1\nJ 6000 0 1\n\
                   J -5900 5800 1\nJ 6000 6000 1\nC 2 3 -5800 5800 K1\nR N1 K1.A K1.B\nE 1\n";
    assert_eq!(String::from_utf8(opened(&file)).unwrap(), printed);
}

#[test]
fn the_empty_drawing() {
    assert_eq!(write(&Rows::default()), [0, 0, 0]);
    assert_eq!(read(&[0, 0, 0]), Ok(Rows::default()));
    assert_eq!(opened(&[0, 0, 0]), b"A 0\nT 0 0 0 0\nE 0\n");
    assert_eq!([reply(&[]), reply(&[0]), reply(&[0, 0]), reply(&[0, 0, 0, 0])], [12, 12, 12, 14]);
    assert_eq!(opened(&[]), b"A 12\n");
}

#[test]
fn a_number_is_judged_byte_by_byte() {
    assert_eq!(reply(&[0xff, 0xff, 0xff, 0xff]), 12, "unfinished, though too large already");
    assert_eq!(reply(&[0xff, 0xff, 0xff, 0xff, 15]), 13, "finished and too large");
    assert_eq!(reply(&[0x80, 0x80, 0x80, 0x80, 16]), 13, "above 32 bits");
    assert_eq!(reply(&[0x80, 0x80, 0x80, 0x80, 0x80]), 13, "a fifth byte above 15, whatever would follow");
    assert_eq!(reply(&[0x80]), 12);
    assert_eq!(reply(&[0x80, 0]), 13, "a later group of 0");
    assert_eq!(reply(&[0x80, 0x80]), 12, "a later group of 0 that another one follows");
    assert_eq!(reply(&[0, 0, 0x80, 0]), 13);
}

#[test]
fn counts_are_judged_as_soon_as_they_are_read() {
    assert_eq!(reply(&[0x80, 4]), 12, "512 horizontal wires still due");
    assert_eq!(reply(&[0x81, 4]), 13, "513");
    assert_eq!(reply(&[1, 0, 0, 1, 0xff, 3]), 12, "1 and 511");
    assert_eq!(reply(&[1, 0, 0, 1, 0x80, 4]), 13, "1 and 512");
    assert_eq!([reply(&[0, 0, 0x80, 1]), reply(&[0, 0, 0x81, 1])], [12, 13], "128 and 129 components");
}

#[test]
fn values_are_judged_as_soon_as_they_are_read() {
    assert_eq!([reply(&[1, 0xe0, 0x5d]), reply(&[1, 0xe1, 0x5d])], [12, 13], "12,000 and 12,001");
    assert_eq!([reply(&one_component(&[2])), reply(&one_component(&[3]))], [12, 13], "kinds");
    assert_eq!([reply(&one_component(&[0, 7])), reply(&one_component(&[0, 8]))], [12, 13], "orientations");
    let x = |low, high| reply(&one_component(&[0, 0, low, high]));
    assert_eq!([x(0xc7, 1), x(0xc8, 1), x(0x98, 0x5c), x(0x99, 0x5c)], [13, 12, 12, 13], "199, 200, 11,800, 11,801");
    let behind_position = |more: &[u8]| reply(&one_component(&[&[0, 0, 0xf0, 0x2e, 0xf0, 0x2e], more].concat()));
    assert_eq!([behind_position(&[16]), behind_position(&[17])], [12, 13], "label lengths");
    let first = |byte| behind_position(&[2, byte]);
    assert_eq!([first(0x20), first(0x21), first(0x7e), first(0x7f)], [13, 12, 12, 13], "label bytes");
}

#[test]
fn rules_wait_for_the_last_component() {
    let no_length = [1, 5, 5, 5, 0, 0];
    assert_eq!(reply(&no_length), 13);
    assert_eq!(reply(&no_length[..5]), 12, "a byte still due comes before the rules");
    assert_eq!(reply(&[&no_length[..], &[0]].concat()), 13, "the rules come before bytes behind the end");
    assert_eq!(reply(&[1, 5, 5, 5, 0, 1, 3]), 13);
    assert_eq!(reply(&[1, 5, 5, 5, 0, 1, 2]), 12);
}

#[test]
fn what_is_written_is_read_again() {
    for seed in 1..=20 {
        let mut drawing = Model::default();
        for (place, line) in script(seed).iter().enumerate() {
            if let Command::Edit(edit) = read_line(line) {
                drawing.edit(&edit);
            }
            if place % 50 == 0 {
                let rows = drawing.rows();
                assert_eq!(read(&write(&rows)), Ok(rows), "seed {seed}, line {place}");
            }
        }
    }
}

#[test]
fn the_lists_of_what_is_read_are_the_models() {
    for file in by_lot(3) {
        if let Ok(rows) = read(&file) {
            let drawing = Model::of(rows.wires.clone(), rows.components.clone());
            let list = [drawing.list(), format!("E {}\n", drawing.loose()).into_bytes()].concat();
            assert!(opened(&file).ends_with(&list));
        }
    }
}

#[test]
fn no_file_is_longer_than_6022_bytes() {
    let largest = largest_file();
    assert_eq!((largest.len(), reply(&largest)), (6022, 0));
    let longest = files(1).take(20_000).filter(|file| reply(file) == 0).map(|file| file.len()).max();
    assert_eq!(longest, Some(6022));
}

#[test]
fn files_hold_what_must_be_so_and_get_each_reply() {
    let (counts, verdict) = compare_files(&Opener::Itself, 1, 20_000);
    assert!(verdict.is_ok(), "{verdict:?}");
    assert_eq!(counts.files, 20_000);
    assert_eq!(counts.largest_accepted(), 6022);
    assert!([0, 12, 13, 14].iter().all(|&reply| counts.with_reply(reply) > 500), "{counts}");
}

#[test]
fn a_seed_gives_the_same_files() {
    assert_eq!(by_lot(7), by_lot(7));
    assert_ne!(by_lot(7), by_lot(8));
}

#[test]
fn frames_are_taken_apart_again() {
    let mut input = Vec::new();
    let files = [&b""[..], b"abc", &[7; 300]];
    files.iter().for_each(|file| put_frame(&mut input, file));
    assert_eq!(input[..7], [0, 0, 3, 0, b'a', b'b', b'c']);
    assert_eq!(frames(&input).collect::<Vec<_>>(), files);
}

fn words(command: &str) -> Vec<String> {
    command.split(' ').map(str::to_string).collect()
}

#[test]
fn a_program_that_answers_otherwise_is_found() {
    let always = |answer: &str| vec!["sh".to_string(), "-c".to_string(), format!("cat >/dev/null; echo A {answer}")];
    let (_, verdict) = compare_files(&Opener::Frames(words("cat")), 1, 100);
    assert!(verdict.unwrap_err().what.starts_with("expected\nA 12\nfound\n"));
    let (_, verdict) = compare_files(&Opener::Each(always("12")), 1, 100);
    let difference = verdict.unwrap_err();
    assert_eq!(difference.file.len(), 2, "{difference:?}");
    let (_, verdict) = compare_saved(&SaveAndOpen { save: words("cat"), open: always("0") }, 1, 1);
    assert!(verdict.is_err());
}

#[test]
fn lines_are_told_by_their_number() {
    let saved = saved(b"h 0 0 9\nh 0 9 0\n\nn\nd 0 0 1001\nr 0 0 1001\nn\np 1 8 0 0");
    let told = "line 2: A 2\nline 3: A 10\nline 5: A 3\nline 6: A 3\nline 8: A 4\n";
    assert_eq!(String::from_utf8(saved.told).unwrap(), told);
    assert_eq!(saved.file, [1, 0xf0, 0x2e, 0xf0, 0x2e, 0xf9, 0x2e, 0, 0]);
    assert_eq!(saved.rows, drawn("h 0 0 9\n"));
}

const SAMPLES: [(&str, &str); 3] = [("files", "panel_files"), ("save", "panel_save"), ("open", "panel_open")];

fn record(program: &str, name: &str) -> Vec<u8> {
    let path = PathBuf::from(env!("CARGO_MANIFEST_DIR")).join("../crates").join(program).join(name);
    std::fs::read(&path).unwrap_or_else(|error| panic!("{}: {error}", path.display()))
}

fn recorded(program: &str) -> [Vec<u8>; 2] {
    ["stdin", "stdout"].map(|name| record(program, name))
}

#[test]
fn the_recorded_files_are_what_the_oracle_makes() {
    for (name, program) in SAMPLES {
        let (input, printed) = Sample::named(name).unwrap().record().unwrap();
        // Not assert_eq, which would print a hundred thousand bytes.
        assert!(recorded(program) == [input, printed], "made again by: oracle sample {name} crates/{program}");
    }
}

#[test]
fn the_samples_hold_what_they_should() {
    let [(files, answers), (script, file), (same_file, _)] =
        SAMPLES.map(|(name, _)| Sample::named(name).unwrap().record().unwrap());
    let each: Vec<_> = frames(&files).collect();
    assert!(each.starts_with(&chosen().iter().map(Vec::as_slice).collect::<Vec<_>>()));
    assert!(each.contains(&&largest_file()[..]) && (300..=600).contains(&each.len()));
    assert!(files.len() + answers.len() < 400_000);
    assert_eq!(answers.split(|&byte| byte == b'\n').filter(|line| line.starts_with(b"A ")).count(), each.len());
    assert_eq!(file, same_file, "the lines put between those of the drop point alter nothing");
    assert_eq!(file, include_bytes!("../../docs/examples/drop-point.saved"));
    assert_eq!(saved(&script).told.split(|&byte| byte == b'\n').count() - 1, 12);
    assert!(lines(&script).any(|line| line.len() > 80));
}

#[test]
fn a_cut_script_is_saved_as_far_as_it_goes() {
    let whole = bytes_of(&script(5));
    for length in [0, 1, 1000, 5000, whole.len() - 1] {
        let saved = saved(&whole[..length]);
        assert_eq!(read(&saved.file), Ok(saved.rows));
    }
}

/// What panel_board's record tells at its end of the file of one wire: the file itself, and the replies to it whole and damaged.
#[test]
fn the_board_saves_and_opens_as_the_oracle() {
    let board = record("panel_board", "stdout");
    let file = write(&drawn("h 0 0 9\n"));
    assert!(board.windows(file.len()).any(|bytes| bytes == file));
    let both = [&file[..], &[0, 0, 0]].concat();
    let longer_form = [&file[..2], &[174, 0], &file[3..]].concat();
    let flat = [1, 240, 46, 240, 46, 240, 46, 0, 0, 0];
    let opened = [&file[..], &both, &file[..file.len() - 1], &longer_form, &flat].map(reply);
    let text = String::from_utf8_lossy(&board);
    let told = text.lines().filter_map(|line| line.strip_prefix("open ")?.split(' ').next()?.parse().ok());
    assert_eq!(told.collect::<Vec<u32>>(), opened);
}
