//! Chosen files: each refusal, each edge of a range and each rule, alone and before another fault.

use super::fields::{bytes_of, fields_of, Field, Form, Role};
use super::rooms::{apart, counts_alone, largest_file, COUNTS};
use crate::file::{put_number, write};
use crate::rows::{Component, Rows, Wire};
use crate::script::{lines, read_line, Command, Edit};

/// The beginning of a file: counts in other forms than their own, and the empty drawing's.
const BEGINNINGS: [&[u8]; 26] = [
    &[],
    &[0, 0, 0],
    &[0, 0, 0, 0],
    &[0],
    &[0, 0],
    &[0x80],
    &[0x80, 0],
    &[0x80, 0x80],
    &[0x80, 0x80, 0],
    &[0x80, 0x80, 0x80, 0x80],
    &[0x80, 0x80, 0x80, 0x80, 0],
    &[0x80, 0x80, 0x80, 0x80, 1],
    &[0xff, 0xff, 0xff],
    &[0xff, 0xff, 0xff, 0x7f],
    &[0xff, 0xff, 0xff, 0xff],
    &[0xff, 0xff, 0xff, 0xff, 15],
    &[0xff, 0xff, 0xff, 0xff, 16],
    &[0xff, 0xff, 0xff, 0xff, 0x8f],
    &[0xff, 0xff, 0xff, 0xff, 0xff],
    &[0x80, 0x80, 0x80, 0x80, 0x80, 0],
    &[0, 0x80, 0],
    &[0, 0, 0x80, 0],
    &[0, 0, 1],
    &[0, 0, 0x81, 1],
    &[0x80, 4],
    &[0x81, 4],
];

/// A drawing with a field of each role, and the places of those fields that are tried.
const ONE_OF_EACH: &str = "h 0 0 100\nv 100 0 50\np 2 3 400 500 K1\n";
const TRIED: [usize; 11] = [0, 1, 4, 5, 8, 9, 10, 11, 12, 13, 14];
const OTHER_FORMS: [Form; 5] =
    [Form::Longer(1), Form::Longer(4), Form::FifthByte(15), Form::FifthByte(16), Form::FifthByte(0x8f)];

/// Rows as they are to stand in a file, lawful ones and others, in the form of a script.
const RULES: [&str; 40] = [
    "h 0 0 100",
    "h 0 0 0",
    "h 0 5 4",
    "h 0 0 100\nv 100 0 0",
    "h 0 5 5\np 0 0 5 0 V",
    "v 0 0 0",
    "v 0 5 4",
    "h 0 0 100\nh 0 0 100",
    "h 0 0 50\nh 0 0 100",
    "h 0 0 100\nh 0 50 150",
    "h 0 0 100\nh 0 99 150",
    "v 0 0 100\nv 0 20 50",
    "h 0 0 100\nh 0 100 200",
    "v 0 0 100\nv 0 100 200",
    "h 0 0 100\nh 0 101 200",
    "h 0 101 200\nh 0 0 100",
    "h 5 0 9\nh 0 0 9",
    "v 5 0 9\nv 0 0 9",
    "h 0 0 100\nv 50 -40 40",
    "h 0 0 100\nv 50 0 40",
    "h 0 0 100\nv 99 -40 0",
    "h 0 0 100\nv 100 0 50",
    "h 0 0 50\nh 0 50 100\nv 50 0 80",
    "h 0 0 50\nh 0 50 100\nv 50 -80 0\nv 50 0 80",
    "h 0 0 50\nh 0 50 100\nv 50 -80 80",
    "h 0 0 100\np 0 0 50 0 V",
    "h 0 0 50\nh 0 50 100\np 0 0 50 0 V",
    "h 0 0 100\np 0 0 100 0 V",
    "v 50 -6000 6000\np 1 0 0 0 K",
    "p 1 0 0 0\np 1 0 100 0",
    "p 1 0 0 0\np 1 0 101 0",
    "p 1 0 101 0\np 1 0 0 0",
    "p 1 0 0 0\np 1 0 0 200",
    "p 1 0 0 0\np 1 0 0 201",
    "p 1 0 0 201\np 1 0 0 0",
    "p 0 0 0 0\np 0 0 0 0",
    "p 2 3 0 0\np 2 1 -301 0",
    "p 2 1 -300 0\np 2 3 0 0",
    "h -6000 -6000 6000\nh 6000 -6000 6000\nv -6000 -6000 6000\nv 6000 -6000 6000",
    "p 2 0 -5800 -5800 !~\np 1 3 5800 5800 K-16-bytes-long!",
];

/// Of these counts all rows are behind them.
const WHOLE: [[usize; 3]; 4] = [[512, 0, 0], [513, 0, 0], [257, 256, 128], [0, 0, 129]];

pub fn chosen() -> Vec<Vec<u8>> {
    let beginnings = BEGINNINGS.iter().map(|bytes| bytes.to_vec()).collect();
    [beginnings, cut_everywhere(), edges(), rules(), counts(), lengthened()].concat()
}

fn cut_everywhere() -> Vec<Vec<u8>> {
    let file = write(&listed(ONE_OF_EACH));
    (0..=file.len()).map(|length| file[..length].to_vec()).chain([[&file[..], b"K"].concat()]).collect()
}

/// The rows of a script's lines, which nobody edits into a drawing: they stand as they are listed.
fn listed(script: &str) -> Rows {
    let mut rows = Rows::default();
    for line in lines(script.as_bytes()) {
        match read_line(line) {
            Command::Edit(Edit::Wire { vertical, line, start, end }) => {
                rows.wires.push(Wire { vertical, line, start, end });
            }
            Command::Edit(Edit::Place { kind, orient, x, y, label }) => {
                rows.components.push(Component { y, x, kind: kind as usize, orient: orient as usize, label });
            }
            other => unreachable!("{other:?} lists no row"),
        }
    }
    rows
}

/// Each number and label byte at each edge of its range and in longer forms, all of the file behind it or none.
fn edges() -> Vec<Vec<u8>> {
    let fields = fields_of(&listed(ONE_OF_EACH));
    let mut files = Vec::new();
    for place in TRIED {
        let field = fields[place];
        let at_edges = field.role.edges().iter().map(|&value| Field { value, ..field });
        let forms = OTHER_FORMS.iter().filter(|_| field.role != Role::LabelByte).map(|&form| Field { form, ..field });
        for other in at_edges.chain(forms) {
            let mut fields = fields.clone();
            fields[place] = other;
            files.push(bytes_of(&fields));
            files.push(bytes_of(&fields[..=place]));
        }
    }
    files
}

/// Each drawing whole, without its last byte, and with a byte more.
fn rules() -> Vec<Vec<u8>> {
    let each = |script: &&str| {
        let file = write(&listed(script));
        let cut = file[..file.len() - 1].to_vec();
        let longer = [&file[..], &[0]].concat();
        [file, cut, longer]
    };
    RULES.iter().flat_map(each).collect()
}

/// Counts at their rooms and above: alone, with the beginning of their rows, and some with all rows.
fn counts() -> Vec<Vec<u8>> {
    let beginning = |&counts: &[usize; 3]| write(&apart(counts))[..20].to_vec();
    let alone = COUNTS.iter().map(|&counts| counts_alone(counts));
    let whole = WHOLE.iter().map(|&counts| write(&apart(counts)));
    alone.chain(COUNTS.iter().map(beginning)).chain(second_count_at_once()).chain(whole).collect()
}

/// 511 horizontal wires and no more bytes than the second count, which is one too many, or just not.
fn second_count_at_once() -> Vec<Vec<u8>> {
    let with_count = |count: u32| {
        let mut file = write(&apart([511, 0, 0]));
        file.truncate(file.len() - 2);
        put_number(&mut file, count);
        file
    };
    vec![with_count(1), with_count(2)]
}

/// The largest file, around it, and short ones made as long and much longer.
fn lengthened() -> Vec<Vec<u8>> {
    let largest = largest_file();
    let longer = |file: &[u8], length: usize| {
        let mut file = file.to_vec();
        file.resize(length, 0);
        file
    };
    let short = write(&listed(ONE_OF_EACH));
    let size = largest.len();
    let cut = largest[..size - 1].to_vec();
    vec![
        cut,
        longer(&largest, size + 1),
        longer(&short, size),
        longer(&short, size + 1),
        longer(&short, 0xffff),
        largest,
    ]
}
