//! What every drawing here can do, whoever makes the edits: perform a line of a script and print the answer.

use crate::rows::{put_line, Rows};
use crate::script::{lines, read_line, Command, Edit};

#[derive(Debug, Clone, Copy, Default, PartialEq, Eq)]
pub struct Answer {
    pub reply: u32,
    pub hit: u32,
    pub lost: u32,
    /// For reply 6 the row, from 0, of the first component touched (document 02, P4), else 0. No script line prints it.
    pub row: u32,
}

impl Answer {
    /// An answer that tells no hit and no lost contacts, as each refusal does, and no row.
    pub fn reply(reply: u32) -> Self {
        Answer { reply, ..Answer::default() }
    }

    /// 6, with the row of the first component touched.
    pub fn touching(row: usize) -> Self {
        Answer { reply: 6, row: row as u32, ..Answer::default() }
    }
}

pub trait Drawing {
    fn edit(&mut self, edit: &Edit) -> Answer;

    fn rows(&self) -> Rows;

    /// The R and S lines of document 01's list.
    fn list(&self) -> Vec<u8>;

    /// How many pads are loose (document 02, P2). The Rust tells nothing of it.
    fn loose(&self) -> usize;
}

/// Which program's output is printed.
#[derive(Debug, Clone, Copy, PartialEq, Eq)]
pub enum Form {
    /// panel_list: answers and lists.
    List,
    /// panel_rows: behind each answer the tally and all rows, and a point behind each line's output.
    Rows,
    /// Each edit's reply and the row that it tells, as panel_board prints them of its calls; no list.
    Told,
}

/// Prints what the program prints for a whole script.
pub fn run(drawing: &mut dyn Drawing, script: &[u8], form: Form) -> Vec<u8> {
    let mut out = Vec::new();
    for line in lines(script) {
        perform(drawing, &read_line(line), form, &mut out);
    }
    out
}

pub fn perform(drawing: &mut dyn Drawing, command: &Command, form: Form, out: &mut Vec<u8>) {
    match command {
        Command::List if form == Form::Told => {}
        Command::List => {
            out.extend(drawing.list());
            put_line(out, b"E", &[drawing.loose() as i32]);
            if form == Form::Rows {
                out.extend_from_slice(b".\n");
            }
        }
        Command::Edit(edit) => {
            let answer = drawing.edit(edit);
            print_answer(edit, answer, form, out);
            if form == Form::Rows {
                drawing.rows().print(out);
            }
        }
        Command::Unreadable if form == Form::Told => out.extend_from_slice(b"A 10 row 0\n"),
        Command::Unreadable => {
            out.extend_from_slice(b"A 10\n");
            if form == Form::Rows {
                drawing.rows().print(out);
            }
        }
    }
}

pub fn print_answer(edit: &Edit, answer: Answer, form: Form, out: &mut Vec<u8>) {
    let Answer { reply, hit, lost, row } = answer;
    match edit {
        _ if form == Form::Told => out.extend(format!("A {reply} row {row}\n").bytes()),
        Edit::TurnRight(_) | Edit::Mirror(_) => put_line(out, b"A", &[reply as i32, hit as i32, lost as i32]),
        _ => put_line(out, b"A", &[reply as i32]),
    }
}
