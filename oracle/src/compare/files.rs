//! Files of a seed through a program that opens them, compared one by one with what the oracle's reader gives.

use super::file_counts::FileCounts;
use super::invariants;
use crate::file::{opened, put_frame};
use crate::generate::files::files;
use crate::minimise::minimise;
use crate::program::{printed, printed_at_once};

/// The other side.
pub enum Opener {
    /// The words of a command that works as panel_files: many files in frames, one process for a batch of them.
    Frames(Vec<String>),
    /// The words of a command that works as panel_open: one process for each file.
    Each(Vec<String>),
    /// No program: the reader is held to what must be so for every file.
    Itself,
}

/// The smallest file found on which both sides differ.
#[derive(Debug)]
pub struct FileDifference {
    pub what: String,
    pub file: Vec<u8>,
}

/// So many files go through one process.
const BATCH: usize = 2000;

pub fn compare_files(opener: &Opener, seed: u64, count: usize) -> (FileCounts, Result<(), FileDifference>) {
    let mut counts = FileCounts::default();
    let mut files = files(seed).take(count);
    loop {
        let batch: Vec<Vec<u8>> = files.by_ref().take(BATCH).collect();
        if batch.is_empty() {
            return (counts, Ok(()));
        }
        let answers: Vec<Vec<u8>> = batch.iter().map(|file| opened(file)).collect();
        if let Err(what) = opener.judge(&batch, &answers) {
            return (counts, Err(smallest(opener, &batch, &answers, what)));
        }
        for (file, answer) in batch.iter().zip(&answers) {
            counts.note(file, answer);
        }
    }
}

impl Opener {
    /// Whether the files get these answers, one behind the other.
    fn judge(&self, files: &[Vec<u8>], answers: &[Vec<u8>]) -> Result<(), String> {
        if let Opener::Itself = self {
            return files.iter().try_for_each(|file| invariants::check(file));
        }
        if self.answers(files)? == answers.concat() {
            Ok(())
        } else {
            Err("other answers".into())
        }
    }

    /// All that is printed for the files.
    fn answers(&self, files: &[Vec<u8>]) -> Result<Vec<u8>, String> {
        match self {
            Opener::Frames(words) => {
                let mut input = Vec::new();
                files.iter().for_each(|file| put_frame(&mut input, file));
                printed(words, &input)
            }
            Opener::Each(words) => files
                .iter()
                .map(|file| printed_at_once(words, file))
                .collect::<Result<Vec<_>, _>>()
                .map(|all| all.concat()),
            Opener::Itself => Ok(Vec::new()),
        }
    }

    fn differs(&self, file: &[u8]) -> bool {
        self.judge(&[file.to_vec()], &[opened(file)]).is_err()
    }

    /// Those files that may show the difference when they are opened alone: where each has an answer, those with another one.
    fn suspects<'a>(&self, files: &'a [Vec<u8>], answers: &[Vec<u8>]) -> Vec<&'a Vec<u8>> {
        let found = self.answers(files).unwrap_or_default();
        let found = split_answers(&found);
        let same_number = found.len() == files.len();
        let other = |at: usize| !same_number || found[at] != answers[at];
        (0..files.len()).filter(|&at| other(at)).map(|at| &files[at]).collect()
    }
}

/// Each answer begins with its `A` line, and no other line begins so.
fn split_answers(printed: &[u8]) -> Vec<Vec<u8>> {
    let mut answers: Vec<Vec<u8>> = Vec::new();
    for line in printed.split_inclusive(|&byte| byte == b'\n') {
        match answers.last_mut() {
            Some(last) if !line.starts_with(b"A ") => last.extend_from_slice(line),
            _ => answers.push(line.to_vec()),
        }
    }
    answers
}

fn smallest(opener: &Opener, batch: &[Vec<u8>], answers: &[Vec<u8>], what: String) -> FileDifference {
    let mut suspects = opener.suspects(batch, answers);
    suspects.sort_by_key(|file| file.len());
    let Some(file) = suspects.into_iter().find(|file| opener.differs(file)) else {
        let what = format!("{what}, and no file alone shows it: the batch ends with this one");
        return FileDifference { what, file: batch[batch.len() - 1].clone() };
    };
    let file = minimise(file, |bytes| opener.differs(bytes));
    FileDifference { what: both_answers(opener, &file), file }
}

fn both_answers(opener: &Opener, file: &[u8]) -> String {
    let expected = String::from_utf8_lossy(&opened(file)).into_owned();
    if let Opener::Itself = opener {
        return format!("{}\nexpected\n{expected}", invariants::check(file).err().unwrap_or_default());
    }
    let found = match opener.answers(&[file.to_vec()]) {
        Ok(printed) => String::from_utf8_lossy(&printed).into_owned(),
        Err(what) => what,
    };
    format!("expected\n{expected}found\n{found}")
}
