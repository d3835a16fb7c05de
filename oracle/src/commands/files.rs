//! The commands about saved drawings.

use super::{status, usage, write};
use crate::compare::{compare_files, compare_saved, hex, Opener, SaveAndOpen};
use crate::file::saved;
use std::io::Write;

pub fn save(script: &[u8]) -> Option<()> {
    let saved = saved(script);
    let _ = std::io::stderr().write_all(&saved.told);
    write(&saved.file)
}

/// Files in frames. Without a command the reader is compared with itself.
pub fn compare_frames(words: &[&str]) -> i32 {
    match Asked::read(words, 1_000_000) {
        Some(Asked { commands, count, seed }) => match &commands[..] {
            [] => compare_by(&Opener::Itself, seed, count),
            [words] => compare_by(&Opener::Frames(words.clone()), seed, count),
            _ => usage(),
        },
        None => usage(),
    }
}

/// One process for each file.
pub fn compare_each(words: &[&str]) -> i32 {
    match Asked::read(words, 1_000) {
        Some(Asked { commands, count, seed }) => match &commands[..] {
            [words] => compare_by(&Opener::Each(words.clone()), seed, count),
            _ => usage(),
        },
        None => usage(),
    }
}

fn compare_by(opener: &Opener, seed: u64, count: u64) -> i32 {
    let (counts, verdict) = compare_files(opener, seed, count as usize);
    println!("{counts}");
    status(verdict, |difference| {
        println!("DIFFERENCE in a file of {} bytes\n{}", difference.file.len(), hex(&difference.file));
        println!("{}", difference.what);
    })
}

/// A command that saves, and one that opens what was saved.
pub fn compare_saved_files(words: &[&str]) -> i32 {
    let Some(Asked { commands, count, seed }) = Asked::read(words, 1_000) else { return usage() };
    let [save, open] = &commands[..] else { return usage() };
    let (counts, verdict) = compare_saved(&SaveAndOpen { save: save.clone(), open: open.clone() }, seed, count);
    println!("{counts}");
    status(verdict, |difference| {
        println!("DIFFERENCE {}", difference.what);
        write(&difference.script.concat());
    })
}

/// What a comparison of files is asked to do.
struct Asked {
    /// The words of each command, which `--` begins.
    commands: Vec<Vec<String>>,
    count: u64,
    seed: u64,
}

impl Asked {
    fn read(words: &[&str], count: u64) -> Option<Self> {
        let mut parts = words.split(|&word| word == "--");
        let mut asked = Asked { commands: Vec::new(), count, seed: 1 };
        let mut rest = parts.next()?.iter();
        while let Some(&word) = rest.next() {
            match word {
                "--count" => asked.count = rest.next()?.parse().ok()?,
                "--seed" => asked.seed = rest.next()?.parse().ok()?,
                _ => return None,
            }
        }
        asked.commands = parts.map(|words| words.iter().map(|word| word.to_string()).collect()).collect();
        Some(asked)
    }
}
