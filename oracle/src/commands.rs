//! The command line.

mod files;

use crate::compare::{compare, in_three_orders, Counts};
use crate::drawing::{run, Drawing, Form};
use crate::file::{frames, opened};
use crate::generate::{bytes_of, script};
use crate::model::Model;
use crate::netlist::print_netlist;
use crate::original::Original;
use crate::program::Program;
use crate::sample::{write_sample, Sample};
use crate::script::{lines, read_line, Command};
use crate::shapes::{constants, shapes};
use crate::symbols::symbols;
use random::Random;
use rstar::Order;
use std::io::{Read, Write};
use std::path::Path;

const USAGE: &str = "\
oracle rows [ORDER]        the Rust's output for a script on standard input, in the form of panel_rows
oracle list [ORDER]        the same in the form of panel_list
oracle netlist [ORDER]     at each n the Rust's own netlist
oracle told [ORDER]        for each edit `A <reply> row <row>`, the row being the first component touched, or 0
oracle model               panel_rows by the model instead of the Rust
oracle generate SEED       the script of a seed
oracle filter              the script on standard input without the turns that tree order decides
oracle sample rows DIR     writes DIR/stdin, a script by lot, and DIR/stdout, what panel_rows must print for it
oracle sample list DIR     the same for panel_list, with the drop point, chosen lines and full tables before it
oracle sample files DIR    frames of chosen and damaged files, and what panel_files must print for them
oracle sample save DIR     the drop point among refused and unreadable lines, and the file that panel_save must write
oracle sample open DIR     the drop point's file, and what panel_open must print for it
oracle save                the file of the drawing at the end of a script on standard input, as panel_save writes it, by the
                           model; each line not answered with 0 is told on standard error
oracle open                what panel_open prints for a file on standard input
oracle open-frames         what panel_files prints: the same for many files, each behind its length in two bytes, low first
oracle symbols             turns, boxes and pads, in the form of panel_symbols
oracle shapes              the bits of all shapes, in the form of panel_shapes
oracle constants           the bits of the constants built with a square root
oracle compare [--list|--told] [--edits N] [--seed N] [-- COMMAND]
                           seeded scripts through the Rust in all orders and through a command that reads a script
                           and prints as panel_rows does (as panel_list with --list, as `oracle told` with --told),
                           or the model if none is named
oracle compare --files [--count N] [--seed N] [-- COMMAND]
                           files of drawings, whole and damaged, through a command that reads frames and prints as
                           panel_files does; if none is named the reader is held to what must be so for every file
oracle compare --each-file [--count N] [--seed N] -- COMMAND
                           the same files, each through its own run of a command that prints as panel_open does
oracle compare --saved [--count N] [--seed N] -- SAVE -- OPEN
                           seeded scripts, whole and cut, through a command that works as panel_save, and what it
                           writes through one that works as panel_open
ORDER: insertion (default), reverse, shuffled, middle";

/// The exit status.
pub fn main(arguments: &[String]) -> i32 {
    let words: Vec<&str> = arguments.iter().map(String::as_str).collect();
    let done = match words[..] {
        ["rows", ref rest @ ..] => {
            with_order(rest, |order| write(&run(&mut Original::new(order), &input(), Form::Rows)))
        }
        ["list", ref rest @ ..] => {
            with_order(rest, |order| write(&run(&mut Original::new(order), &input(), Form::List)))
        }
        ["told", ref rest @ ..] => {
            with_order(rest, |order| write(&run(&mut Original::new(order), &input(), Form::Told)))
        }
        ["netlist", ref rest @ ..] => with_order(rest, |order| write(&netlists(order, &input()))),
        ["model"] => write(&run(&mut Model::default(), &input(), Form::Rows)),
        ["generate", seed] => seed.parse().ok().and_then(|seed| write(&bytes_of(&script(seed)))),
        ["filter"] => filter(&input()),
        ["sample", name, folder] => Sample::named(name).and_then(|sample| write_into(sample, folder)),
        ["save"] => files::save(&input()),
        ["open"] => write(&opened(&input())),
        ["open-frames"] => frames(&input()).try_for_each(|file| write(&opened(file))),
        ["symbols"] => write(symbols().as_bytes()),
        ["shapes"] => write(shapes().as_bytes()),
        ["constants"] => write(constants().as_bytes()),
        ["compare", "--files", ref rest @ ..] => return files::compare_frames(rest),
        ["compare", "--each-file", ref rest @ ..] => return files::compare_each(rest),
        ["compare", "--saved", ref rest @ ..] => return files::compare_saved_files(rest),
        ["compare", ref rest @ ..] => return compare_by_words(rest),
        _ => None,
    };
    match done {
        Some(()) => 0,
        None => usage(),
    }
}

fn usage() -> i32 {
    eprintln!("{USAGE}");
    2
}

fn input() -> Vec<u8> {
    let mut script = Vec::new();
    std::io::stdin().read_to_end(&mut script).expect("standard input can be read");
    script
}

/// A reader that stops early, as `head` does, is no error.
fn write(bytes: &[u8]) -> Option<()> {
    let _ = std::io::stdout().write_all(bytes);
    Some(())
}

fn with_order(words: &[&str], then: impl Fn(Order) -> Option<()>) -> Option<()> {
    match words {
        [] | ["insertion"] => then(Order::Insertion),
        ["reverse"] => then(Order::Reverse),
        ["shuffled"] => then(Order::Shuffled(Random(1))),
        ["middle"] => then(Order::Middle),
        _ => None,
    }
}

fn netlists(order: Order, script: &[u8]) -> Vec<u8> {
    let mut original = Original::new(order);
    let mut out = Vec::new();
    for command in lines(script).map(read_line) {
        match command {
            Command::List => out.extend(print_netlist(&original.state)),
            Command::Edit(edit) => drop(original.edit(&edit)),
            Command::Unreadable => {}
        }
    }
    out
}

fn filter(script: &[u8]) -> Option<()> {
    let script: Vec<_> = lines(script).map(<[u8]>::to_vec).collect();
    let kept = in_three_orders(&script, Form::List, &mut Counts::default());
    kept.map_err(|what| eprintln!("{what}")).ok().and_then(|(kept, _)| write(&bytes_of(&kept)))
}

fn write_into(sample: Sample, folder: &str) -> Option<()> {
    write_sample(sample, Path::new(folder)).map_err(|what| eprintln!("{what}")).ok()
}

fn compare_by_words(words: &[&str]) -> i32 {
    let Some(asked) = Asked::read(words) else { return usage() };
    let (counts, verdict) = compare(&asked.program, asked.form, asked.seed, asked.edits);
    println!("{counts}");
    status(verdict, |difference| {
        println!("DIFFERENCE {}", difference.what);
        write(&bytes_of(&difference.script));
    })
}

/// The exit status of a comparison, once its difference is told.
fn status<T>(verdict: Result<(), T>, tell: impl Fn(T)) -> i32 {
    match verdict {
        Ok(()) => {
            println!("no difference");
            0
        }
        Err(difference) => {
            tell(difference);
            1
        }
    }
}

/// What a comparison is asked to do.
struct Asked {
    program: Program,
    form: Form,
    edits: u64,
    seed: u64,
}

impl Asked {
    fn read(words: &[&str]) -> Option<Self> {
        let mut asked = Asked { program: Program::Model, form: Form::Rows, edits: 1_000_000, seed: 1 };
        let mut rest = words.iter();
        while let Some(&word) = rest.next() {
            match word {
                "--list" => asked.form = Form::List,
                "--told" => asked.form = Form::Told,
                "--edits" => asked.edits = rest.next()?.parse().ok()?,
                "--seed" => asked.seed = rest.next()?.parse().ok()?,
                "--" => asked.program = Program::Command(rest.by_ref().map(|word| word.to_string()).collect()),
                _ => return None,
            }
        }
        Some(asked)
    }
}
