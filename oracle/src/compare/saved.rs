//! Scripts of a seed through a program that saves drawings, and what it saves through one that opens them.

use super::{first_difference, text_lines, Difference};
use crate::file::{saved, shown};
use crate::generate::{bytes_of, script};
use crate::minimise::minimise;
use crate::program::{printed_and_told, printed_at_once};
use random::Random;
use std::fmt;

/// The words of two commands, which work as panel_save and panel_open.
pub struct SaveAndOpen {
    pub save: Vec<String>,
    pub open: Vec<String>,
}

#[derive(Debug, Default)]
pub struct SavedCounts {
    pub scripts: u64,
    drawings: u64,
    lines_told: usize,
    largest: usize,
}

/// Each script is also cut at so many places, anywhere in a line.
const CUTS: usize = 3;

pub fn compare_saved(programs: &SaveAndOpen, first_seed: u64, count: u64) -> (SavedCounts, Result<(), Difference>) {
    let mut counts = SavedCounts::default();
    for seed in first_seed..first_seed + count {
        let whole = bytes_of(&script(seed));
        let mut random = Random(seed);
        let cuts: Vec<usize> = (0..CUTS).map(|_| random.below(whole.len())).collect();
        for length in [whole.len()].into_iter().chain(cuts) {
            if let Err(what) = programs.judge(&whole[..length], &mut counts) {
                let what = format!("seed {seed}, {length} bytes of its script: {what}");
                return (counts, Err(programs.shrink(what, &whole[..length])));
            }
        }
        counts.scripts += 1;
    }
    (counts, Ok(()))
}

impl SaveAndOpen {
    fn judge(&self, script: &[u8], counts: &mut SavedCounts) -> Result<(), String> {
        let expected = saved(script);
        let (file, told) = printed_and_told(&self.save, script)?;
        same_lines(&expected.told, &told).map_err(|what| format!("told of the script: {what}"))?;
        if file != expected.file {
            return Err(format!("the file: expected {}, found {}", hex(&expected.file), hex(&file)));
        }
        let opened = printed_at_once(&self.open, &file)?;
        same_lines(&shown(&expected.rows), &opened).map_err(|what| format!("opened again: {what}"))?;
        counts.drawings += 1;
        counts.lines_told += expected.told.split(|&byte| byte == b'\n').count() - 1;
        counts.largest = counts.largest.max(file.len());
        Ok(())
    }

    fn shrink(&self, what: String, script: &[u8]) -> Difference {
        let lines: Vec<Vec<u8>> = script.split_inclusive(|&byte| byte == b'\n').map(<[u8]>::to_vec).collect();
        let verdict = |lines: &[Vec<u8>]| self.judge(&lines.concat(), &mut SavedCounts::default());
        let script = minimise(&lines, |lines| verdict(lines).is_err());
        let smallest = verdict(&script).err().unwrap_or_default();
        Difference { what: format!("{what}\nsmallest script found, {smallest}"), script }
    }
}

/// Nothing, or the first line that differs.
fn same_lines(expected: &[u8], found: &[u8]) -> Result<(), String> {
    if expected == found {
        return Ok(());
    }
    let (same, what) = first_difference(&text_lines(expected), &text_lines(found));
    Err(format!("line {}: {what}", same + 1))
}

/// Two digits for each byte.
pub fn hex(bytes: &[u8]) -> String {
    bytes.iter().map(|byte| format!("{byte:02x}")).collect()
}

impl fmt::Display for SavedCounts {
    fn fmt(&self, f: &mut fmt::Formatter) -> fmt::Result {
        writeln!(f, "{} scripts, {} drawings saved and opened again", self.scripts, self.drawings)?;
        write!(f, "{} lines told, the largest file has {} bytes", self.lines_told, self.largest)
    }
}
