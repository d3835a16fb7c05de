//! Numbers written otherwise: with zeros in front, and zero with a minus. What their lines ask for stays the same.

use super::Script;
use crate::script::{read_line, Command, LONGEST_LINE};
use random::Random;

/// So many of a hundred readable lines may get such a number.
const SHARE: usize = 10;
const MOST_DIGITS: usize = 6;

/// Rewrites a number here and there, by lots of its own, so that a seed's edits are the same either way.
pub fn rewrite_numbers(script: &mut Script, seed: u64) {
    let mut random = Random(!seed);
    for line in script {
        if matches!(read_line(line), Command::Edit(_)) && random.percent(SHARE) {
            let rewritten = rewritten(line, &mut random);
            if rewritten.len() <= LONGEST_LINE {
                *line = rewritten;
            }
        }
    }
}

fn rewritten(line: &[u8], random: &mut Random) -> Vec<u8> {
    let numbers = if line.starts_with(b"p") { 4 } else { 3 };
    let mut words: Vec<_> = line.splitn(numbers + 2, |&byte| byte == b' ').map(<[u8]>::to_vec).collect();
    let chosen = 1 + random.below(numbers);
    words[chosen] = widened(&words[chosen], random);
    words.join(&b' ')
}

fn widened(number: &[u8], random: &mut Random) -> Vec<u8> {
    let digits = number.strip_prefix(b"-").unwrap_or(number);
    let minus = digits.len() < number.len() || (digits == b"0" && random.percent(50));
    let zeros = random.below(MOST_DIGITS - digits.len() + 1);
    [if minus { &b"-"[..] } else { b"" }, &vec![b'0'; zeros], digits].concat()
}

#[cfg(test)]
mod tests {
    use super::{read_line, rewrite_numbers};
    use crate::generate::{bytes_of, Script};

    #[test]
    fn rewritten_lines_ask_for_the_same() {
        let long = format!("{:K<80}", "p 1 0 0 0 ");
        let lines = ["h 0 -5 999999", "p 1 0 0 -300", "p 1 0 0 -300 K 1", &long, "n", "", "h 0 0 0 ", "d 6000 0 1000"];
        let script: Script = lines.iter().cycle().take(8000).map(|line| line.as_bytes().to_vec()).collect();
        let mut other = script.clone();
        rewrite_numbers(&mut other, 1);
        assert!(script.iter().zip(&other).all(|(line, other)| read_line(line) == read_line(other)));
        let text = String::from_utf8(bytes_of(&other)).unwrap();
        assert!([" -0 ", " 00", " -000005 ", " 999999\n"].iter().all(|part| text.contains(part)));
    }
}
