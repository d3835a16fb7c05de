//! What a comparison went through, so that a reader can see that every kind of edit and reply was among it.

use std::collections::BTreeMap;
use std::fmt;

#[derive(Debug, Default)]
pub struct Counts {
    pub scripts: u64,
    /// Turns left out because tree order decides them.
    pub skipped: u64,
    /// Netlists of the Rust with document 01's lines and nets, and those in which the Rust forgot a link that shows.
    pub netlists_same: u64,
    pub netlists_parted: u64,
    lists: u64,
    /// By the line's letter and its reply.
    replies: BTreeMap<(char, String), u64>,
    hit: u64,
    lost: u64,
    /// Where rows are told: those above 0.
    rows_told: u64,
    most_wires: usize,
    most_components: usize,
}

impl Counts {
    /// Counts a line that was compared, by what was printed for it and the wires and components behind it.
    pub fn note(&mut self, line: &[u8], printed: &[u8], (wires, components): (usize, usize)) {
        self.most_wires = self.most_wires.max(wires);
        self.most_components = self.most_components.max(components);
        let first = printed.split(|&byte| byte == b'\n').next().unwrap_or_default();
        let words: Vec<_> = first.split(|&byte| byte == b' ').map(String::from_utf8_lossy).collect();
        let [letter, reply, turned @ ..] = &words[..] else { return };
        if line == b"n" || letter != "A" {
            self.lists += 1;
            return;
        }
        let letter = if reply == "10" { '?' } else { line[0] as char };
        *self.replies.entry((letter, reply.to_string())).or_default() += 1;
        match turned {
            [word, row] if word == "row" => self.rows_told += u64::from(row != "0"),
            [hit, lost] => {
                self.hit += hit.parse::<u64>().unwrap_or_default();
                self.lost += lost.parse::<u64>().unwrap_or_default();
            }
            _ => {}
        }
    }

    /// All lines that are not `n`.
    pub fn edits(&self) -> u64 {
        self.replies.values().sum()
    }
}

impl fmt::Display for Counts {
    fn fmt(&self, f: &mut fmt::Formatter) -> fmt::Result {
        writeln!(
            f,
            "{} scripts, {} edits, {} turns left out, {} lists",
            self.scripts,
            self.edits(),
            self.skipped,
            self.lists
        )?;
        for letter in ['h', 'v', 'p', 'd', 'r', 'm', '?'] {
            let replies: Vec<_> = self
                .replies
                .iter()
                .filter(|((of, _), _)| *of == letter)
                .map(|((_, reply), count)| format!("reply {reply}: {count}"))
                .collect();
            writeln!(f, "  {letter}  {}", replies.join(", "))?;
        }
        if self.rows_told > 0 {
            writeln!(f, "rows above 0 told {}", self.rows_told)?;
        } else {
            writeln!(f, "contacts hit {}, lost {}", self.hit, self.lost)?;
        }
        writeln!(f, "at most {} wires and {} components", self.most_wires, self.most_components)?;
        write!(
            f,
            "netlists of the Rust, all orders: {} with the same lines and nets, {} with a forgotten link",
            self.netlists_same, self.netlists_parted
        )
    }
}
