//! The times as tables: the median over the places at each size, the worst at the largest, and the growth. In microseconds where the
//! Rust's stand beside them, in nanoseconds where ours stand alone.

/// The sizes between which growth is told.
const FROM: usize = 128;
const TO: usize = 512;

#[derive(Default)]
pub struct Table {
    rows: Vec<Row>,
}

/// One call at all sizes.
struct Row {
    name: String,
    cells: Vec<Cell>,
}

struct Cell {
    size: usize,
    ours: Spread,
    theirs: Option<Spread>,
}

#[derive(Clone, Copy)]
struct Spread {
    median: f64,
    worst: f64,
}

fn spread(times: &[f64]) -> Spread {
    let mut times: Vec<f64> = times.iter().map(|time| time / 1000.0).collect();
    times.sort_by(f64::total_cmp);
    Spread { median: times[times.len() / 2], worst: times[times.len() - 1] }
}

fn nanoseconds(time: f64) -> String {
    format!("{:.0}", time * 1000.0)
}

/// Three digits, whatever the number.
fn shown(time: f64) -> String {
    let places = (2.0 - time.log10().floor()).clamp(0.0, 3.0) as usize;
    format!("{time:.places$}")
}

impl Spread {
    fn least(self, other: Spread) -> Spread {
        Spread { median: self.median.min(other.median), worst: self.worst.min(other.worst) }
    }
}

impl Table {
    /// Where a call was timed at that size before, the lesser times count.
    pub fn row(&mut self, name: &str, size: usize, ours: &[f64], theirs: Option<&[f64]>) {
        let cell = Cell { size, ours: spread(ours), theirs: theirs.map(spread) };
        let at = self.rows.iter().position(|row| row.name == name).unwrap_or_else(|| {
            self.rows.push(Row { name: name.to_string(), cells: Vec::new() });
            self.rows.len() - 1
        });
        let cells = &mut self.rows[at].cells;
        match cells.iter_mut().find(|cell| cell.size == size) {
            Some(before) => {
                before.ours = before.ours.least(cell.ours);
                before.theirs = before.theirs.zip(cell.theirs).map(|(a, b)| a.least(b));
            }
            None => cells.push(cell),
        }
    }

    /// Calls that the Rust has too, then those that only ours has.
    pub fn print(&self) {
        println!("| µs: ours / the Rust = ratio | 64 | 128 | 256 | 512 | worst at 512 | growth |");
        println!("|---|---|---|---|---|---|---|");
        self.rows.iter().filter(|row| row.is_both()).for_each(Row::print);
        println!("\n| ns: ours | 64 | 128 | 256 | 512 | worst at 512 | growth |\n|---|---|---|---|---|---|---|");
        self.rows.iter().filter(|row| !row.is_both()).for_each(Row::print);
    }

    /// How many times as long one call takes as another, at each size.
    pub fn print_times(&self, slow: &str, fast: &str) {
        let row = |name| self.rows.iter().find(|row| row.name == name).expect("a call that was timed");
        let both = row(slow).cells.iter().zip(&row(fast).cells);
        let times = both.map(|(slow, fast)| format!("{} at {}", shown(slow.ours.median / fast.ours.median), slow.size));
        println!("\n{slow}, in times of {fast}: {}", times.collect::<Vec<_>>().join(", "));
    }
}

impl Row {
    fn is_both(&self) -> bool {
        self.cells.iter().all(|cell| cell.theirs.is_some())
    }

    fn print(&self) {
        let mut line = format!("| {} |", self.name);
        for Cell { ours, theirs, .. } in &self.cells {
            line += &match theirs {
                Some(theirs) => {
                    let ratio = shown(ours.median / theirs.median);
                    format!(" {} / {} = {ratio} |", shown(ours.median), shown(theirs.median))
                }
                None => format!(" {} |", nanoseconds(ours.median)),
            };
        }
        let last = self.cells.last().expect("every call is timed at every size");
        let unit = if self.is_both() { shown } else { nanoseconds };
        let worst = [Some(last.ours), last.theirs].into_iter().flatten().map(|side| unit(side.worst));
        let growth = [self.growth(|cell| Some(cell.ours)), self.growth(|cell| cell.theirs)];
        let growth = growth.into_iter().flatten().map(|power| format!("n^{power:.2}"));
        println!("{line} {} | {} |", worst.collect::<Vec<_>>().join(" / "), growth.collect::<Vec<_>>().join(" / "));
    }

    /// The power of n by which the median grows.
    fn growth(&self, side: impl Fn(&Cell) -> Option<Spread>) -> Option<f64> {
        let at = |size| self.cells.iter().find(|cell| cell.size == size).and_then(&side);
        Some((at(TO)?.median / at(FROM)?.median).log2() / (TO as f64 / FROM as f64).log2())
    }
}
