//! The rows of a drawing in document 01's order, and how panel_rows prints them.

/// The order of the fields makes the derived order document 01's row order: horizontal wires by (y, x1), then vertical
/// ones by (x, y1).
#[derive(Debug, Clone, Copy, PartialEq, Eq, PartialOrd, Ord)]
pub struct Wire {
    pub vertical: bool,
    /// y of a horizontal wire, x of a vertical one.
    pub line: i32,
    pub start: i32,
    pub end: i32,
}

/// Joints rise by (y, x).
#[derive(Debug, Clone, Copy, PartialEq, Eq, PartialOrd, Ord)]
pub struct Joint {
    pub y: i32,
    pub x: i32,
    pub count: u32,
}

/// Components rise by (y, x).
#[derive(Debug, Clone, PartialEq, Eq, PartialOrd, Ord)]
pub struct Component {
    pub y: i32,
    pub x: i32,
    pub kind: usize,
    pub orient: usize,
    pub label: Vec<u8>,
}

#[derive(Debug, Clone, Default, PartialEq, Eq)]
pub struct Rows {
    pub wires: Vec<Wire>,
    pub joints: Vec<Joint>,
    pub components: Vec<Component>,
}

impl Wire {
    /// Its two ends as (x, y).
    pub fn ends(&self) -> [[i32; 2]; 2] {
        if self.vertical {
            [[self.line, self.start], [self.line, self.end]]
        } else {
            [[self.start, self.line], [self.end, self.line]]
        }
    }
}

impl Rows {
    /// Brings rows that were gathered in any order into document 01's.
    pub fn sort(&mut self) {
        self.wires.sort_unstable();
        self.joints.sort_unstable();
        self.components.sort_unstable();
    }

    /// The sum of all joint counts, which the tally tells.
    pub fn ends(&self) -> u32 {
        self.joints.iter().map(|joint| joint.count).sum()
    }

    /// The tally and all rows, then the line that ends a dump.
    pub fn print(&self, out: &mut Vec<u8>) {
        self.print_lines(out);
        out.extend_from_slice(b".\n");
    }

    /// The tally and all rows, a line each.
    pub fn print_lines(&self, out: &mut Vec<u8>) {
        let tally = [self.wires.len(), self.joints.len(), self.components.len(), self.ends() as usize];
        put_line(out, b"T", &tally.map(|n| n as i32));
        for wire in &self.wires {
            put_line(out, if wire.vertical { b"W v" } else { b"W h" }, &[wire.line, wire.start, wire.end]);
        }
        for joint in &self.joints {
            put_line(out, b"J", &[joint.x, joint.y, joint.count as i32]);
        }
        for part in &self.components {
            put_words(out, b"C", &[part.kind as i32, part.orient as i32, part.x, part.y]);
            out.push(b' ');
            out.extend_from_slice(&part.label);
            out.push(b'\n');
        }
    }
}

/// A word and numbers, one space before each, and a newline.
pub fn put_line(out: &mut Vec<u8>, word: &[u8], numbers: &[i32]) {
    put_words(out, word, numbers);
    out.push(b'\n');
}

fn put_words(out: &mut Vec<u8>, word: &[u8], numbers: &[i32]) {
    out.extend_from_slice(word);
    for &number in numbers {
        out.push(b' ');
        put_number(out, number);
    }
}

/// By hand, because printing rows is most of what a comparison does.
fn put_number(out: &mut Vec<u8>, number: i32) {
    if number < 0 {
        out.push(b'-');
    }
    let mut digits = [0; 10];
    let mut place = digits.len();
    let mut rest = number.unsigned_abs();
    loop {
        place -= 1;
        digits[place] = b'0' + (rest % 10) as u8;
        rest /= 10;
        if rest == 0 {
            break;
        }
    }
    out.extend_from_slice(&digits[place..]);
}
