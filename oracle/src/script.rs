//! The script of panel_list: its lines, and what each asks for.

/// A line is at most so many bytes long, its newline aside.
pub const LONGEST_LINE: usize = 80;

#[derive(Debug, Clone, PartialEq, Eq)]
pub enum Command {
    Edit(Edit),
    List,
    Unreadable,
}

#[derive(Debug, Clone, PartialEq, Eq)]
pub enum Edit {
    Wire { vertical: bool, line: i32, start: i32, end: i32 },
    Place { kind: i32, orient: i32, x: i32, y: i32, label: Vec<u8> },
    Delete(Pointer),
    TurnRight(Pointer),
    Mirror(Pointer),
}

/// The square of half-width `size` about (x, y).
#[derive(Debug, Clone, Copy, PartialEq, Eq)]
pub struct Pointer {
    pub x: i32,
    pub y: i32,
    pub size: i32,
}

/// The lines of a script. A last line without a newline counts if not empty.
pub fn lines(script: &[u8]) -> impl Iterator<Item = &[u8]> {
    script.split_inclusive(|&byte| byte == b'\n').map(|line| line.strip_suffix(b"\n").unwrap_or(line))
}

pub fn read_line(line: &[u8]) -> Command {
    if line.len() > LONGEST_LINE {
        return Command::Unreadable;
    }
    if line == b"n" {
        return Command::List;
    }
    match read_edit(line) {
        Some(edit) => Command::Edit(edit),
        None => Command::Unreadable,
    }
}

fn read_edit(line: &[u8]) -> Option<Edit> {
    let (letter, rest) = word(line)?;
    match letter {
        b"h" => wire(false, rest),
        b"v" => wire(true, rest),
        b"p" => place(rest),
        b"d" => Some(Edit::Delete(pointer(rest)?)),
        b"r" => Some(Edit::TurnRight(pointer(rest)?)),
        b"m" => Some(Edit::Mirror(pointer(rest)?)),
        _ => None,
    }
}

/// The part before the first space and the part behind it.
fn word(line: &[u8]) -> Option<(&[u8], &[u8])> {
    let space = line.iter().position(|&byte| byte == b' ')?;
    Some((&line[..space], &line[space + 1..]))
}

fn wire(vertical: bool, rest: &[u8]) -> Option<Edit> {
    let [line, start, end] = three_numbers(rest)?;
    Some(Edit::Wire { vertical, line, start, end })
}

fn pointer(rest: &[u8]) -> Option<Pointer> {
    let [x, y, size] = three_numbers(rest)?;
    Some(Pointer { x, y, size })
}

fn three_numbers(rest: &[u8]) -> Option<[i32; 3]> {
    let (first, rest) = word(rest)?;
    let (second, third) = word(rest)?;
    Some([number(first)?, number(second)?, number(third)?])
}

/// The label is the rest of the line behind the space that ends Y; that space promises at least one byte.
fn place(rest: &[u8]) -> Option<Edit> {
    let (kind, rest) = word(rest)?;
    let (orient, rest) = word(rest)?;
    let (x, rest) = word(rest)?;
    let (y, label) = match word(rest) {
        Some((_, [])) => return None,
        Some((y, label)) => (y, label),
        None => (rest, &rest[..0]),
    };
    Some(Edit::Place {
        kind: number(kind)?,
        orient: number(orient)?,
        x: number(x)?,
        y: number(y)?,
        label: label.to_vec(),
    })
}

/// An optional minus and 1 to 6 digits.
fn number(text: &[u8]) -> Option<i32> {
    let (sign, digits) = match text.strip_prefix(b"-") {
        Some(digits) => (-1, digits),
        None => (1, text),
    };
    if !(1..=6).contains(&digits.len()) || !digits.iter().all(u8::is_ascii_digit) {
        return None;
    }
    Some(sign * digits.iter().fold(0, |value, digit| 10 * value + i32::from(digit - b'0')))
}
