//! A file as the row of its numbers and label bytes, each of which can be written otherwise.

use crate::file::{put_number, STORED_PLUS};
use crate::rows::{Component, Rows};

#[derive(Debug, Clone, Copy, PartialEq, Eq)]
pub enum Role {
    WireCount,
    Coordinate,
    ComponentCount,
    Kind,
    Orientation,
    Position,
    Length,
    LabelByte,
}

#[derive(Debug, Clone, Copy, PartialEq, Eq)]
pub enum Form {
    Fewest,
    /// With so many groups of zeros on top.
    Longer(usize),
    /// Four groups and this byte.
    FifthByte(u8),
}

#[derive(Debug, Clone, Copy)]
pub struct Field {
    pub role: Role,
    pub value: u32,
    pub form: Form,
}

impl Role {
    /// Values at both ends of its range and one outside, some that take one group more, and some whose low 8 or 16 bits
    /// would be in range.
    pub fn edges(self) -> &'static [u32] {
        match self {
            Role::WireCount => &[0, 1, 127, 128, 511, 512, 513, 16_384, 0x1_0001, u32::MAX],
            Role::Coordinate => &[0, 1, 127, 128, 11_999, 12_000, 12_001, 16_383, 16_384, 0x1_0800, u32::MAX],
            Role::ComponentCount => &[0, 1, 127, 128, 129, 256, 257, 0x1_0001, 0x8000_0001],
            Role::Kind => &[0, 1, 2, 3, 127, 128, 256, 0x1_0000, u32::MAX],
            Role::Orientation => &[0, 7, 8, 15, 127, 128, 256, 0x1_0007, u32::MAX],
            Role::Position => &[0, 199, 200, 201, 11_799, 11_800, 11_801, 12_000, 12_001, 0x1_0800, u32::MAX],
            Role::Length => &[0, 1, 15, 16, 17, 127, 128, 256, 0x1_0002, u32::MAX],
            Role::LabelByte => &[0, 0x0a, 0x20, 0x21, 0x7e, 0x7f, 0x80, 0xa1, 0xff],
        }
    }
}

/// The fields of a file in their order.
pub type Fields = Vec<Field>;

/// The fields of the file of these rows.
pub fn fields_of(rows: &Rows) -> Fields {
    let mut fields = Vec::new();
    for vertical in [false, true] {
        let wires: Vec<_> = rows.wires.iter().filter(|wire| wire.vertical == vertical).collect();
        put(&mut fields, Role::WireCount, wires.len() as u32);
        for at in wires.into_iter().flat_map(|wire| [wire.line, wire.start, wire.end]) {
            put(&mut fields, Role::Coordinate, stored(at));
        }
    }
    put(&mut fields, Role::ComponentCount, rows.components.len() as u32);
    for part in &rows.components {
        put_component(&mut fields, part);
    }
    fields
}

fn put_component(fields: &mut Fields, part: &Component) {
    put(fields, Role::Kind, part.kind as u32);
    put(fields, Role::Orientation, part.orient as u32);
    put(fields, Role::Position, stored(part.x));
    put(fields, Role::Position, stored(part.y));
    put(fields, Role::Length, part.label.len() as u32);
    for &byte in &part.label {
        put(fields, Role::LabelByte, byte.into());
    }
}

fn put(fields: &mut Fields, role: Role, value: u32) {
    fields.push(Field { role, value, form: Form::Fewest });
}

fn stored(at: i32) -> u32 {
    (at + STORED_PLUS) as u32
}

pub fn bytes_of(fields: &[Field]) -> Vec<u8> {
    let mut out = Vec::new();
    for field in fields {
        put_field(&mut out, field);
    }
    out
}

fn put_field(out: &mut Vec<u8>, &Field { role, value, form }: &Field) {
    match form {
        _ if role == Role::LabelByte => out.push(value as u8),
        Form::Fewest => put_number(out, value),
        Form::Longer(groups) => {
            put_number(out, value);
            for _ in 0..groups {
                *out.last_mut().expect("a number has a byte") |= 0x80;
                out.push(0);
            }
        }
        Form::FifthByte(fifth) => {
            out.extend([0, 7, 14, 21].map(|low| (value >> low) as u8 | 0x80));
            out.push(fifth);
        }
    }
}

#[cfg(test)]
mod tests {
    use super::{bytes_of, fields_of};
    use crate::file::write;
    use crate::generate::files::few;
    use random::Random;

    #[test]
    fn fields_are_written_as_the_file_is() {
        let mut random = Random(1);
        for _ in 0..1000 {
            let rows = few::by_lot(&mut random);
            assert_eq!(bytes_of(&fields_of(&rows)), write(&rows));
        }
    }
}
