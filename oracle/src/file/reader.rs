//! Reading a file: each byte is judged when it is read, the drawing when its last component is there.

use super::{lawful, BYTES_BEHIND, ENDS_EARLY, NOT_LAWFUL, STORED_PLUS};
use crate::drawing::Drawing;
use crate::model::Model;
use crate::refusal::{FARTHEST_POINT, FARTHEST_POSITION, LONGEST_LABEL, MOST_COMPONENTS, MOST_WIRES};
use crate::rows::{Component, Rows, Wire};

/// The fifth byte of a number holds bits 28 to 31 and so ends it.
const LARGEST_FIFTH_BYTE: u8 = 15;

/// The drawing, its joints counted again, or the refusal.
pub fn read(file: &[u8]) -> Result<Rows, u32> {
    let (rows, behind) = read_rows(file)?;
    if !lawful(&rows) {
        return Err(NOT_LAWFUL);
    }
    if !behind.is_empty() {
        return Err(BYTES_BEHIND);
    }
    Ok(Model::of(rows.wires, rows.components).rows())
}

/// All wires and components, each value in its range, whatever drawing they make, without joints; and the bytes behind them.
pub fn read_rows(file: &[u8]) -> Result<(Rows, &[u8]), u32> {
    let mut reader = Reader { rest: file };
    let mut wires = reader.wires(false, MOST_WIRES)?;
    wires.extend(reader.wires(true, MOST_WIRES - wires.len())?);
    let count = reader.number_within(0, MOST_COMPONENTS as u32)?;
    let components = (0..count).map(|_| reader.component()).collect::<Result<_, _>>()?;
    Ok((Rows { wires, joints: Vec::new(), components }, reader.rest))
}

struct Reader<'a> {
    rest: &'a [u8],
}

impl Reader<'_> {
    fn byte(&mut self) -> Result<u8, u32> {
        let (&byte, rest) = self.rest.split_first().ok_or(ENDS_EARLY)?;
        self.rest = rest;
        Ok(byte)
    }

    fn number(&mut self) -> Result<u32, u32> {
        let mut number = 0;
        for place in 0..5 {
            let byte = self.byte()?;
            let more_than_the_fewest = place > 0 && byte == 0;
            let above_32_bits = place == 4 && byte > LARGEST_FIFTH_BYTE;
            if more_than_the_fewest || above_32_bits {
                return Err(NOT_LAWFUL);
            }
            number |= u32::from(byte & 0x7f) << (7 * place);
            if byte < 0x80 {
                return Ok(number);
            }
        }
        unreachable!("a fifth byte of at most 15 ends its number")
    }

    fn number_within(&mut self, least: u32, most: u32) -> Result<u32, u32> {
        let number = self.number()?;
        if number < least || most < number {
            return Err(NOT_LAWFUL);
        }
        Ok(number)
    }

    /// At most so far from 0.
    fn coordinate(&mut self, farthest: i32) -> Result<i32, u32> {
        let stored = self.number_within((STORED_PLUS - farthest) as u32, (STORED_PLUS + farthest) as u32)?;
        Ok(stored as i32 - STORED_PLUS)
    }

    /// The number of wires of a direction, at most as many as there is room for, and these wires.
    fn wires(&mut self, vertical: bool, room: usize) -> Result<Vec<Wire>, u32> {
        let count = self.number_within(0, room as u32)?;
        (0..count).map(|_| self.wire(vertical)).collect()
    }

    fn wire(&mut self, vertical: bool) -> Result<Wire, u32> {
        let line = self.coordinate(FARTHEST_POINT)?;
        let start = self.coordinate(FARTHEST_POINT)?;
        let end = self.coordinate(FARTHEST_POINT)?;
        Ok(Wire { vertical, line, start, end })
    }

    fn component(&mut self) -> Result<Component, u32> {
        let kind = self.number_within(0, 2)? as usize;
        let orient = self.number_within(0, 7)? as usize;
        let x = self.coordinate(FARTHEST_POSITION)?;
        let y = self.coordinate(FARTHEST_POSITION)?;
        let length = self.number_within(0, LONGEST_LABEL as u32)?;
        let label = (0..length).map(|_| self.label_byte()).collect::<Result<_, _>>()?;
        Ok(Component { y, x, kind, orient, label })
    }

    fn label_byte(&mut self) -> Result<u8, u32> {
        match self.byte()? {
            byte @ 0x21..=0x7e => Ok(byte),
            _ => Err(NOT_LAWFUL),
        }
    }
}
