//! Damage to single numbers and label bytes: another value, or the same one in another form.

use super::fields::{Field, Fields, Form, Role};
use crate::refusal::MOST_WIRES;
use random::Random;

const FIFTH_BYTES: [u8; 9] = [0, 1, 14, 15, 16, 31, 0x7f, 0x80, 0x8f];

/// A number or label byte at an end of its range, or outside.
pub fn to_an_edge(fields: &mut Fields, random: &mut Random) {
    let at = random.below(fields.len());
    fields[at].value = random.pick(fields[at].role.edges());
}

pub fn one_more_or_less(fields: &mut Fields, random: &mut Random) {
    let at = random.below(fields.len());
    let value = fields[at].value;
    fields[at].value = if random.percent(50) { value.saturating_add(1) } else { value.saturating_sub(1) };
}

pub fn not_the_fewest(fields: &mut Fields, random: &mut Random) {
    let at = random.below(fields.len());
    fields[at].form = Form::Longer(1 + random.below(6));
}

pub fn five_bytes(fields: &mut Fields, random: &mut Random) {
    let at = random.below(fields.len());
    fields[at].form = Form::FifthByte(random.pick(&FIFTH_BYTES));
}

/// A count other than that of the rows behind it.
pub fn other_count(fields: &mut Fields, random: &mut Random) {
    let is_count = |field: &Field| matches!(field.role, Role::WireCount | Role::ComponentCount);
    let counts: Vec<usize> = (0..fields.len()).filter(|&at| is_count(&fields[at])).collect();
    let at = random.pick(&counts);
    let (value, room_left) = (fields[at].value, MOST_WIRES as u32 - fields[0].value.min(MOST_WIRES as u32));
    let other = [value.saturating_add(1), value.saturating_sub(1), room_left, room_left + 1];
    fields[at].value = if random.percent(60) { random.pick(&other) } else { random.pick(fields[at].role.edges()) };
}

/// A label of 15 to 18 bytes, its length told.
pub fn long_label(fields: &mut Fields, random: &mut Random) {
    let lengths: Vec<usize> = (0..fields.len()).filter(|&at| fields[at].role == Role::Length).collect();
    if lengths.is_empty() {
        return;
    }
    let at = random.pick(&lengths);
    let length = 15 + random.below(4);
    let old = fields[at + 1..].iter().take_while(|field| field.role == Role::LabelByte).count();
    let byte = Field { role: Role::LabelByte, value: b'K'.into(), form: Form::Fewest };
    fields[at] = Field { role: Role::Length, value: length as u32, form: Form::Fewest };
    fields.splice(at + 1..at + 1 + old, vec![byte; length]);
}
