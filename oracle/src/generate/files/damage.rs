//! One damage to a file, or several at once, so that the order of the refusals shows.

use super::{bytes, fields, table, values};
use crate::rows::Rows;
use fields::Fields;
use random::Random;

#[derive(Clone, Copy)]
enum Damage {
    Rows(fn(&mut Rows, &mut Random)),
    Values(fn(&mut Fields, &mut Random)),
    Bytes(fn(&mut Vec<u8>, &mut Random)),
}

const DAMAGES: [Damage; 27] = [
    Damage::Rows(table::swap),
    Damage::Rows(table::repeat),
    Damage::Rows(table::leave_out),
    Damage::Rows(table::start_at_end),
    Damage::Rows(table::add_wire),
    Damage::Rows(table::add_wire),
    Damage::Rows(table::add_wire),
    Damage::Rows(table::cut_wire),
    Damage::Rows(table::pad_on_wire),
    Damage::Rows(table::box_beside_box),
    Damage::Rows(table::other_symbol),
    Damage::Values(values::to_an_edge),
    Damage::Values(values::to_an_edge),
    Damage::Values(values::to_an_edge),
    Damage::Values(values::one_more_or_less),
    Damage::Values(values::not_the_fewest),
    Damage::Values(values::five_bytes),
    Damage::Values(values::other_count),
    Damage::Values(values::long_label),
    Damage::Bytes(bytes::flip),
    Damage::Bytes(bytes::cut),
    Damage::Bytes(bytes::cut),
    Damage::Bytes(bytes::lengthen),
    Damage::Bytes(bytes::lengthen),
    Damage::Bytes(bytes::insert),
    Damage::Bytes(bytes::remove),
    Damage::Bytes(bytes::overwrite),
];

/// The file of these rows with one to three damages: to rows first, then to numbers, then to bytes.
pub fn damaged(rows: &Rows, random: &mut Random) -> Vec<u8> {
    let count = random.pick(&[1, 1, 1, 1, 1, 2, 2, 2, 3]);
    let damages: Vec<Damage> = (0..count).map(|_| random.pick(&DAMAGES)).collect();
    let mut rows = rows.clone();
    for damage in &damages {
        if let Damage::Rows(damage) = damage {
            damage(&mut rows, random);
        }
    }
    let mut fields = fields::fields_of(&rows);
    for damage in &damages {
        if let Damage::Values(damage) = damage {
            damage(&mut fields, random);
        }
    }
    let mut file = fields::bytes_of(&fields);
    for damage in &damages {
        if let Damage::Bytes(damage) = damage {
            damage(&mut file, random);
        }
    }
    file.truncate(bytes::MOST_BYTES);
    file
}
