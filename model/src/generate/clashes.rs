//! Descriptions in which fields bear names of other fields.

use super::{Rng, EARLIER_FIELDS};
use crate::descriptions::{Description, Field};
use crate::names::is_short_name;
use crate::naming::read_names;

/// Names that a field gets to share with another.
const SHARED: [&[u8]; 8] = [b"x", b"y", b"Z", b"Q1", b"n7", b"Bits", b"Present", b"Abcdefg8"];
const TRIES: usize = 12;

/// Gives later fields names of earlier ones, one to three times; where there are many fields, at times the last one
/// a name of the first and nothing else. Each field keeps a name that fits in its cell.
pub fn clash(rng: &mut Rng, description: &mut Description) {
    let count = description.fields.len();
    if count < 2 {
        return;
    }
    if count >= EARLIER_FIELDS && !rng.one_in(3) {
        return share(rng, description, (0, count - 1));
    }
    for _ in 0..rng.pick([1, 2, 2, 3]) {
        let pair = pair(rng, &description.fields);
        share(rng, description, pair);
    }
}

/// Two fields, the earlier one first; at times one of them is a long field, if there is one.
fn pair(rng: &mut Rng, fields: &[Field<usize>]) -> (usize, usize) {
    let from = rng.below(fields.len());
    let long = fields[from..].iter().position(|field| field.fixed_bits().is_none()).filter(|_| rng.one_in(3));
    let one = from + long.unwrap_or(0);
    let other = (one + rng.between(1, fields.len() - 1)) % fields.len();
    (one.min(other), one.max(other))
}

/// Two fields get one name, each as its label or as its short name.
fn share(rng: &mut Rng, description: &mut Description, (earlier, later): (usize, usize)) {
    for _ in 0..TRIES {
        let fields = &description.fields;
        let new = rng.pick(SHARED);
        let (by_label, as_label) = (rng.one_in(2), rng.one_in(2));
        let own = if by_label { Some(fields[earlier].label) } else { fields[earlier].short };
        let is_new = !fields.iter().any(|field| field.is_called(new));
        let Some(name) = own.filter(|_| rng.one_in(2)).or(is_new.then_some(new)) else { continue };
        let one = renamed(&fields[earlier], name, by_label, description.row_bits);
        let other = renamed(&fields[later], name, as_label, description.row_bits);
        if let (Some(one), Some(other)) = (one, other) {
            description.fields[earlier] = one;
            description.fields[later] = other;
            return;
        }
    }
}

/// The field with another label or short name, if it can bear it: one of its names fits in its cell, and it can be
/// read if it could be.
fn renamed<'a>(
    field: &Field<'a, usize>,
    name: &'a [u8],
    as_label: bool,
    row_bits: u32,
) -> Option<Field<'a, usize>> {
    let mut other = field.clone();
    if as_label {
        other.label = name;
    } else {
        other.short = Some(name).filter(|name| is_short_name(name));
        other.short?;
    }
    let room = 2 * field.fixed_bits().unwrap_or(row_bits) as usize - 1;
    let fits = other.names().any(|name| name.len() <= room);
    let is_read = |field| read_names(field).next().is_some();
    (fits && (is_read(&other) || !is_read(field))).then_some(other)
}
