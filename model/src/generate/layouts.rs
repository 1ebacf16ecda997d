//! Random rows: which fields a description has, in order.

use super::Rng;
use super::EARLIER_FIELDS;
use crate::rules::{MOST_FIELDS, ROW_BITS};

#[derive(Clone, Copy, PartialEq, Eq)]
pub enum Slot {
    Fixed(u32),
    Measured,
    Rest,
}

pub struct Layout {
    pub row_bits: u32,
    /// The most lines of a bit row.
    pub row_lines: usize,
    pub slots: Vec<Slot>,
}

impl Layout {
    /// Rows of one line.
    pub fn new(row_bits: u32, slots: Vec<Slot>) -> Self {
        Layout { row_bits, row_lines: 1, slots }
    }
}

/// A few rows.
pub fn layout(rng: &mut Rng) -> Layout {
    let row_bits = rng.pick(ROW_BITS);
    let mut slots = Vec::new();
    for _ in 0..rng.between(1, 6) {
        add_row(rng, row_bits, &mut slots, 16);
    }
    Layout::new(row_bits, slots)
}

/// As many rows as give exactly `count` fields.
pub fn full_layout(rng: &mut Rng, count: usize) -> Layout {
    let row_bits = rng.pick(ROW_BITS);
    let mut slots = Vec::new();
    while slots.len() < count {
        let most = (count - slots.len()).min(12);
        add_row(rng, row_bits, &mut slots, most);
    }
    Layout::new(row_bits, slots)
}

/// A number of fields at the limit, at that of document 01 or between them.
pub fn many(rng: &mut Rng) -> usize {
    match rng.below(3) {
        0 => EARLIER_FIELDS + rng.below(2),
        1 => MOST_FIELDS - rng.below(2),
        _ => rng.between(EARLIER_FIELDS, MOST_FIELDS),
    }
}

/// A number of fields over the limit; at times it takes more than a byte.
pub fn too_many(rng: &mut Rng) -> usize {
    match rng.below(8) {
        0..=4 => MOST_FIELDS + 1,
        5 => MOST_FIELDS + 2,
        6 => rng.between(MOST_FIELDS + 3, 255),
        _ => rng.between(256, 258),
    }
}

/// `count` fields, each in a row of its own.
pub fn tall_layout(rng: &mut Rng, row_bits: u32, count: usize) -> Layout {
    let mut slots = Vec::new();
    while slots.len() < count {
        add_row(rng, row_bits, &mut slots, 1);
    }
    Layout::new(row_bits, slots)
}

/// Adds a row of at most `most` fields; after the rest field bit rows only.
fn add_row(rng: &mut Rng, row_bits: u32, slots: &mut Vec<Slot>, most: usize) {
    if !slots.contains(&Slot::Rest) && rng.one_in(4) {
        let slot = if rng.one_in(3) { Slot::Rest } else { Slot::Measured };
        return slots.push(slot);
    }
    let mut left = row_bits;
    for place in 1.. {
        let bits = if place == most || rng.one_in(3) { left } else { part(rng, left) };
        slots.push(Slot::Fixed(bits));
        left -= bits;
        if left == 0 {
            return;
        }
    }
}

/// Some of the bits left in a row, at least 1.
fn part(rng: &mut Rng, left: u32) -> u32 {
    let some = match rng.below(3) {
        0 => left / 2,
        1 => rng.between(1, 4) as u32,
        _ => rng.between(1, left as usize) as u32,
    };
    some.clamp(1, left)
}
