//! Packets made for a table.

use super::extremes::far_length;
use super::Rng;
use crate::descriptions::{Description, Field, Width};
use crate::evaluation::value;
use crate::operators::ZERO_DIVISOR;
use crate::reading::{read_fields, LONGEST_PACKET};
use crate::tables::good_description;
use crate::trees::{Node, Tree};

const MOST_BITS: u64 = 8 * LONGEST_PACKET as u64;
const VALUES_TRIED: usize = 24;
const PACKETS_TRIED: usize = 6;
/// A rest field that fills a far packet is one of so many.
const FAR: usize = 2;
/// A packet that has a zero divisor is left so one time in so many.
const DIVIDED: usize = 2;

/// A packet that the table accepts, if one is found soon; random bytes for a table that is not good.
pub fn fitting(rng: &mut Rng, table: &[u8]) -> Vec<u8> {
    let Ok(description) = good_description(table) else {
        return if rng.one_in(4) { random_packet(rng) } else { few_bytes(rng) };
    };
    let mut packet = Vec::new();
    for _ in 0..PACKETS_TRIED {
        packet = attempt(rng, &description);
        let is_left = match read_fields(&description, &packet) {
            Err(refusal) => refusal.number == ZERO_DIVISOR && rng.one_in(DIVIDED),
            Ok(_) => true,
        };
        if is_left {
            break;
        }
    }
    packet
}

/// Random bytes, at times as many as a packet may have, or more.
pub fn random_packet(rng: &mut Rng) -> Vec<u8> {
    let length = match rng.below(8) {
        0 => far_length(rng),
        1 | 2 => rng.between(LONGEST_PACKET + 1, LONGEST_PACKET + 2),
        _ => return few_bytes(rng),
    };
    rng.bytes(length)
}

fn few_bytes(rng: &mut Rng) -> Vec<u8> {
    let length = rng.below(40);
    rng.bytes(length)
}

/// A packet of fields in order, up to the first that faults.
fn attempt(rng: &mut Rng, description: &Description) -> Vec<u8> {
    let mut bits = Vec::new();
    let mut values = Vec::new();
    for (index, field) in description.fields.iter().enumerate() {
        let after = &description.fields[index + 1..];
        if add_field(rng, field, after, &mut values, &mut bits).is_none() {
            break;
        }
    }
    bits.chunks(8).map(byte).collect()
}

fn byte(bits: &[bool]) -> u8 {
    (0..8).fold(0, |byte, place| byte << 1 | u8::from(bits.get(place) == Some(&true)))
}

/// Adds the bits of a field that is present; none if an expression leaves the range or reads an absent field, or the
/// packet gets too long.
fn add_field(
    rng: &mut Rng,
    field: &Field<usize>,
    after: &[Field<usize>],
    values: &mut Vec<Option<u32>>,
    bits: &mut Vec<bool>,
) -> Option<()> {
    if let Some(condition) = &field.condition {
        if value_or_any(rng, condition, values)? == 0 {
            values.push(None);
            return Some(());
        }
    }
    let long = match &field.width {
        Width::Fixed(width) => {
            let number = choose(rng, field, *width, values);
            values.push(Some(number));
            bits.extend((0..*width).rev().map(|place| number >> place & 1 == 1));
            return Some(());
        }
        Width::Measured { unit, tree } => u64::from(*unit) * u64::from(value_or_any(rng, tree, values)?),
        Width::Rest => {
            let behind: u32 = after.iter().filter_map(Field::fixed_bits).sum();
            let others = bits.len() as u64 + u64::from(behind);
            let length = if rng.one_in(FAR) { far_length(rng) as u64 } else { 0 };
            let fewest = others.div_ceil(8) + rng.below(4) as u64;
            8 * fewest.max(length) - others
        }
    };
    values.push(None);
    if long + bits.len() as u64 > MOST_BITS {
        return None;
    }
    let bytes = rng.bytes((long as usize).div_ceil(8));
    bits.extend((0..long as usize).map(|place| bytes[place / 8] >> (place % 8) & 1 == 1));
    Some(())
}

/// The value of an expression; where a divisor is zero, any with which the packet goes on.
fn value_or_any(rng: &mut Rng, tree: &Tree<usize>, values: &[Option<u32>]) -> Option<u32> {
    match value(tree, values) {
        Err(ZERO_DIVISOR) => Some(rng.pick([0, 0, 1])),
        value => value.ok(),
    }
}

/// A number for a fixed field of `width` bits, one that its constraint takes if such a one is found.
fn choose(rng: &mut Rng, field: &Field<usize>, width: u32, values: &[Option<u32>]) -> u32 {
    let greatest = (1u64 << width) - 1;
    let Some(constraint) = &field.constraint else { return likely(rng).min(greatest) as u32 };
    let mut values = values.to_vec();
    let place = values.len();
    values.push(None);
    let mut number = 0;
    for _ in 0..VALUES_TRIED {
        let node = constraint.nodes[rng.below(constraint.nodes.len())];
        number = match node {
            Node::Number(named) => (u64::from(named) + rng.pick([0, 0, 0, 1, greatest])) & greatest,
            _ => likely(rng).min(greatest),
        } as u32;
        values[place] = Some(number);
        if value(constraint, &values).is_ok_and(|truth| truth != 0) {
            break;
        }
    }
    number
}

/// A number, small as a rule.
fn likely(rng: &mut Rng) -> u64 {
    match rng.below(60) {
        0 => rng.below(LONGEST_PACKET) as u64,
        1..=10 => rng.bits() & u64::from(u32::MAX),
        11..=20 => rng.bits() & 255,
        _ => rng.bits() & 3,
    }
}
