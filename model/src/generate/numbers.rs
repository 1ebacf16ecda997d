//! Tables with wrong numbers, tables of mixed forms, and old tables [02, R-5].

use super::Rng;
use crate::descriptions::{Description, Field};
use crate::editions::{Edition, CURRENT, UNCOUNTED};
use crate::operators::Op;
use crate::references::readers;
use crate::stored::{encode, encode_in, encode_with};
use crate::trees::Node;

/// An old table keeps `/`, `%` and `^` one time in so many.
const ADDED: usize = 8;
/// Where a kind and a number stand in a record.
const KIND: usize = 2;
const NUMBER: usize = 4;

/// A table that is right but for its numbers, most often.
pub fn misnumbered(rng: &mut Rng, description: &Description) -> Vec<u8> {
    let right = readers(&description.fields);
    let index = rng.below(right.len());
    let mut numbers = right.clone();
    let Some(number) = numbers.get_mut(index) else { return encode(description) };
    match rng.below(8) {
        0 => *number += 1,
        1 => *number = number.saturating_sub(1),
        2 => *number = rng.pick([0, 1, 255, 256, 65_535]),
        3 => *number = number.wrapping_add(256),
        4 => *number = usize::from((*number as u16).swap_bytes()),
        5 => numbers.rotate_left(1),
        6 => numbers = counted(description, |reader, read| reader >= read, false),
        _ => numbers = counted(description, |reader, read| reader != read, true),
    }
    encode_with(&CURRENT, description, &numbers)
}

/// For each field the references to it in the fields that count, or with `once` the fields that have some.
fn counted(description: &Description, counts: impl Fn(usize, usize) -> bool, once: bool) -> Vec<usize> {
    let fields = &description.fields;
    let by = |reader: usize, read: usize| {
        let nodes = fields[reader].trees().flat_map(|tree| &tree.nodes);
        let references = nodes.filter(|node| **node == Node::Name(read)).count();
        if once {
            references.min(1)
        } else {
            references
        }
    };
    let all = |read: usize| {
        let readers = (0..fields.len()).filter(|reader| counts(*reader, read));
        readers.map(|reader| by(reader, read)).sum()
    };
    (0..fields.len()).map(all).collect()
}

/// A table of which some or all records have the kind or the form of old ones.
pub fn mixed(rng: &mut Rng, description: &Description) -> Vec<u8> {
    match rng.below(5) {
        0 | 1 => encode_in(&UNCOUNTED, description),
        2 => encode_in(&Edition { keeps_numbers: false, ..CURRENT }, description),
        3 => encode_in(&Edition { keeps_numbers: true, ..UNCOUNTED }, description),
        _ => one_old(rng, encode(description)),
    }
}

/// A table of which one record has an old kind, with its number or without it.
fn one_old(rng: &mut Rng, mut table: Vec<u8>) -> Vec<u8> {
    let starts = field_records(&table);
    let Some(start) = starts.get(rng.below(starts.len())).copied() else { return table };
    table[start + KIND] -= 10;
    if rng.one_in(2) {
        let length = number_at(&table, start) as u16 - 2;
        table[start..start + 2].copy_from_slice(&length.to_le_bytes());
        table.drain(start + NUMBER..start + NUMBER + 2);
    }
    table
}

/// Where the records of fields start in a table of the form in force.
fn field_records(table: &[u8]) -> Vec<usize> {
    let mut starts = Vec::new();
    let mut at = number_at(table, 0);
    while at + NUMBER < table.len() {
        starts.push(at);
        at += number_at(table, at).max(NUMBER);
    }
    starts
}

fn number_at(table: &[u8], at: usize) -> usize {
    usize::from(u16::from_le_bytes([table[at], table[at + 1]]))
}

/// The old table of a description, most often without `/`, `%` and `^`.
pub fn old(rng: &mut Rng, description: &Description) -> Vec<u8> {
    let mut description = description.clone();
    if !rng.one_in(ADDED) {
        description.fields.iter_mut().for_each(|field| without_added(rng, field));
    }
    encode_in(&UNCOUNTED, &description)
}

/// Puts other operators of arithmetic in the place of those that document 01 does not have.
fn without_added(rng: &mut Rng, field: &mut Field<usize>) {
    for node in field.trees_mut().flat_map(|tree| &mut tree.nodes) {
        if let Node::Two(op @ (Op::Div | Op::Rem | Op::Pow), ..) = node {
            *op = rng.pick([Op::Add, Op::Sub, Op::Mul]);
        }
    }
}
