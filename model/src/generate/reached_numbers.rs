//! The generated cases reach the answers that depend on how often fields are read, and those of the converter
//! [02, R-5], and often.

use super::{old_table, table, text, Rng, EARLIER_FIELDS};
use crate::conversion::convert_table;
use crate::descriptions::Field;
use crate::editions::{Edition, CURRENT, UNCOUNTED};
use crate::references::readers;
use crate::stored::{decode, encode, encode_in, Decoded};
use crate::tables::{check_table, good_description, good_in};
use crate::texts::write_table;
use crate::trees::Node;
use std::collections::BTreeMap;

const CASES: usize = 10_000;
/// So many of them are of each sort, at the least.
const DUE: usize = 10;
const ROOM: usize = 1 << 16;

/// How often each sort of case turned up.
#[derive(Default)]
struct Counts(BTreeMap<&'static str, usize>);

impl Counts {
    fn add(&mut self, is_one: bool, sort: &'static str) {
        *self.0.entry(sort).or_default() += usize::from(is_one);
    }

    fn has_all(&self) {
        assert!(self.0.values().all(|found| *found >= DUE), "{:?}", self.0);
    }
}

/// How often the expressions of the field at `reader` read that at `read`.
fn reads(fields: &[Field<usize>], reader: usize, read: usize) -> usize {
    let nodes = fields[reader].trees().flat_map(|tree| &tree.nodes);
    nodes.filter(|node| **node == Node::Name(read)).count()
}

/// The sorts of fields that are accepted.
fn accepted(counts: &mut Counts, fields: &[Field<usize>]) {
    let all = || 0..fields.len();
    let repeats = |reader: usize| (0..reader).any(|read| reads(fields, reader, read) > 1);
    let numbers = readers(fields);
    let most = numbers.iter().copied().max().unwrap_or(0);
    counts.add(all().any(|index| reads(fields, index, index) > 0), "a field that reads itself");
    counts.add(all().any(repeats), "a field that reads another twice");
    counts.add(most == 0, "no field is read");
    counts.add(most > 255, "a field is read over 255 times");
    counts.add(numbers.last().is_some_and(|last| *last == 0), "the last field is not read");
}

/// The number of each field as a table has it, and as it is to be; none if these are the same or all else is not right.
fn misnumbered(table: &[u8]) -> Option<(Vec<usize>, Vec<usize>)> {
    let Decoded { description, numbers } = decode(&CURRENT, table)?;
    good_description(&encode(&description)).ok()?;
    let right = readers(&description.fields);
    (numbers != right).then_some((numbers, right))
}

#[test]
fn tables_of_every_sort() {
    let (mut rng, mut counts) = (Rng::new(12), Counts::default());
    let old_kinds = Edition { keeps_numbers: true, ..UNCOUNTED };
    let without_numbers = Edition { keeps_numbers: false, ..CURRENT };
    for _ in 0..2 * CASES {
        let table = table(&mut rng);
        if let Ok(description) = good_description(&table) {
            accepted(&mut counts, &description.fields);
            continue;
        }
        let is_of = |edition: &Edition| good_in(edition, &table).is_ok();
        counts.add(is_of(&UNCOUNTED), "an old table");
        counts.add(is_of(&old_kinds), "old kinds with numbers");
        counts.add(is_of(&without_numbers), "new kinds without numbers");
        let Some((wrong, right)) = misnumbered(&table) else { continue };
        let differ = wrong.iter().zip(&right).filter(|(wrong, right)| wrong != right).count();
        counts.add(differ == 1, "one wrong number");
        counts.add(differ > 1, "wrong numbers");
        counts.add(differ == 1 && wrong[0] != right[0], "the first number is wrong");
        counts.add(differ == 1 && wrong.last() != right.last(), "the last number is wrong");
        let alike = |(wrong, right): (&usize, &usize)| wrong % 256 == right % 256;
        counts.add(wrong.iter().zip(&right).all(alike), "a wrong second byte");
    }
    counts.has_all();
}

#[test]
fn texts_of_every_sort() {
    let (mut rng, mut counts) = (Rng::new(13), Counts::default());
    for _ in 0..CASES {
        if let Ok(table) = write_table(&text(&mut rng), ROOM) {
            accepted(&mut counts, &good_description(&table).unwrap().fields);
        }
    }
    counts.has_all();
}

#[test]
fn old_tables_of_every_sort() {
    let (mut rng, mut counts) = (Rng::new(14), Counts::default());
    let many_fields = Edition { most_fields: CURRENT.most_fields, ..UNCOUNTED };
    let all_operators = Edition { most_fields: EARLIER_FIELDS, keeps_numbers: false, ..CURRENT };
    for _ in 0..2 * CASES {
        let table = old_table(&mut rng);
        counts.add(check_table(&table).is_ok(), "a table in force");
        let converted = convert_table(&table, ROOM);
        counts.add(converted.is_ok(), "converted");
        if let Ok(converted) = converted {
            let description = good_in(&UNCOUNTED, &table).unwrap();
            assert_eq!(converted, encode(&description));
            counts.add(description.fields.len() == EARLIER_FIELDS, "converted, of 64 fields");
            counts
                .add(readers(&description.fields).iter().any(|count| *count > 255), "converted, read often");
            continue;
        }
        let too_many = good_in(&many_fields, &table);
        counts.add(
            too_many.is_ok_and(|description| description.fields.len() == EARLIER_FIELDS + 1),
            "of 65 fields",
        );
        let decoded = decode(&UNCOUNTED, &table);
        let added = decoded.map(|Decoded { description, .. }| encode_in(&all_operators, &description));
        counts.add(added.is_some_and(|other| good_in(&all_operators, &other).is_ok()), "an added operator");
    }
    counts.has_all();
}
