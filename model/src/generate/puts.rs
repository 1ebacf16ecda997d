//! Tables and records that are to be put into them [02, R-4] [02, R-5].

use super::bends::bend;
use super::layouts::layout;
use super::runs::{row_ends, whole_rows, without, Plan};
use super::words::Names;
use super::{edits, fields, table, Rng};
use crate::descriptions::{Description, Field};
use crate::editions::{Edition, CURRENT, UNCOUNTED};
use crate::renumbering::{first_reader, renumber};
use crate::rules::MOST_FIELDS;
use crate::stored::{encode, encode_fields};
use crate::tables::good_description;
use std::ops::Range;

/// A table, and records that are to be put in before the field of an index.
pub struct Put {
    pub table: Vec<u8>,
    pub index: usize,
    pub records: Vec<u8>,
}

/// Many of them can be put in: fields that were cut out, or those of another description. Others are of too many
/// fields, of names that are there, no whole records, of other kinds, with broken rules or changed bytes, or for a
/// wrong place.
pub fn put(rng: &mut Rng) -> Put {
    match rng.below(16) {
        0 => {
            let table = table(rng);
            let (index, records) = (rng.below(8), few_records(rng));
            Put { table, index, records }
        }
        1..=3 => joined(rng),
        _ => cut_before(rng),
    }
}

/// The records of the fields from `first` to `last` of a good table, with any numbers in them.
pub fn records(rng: &mut Rng, table: &[u8], first: usize, last: usize) -> Vec<u8> {
    let fields = good_description(table).map_or(Vec::new(), |description| description.fields);
    fields.get(first..=last).map_or(Vec::new(), |run| records_of(rng, run))
}

/// The records of fields, with any numbers in them.
fn records_of(rng: &mut Rng, fields: &[Field<usize>]) -> Vec<u8> {
    records_in(rng, &CURRENT, fields)
}

fn records_in(rng: &mut Rng, edition: &Edition, fields: &[Field<usize>]) -> Vec<u8> {
    let mut number = |_| match rng.below(4) {
        0 => 0,
        1 => rng.pick([1, 255, 256, 65_535]),
        _ => usize::from(rng.bits() as u16),
    };
    let numbers: Vec<usize> = fields.iter().map(&mut number).collect();
    encode_fields(edition, fields, &numbers)
}

fn few_records(rng: &mut Rng) -> Vec<u8> {
    let layout = layout(rng);
    let names = Names::random(rng, &layout, false);
    let description = fields::description(rng, &layout, &names);
    let count = rng.between(1, 2).min(description.fields.len());
    records_of(rng, &description.fields[..count])
}

/// The fields of a description put into another: with their references moved to where they are put, most often.
fn joined(rng: &mut Rng) -> Put {
    let (one, other) = (Plan::random(rng, None), Plan::random(rng, None));
    let (into, mut from) = (one.description(rng), other.description(rng));
    let ends = row_ends(&into);
    let index = if rng.one_in(8) { rng.below(ends.len() + 2) } else { ends[rng.below(ends.len())] };
    if !rng.one_in(8) {
        from.fields.iter_mut().for_each(|field| renumber(field, |read| read + index));
    }
    Put { table: encode(&into), index, records: records_of(rng, &from.fields) }
}

/// A run that was cut out of a description, put in again: as it was, or with a change.
fn cut_before(rng: &mut Rng) -> Put {
    let plan = Plan::random(rng, Some(MOST_FIELDS + 2));
    let description = plan.description(rng);
    let count = description.fields.len();
    let mut run = whole_rows(rng, &description);
    if rng.one_in(8) {
        let one = rng.below(count);
        run = one..one + 1;
    }
    if first_reader(&description.fields, &run).is_some() {
        run.end = count;
    }
    if run.len() == count {
        return joined(rng);
    }
    if rng.one_in(3) {
        return changed(rng, &description, &run);
    }
    let records = records_of(rng, &description.fields[run.clone()]);
    Put { table: encode(&without(&description, &run)), index: run.start, records }
}

/// The same with a wrong place, or with wrong or other fields or bytes.
fn changed(rng: &mut Rng, description: &Description, run: &Range<usize>) -> Put {
    let fields = &description.fields[run.clone()];
    let table = encode(&without(description, run));
    let left = description.fields.len() - run.len();
    let mut index = run.start;
    if rng.one_in(10) {
        let far = index + rng.pick([256, 65_536, 1 << 32, usize::MAX - left]);
        index = rng.pick([left + 1, left + 1, index + 1, index.saturating_sub(1), 0, left, far, far]);
    }
    let records = match rng.below(16) {
        0 | 10 => other_edition(rng, fields),
        1 => Vec::new(),
        2 => encode(description),
        3 => edits::cut(records_of(rng, fields), rng),
        4 => edits::extended(records_of(rng, fields), rng),
        5 | 6 => other_length(records_of(rng, fields), rng),
        7 | 8 => other_kind(records_of(rng, fields), rng),
        9 => edits::edit_bytes(records_of(rng, fields), rng, &edits::TABLE_BYTES),
        11 => records_of(rng, fields).repeat(2),
        12 => {
            let fields = swapped(rng, fields);
            records_of(rng, &fields)
        }
        _ => {
            let fields = bent(rng, description, run);
            records_of(rng, &fields)
        }
    };
    // The fields that are there too have the names of what is put in.
    let is_there = rng.one_in(20);
    Put { table: if is_there { encode(description) } else { table }, index, records }
}

/// The run of the description with rules broken, in the run if that turns up soon.
fn bent<'a>(rng: &mut Rng, description: &Description<'a>, run: &Range<usize>) -> Vec<Field<'a, usize>> {
    let right = records_of(&mut Rng::new(0), &description.fields[run.clone()]);
    let mut fields = description.fields[run.clone()].to_vec();
    for _ in 0..8 {
        let mut told = description.clone();
        bend(rng, &mut told);
        let Some(wrong) = told.fields.get(run.clone()) else { continue };
        fields = wrong.to_vec();
        if records_of(&mut Rng::new(0), &fields) != right {
            break;
        }
    }
    fields
}

fn swapped<'a>(rng: &mut Rng, fields: &[Field<'a, usize>]) -> Vec<Field<'a, usize>> {
    let mut fields = fields.to_vec();
    let (one, other) = (rng.below(fields.len()), rng.below(fields.len()));
    if one < fields.len() {
        fields.swap(one, other);
    }
    fields
}

/// Records of the old form, or with the number or the kinds of that.
fn other_edition(rng: &mut Rng, fields: &[Field<usize>]) -> Vec<u8> {
    let edition = rng.pick([
        UNCOUNTED,
        UNCOUNTED,
        Edition { keeps_numbers: false, ..CURRENT },
        Edition { keeps_numbers: true, ..UNCOUNTED },
    ]);
    records_in(rng, &edition, fields)
}

/// Where records start, and their lengths.
fn starts(records: &[u8]) -> Vec<(usize, usize)> {
    let (mut at, mut starts) = (0, Vec::new());
    while let Some(&[low, high]) = records.get(at..at + 2) {
        let length = usize::from(u16::from_le_bytes([low, high]));
        starts.push((at, length));
        at += length.max(2);
    }
    starts
}

/// A record with another length: a little other, with the next record in it, or far beyond the end.
fn other_length(mut records: Vec<u8>, rng: &mut Rng) -> Vec<u8> {
    let starts = starts(&records);
    let Some((at, length)) = starts.get(rng.below(starts.len())).copied() else { return records };
    let next = starts.iter().find(|(start, _)| *start == at + length).map_or(2, |(_, next)| *next);
    let other = match rng.below(6) {
        0 => length + 1,
        1 => length.saturating_sub(1),
        2 | 3 => length + next,
        4 => rng.pick([0, 1, 2, 3, 4, 5]),
        _ => rng.pick([65_535, 255, 256]),
    };
    records[at..at + 2].copy_from_slice(&(other as u16).to_le_bytes());
    records
}

/// A record with another kind: the head's, the end's, an old one, that of another field, or none.
fn other_kind(mut records: Vec<u8>, rng: &mut Rng) -> Vec<u8> {
    let starts = starts(&records);
    let Some((at, _)) = starts.get(rng.below(starts.len())).copied() else { return records };
    if let Some(kind) = records.get_mut(at + 2) {
        *kind = rng.pick([1, 5, 2, 3, 4, 12, 13, 14, 0, 11, 15]);
    }
    records
}
