//! The generated cases reach the answers of cutting and putting in [02, R-4], and often.

use super::{cut, put, records, Cut, Put, Rng};
use crate::descriptions::{Description, Field};
use crate::editing::{cut_fields, put_fields};
use crate::editions::CURRENT;
use crate::naming::first_repeat;
use crate::references::readers;
use crate::renumbering::{first_reader, opened, renumber};
use crate::rules::{first_after_rest, reads_right, MOST_FIELDS};
use crate::stored::{decode_fields, encode};
use crate::tables::good_description;
use crate::trees::Node;
use std::collections::BTreeMap;
use std::ops::Range;

const CASES: usize = 20_000;
/// So many of them are of each sort, at the least.
const DUE: usize = 20;

/// How often each sort of case turned up.
#[derive(Default)]
struct Counts(BTreeMap<String, usize>);

impl Counts {
    fn add(&mut self, is_one: bool, sort: impl Into<String>) {
        *self.0.entry(sort.into()).or_default() += usize::from(is_one);
    }

    fn has_all(&self) {
        assert!(self.0.values().all(|found| *found >= DUE), "{:?}", self.0);
    }
}

/// Whether a field reads one of these.
fn reads(field: &Field<usize>, read: impl Fn(usize) -> bool) -> bool {
    let mut nodes = field.trees().flat_map(|tree| &tree.nodes);
    nodes.any(|node| matches!(node, Node::Name(index) if read(*index)))
}

/// Sorts of a run that is cut out of these fields, or that is there once it is put in.
fn sorts(counts: &mut Counts, what: &str, fields: &[Field<usize>], run: &Range<usize>) {
    let mut add = |is_one: bool, sort: &str| counts.add(is_one, format!("{what}, {sort}"));
    let behind = &fields[run.end..];
    add(run.start == 0, "at the start");
    add(run.start > 0 && run.end < fields.len(), "in the middle");
    add(run.end == fields.len(), "at the end");
    add(run.len() == 1, "one field");
    add(run.len() > 64, "over 64 fields");
    add(fields.len() == MOST_FIELDS, "of 128 fields");
    let own = |(index, field): (usize, &Field<usize>)| reads(field, |read| read == index);
    add(behind.iter().zip(run.end..).any(|(field, index)| own((index, field))), "a later field reads itself");
    add(behind.iter().any(|field| reads(field, |read| read >= run.end)), "a later field reads a later one");
    add(
        behind.iter().any(|field| reads(field, |read| read < run.start)),
        "a later field reads an earlier one",
    );
    let inside = &fields[run.clone()];
    add(
        inside.iter().any(|field| reads(field, |read| read < run.start)),
        "one of the run reads an earlier one",
    );
    add(inside.iter().any(|field| reads(field, |read| run.contains(&read))), "one of the run reads another");
    let numbers = readers(fields);
    let gone = |read: usize| inside.iter().any(|field| reads(field, |index| index == read));
    add((0..run.start).any(|read| gone(read) && numbers[read] > 255), "a number over 255 changes");
}

#[test]
fn cuts_of_every_sort() {
    let (mut rng, mut counts) = (Rng::new(15), Counts::default());
    for _ in 0..CASES {
        let Cut { table, first, last } = cut(&mut rng);
        let answer = cut_fields(&table, first, last, usize::MAX);
        let Ok(Description { fields, .. }) = good_description(&table) else {
            counts.add(true, "21");
            continue;
        };
        match answer {
            Ok(left) => {
                sorts(&mut counts, "ok", &fields, &(first..last + 1));
                let records = records(&mut rng, &table, first, last);
                assert_eq!(put_fields(&left, first, &records, usize::MAX), Ok(table));
            }
            Err(refusal) if refusal.number == 31 => {
                let run = first..last + 1;
                counts.add(refusal.place > 20, "31, far down");
                counts.add(refusal.place as usize <= run.start, "31, before the run");
                counts.add(refusal.place as usize > run.end + 1, "31, not right behind the run");
                counts.add(run.len() > 1, "31, of several fields");
                let behind = (refusal.place as usize..fields.len()).map(|index| &fields[index]);
                let more = behind.filter(|field| reads(field, |read| run.contains(&read))).count();
                counts.add(more > 0, "31, several readers");
            }
            Err(refusal) => {
                counts.add(refusal.number == 30 && first > last, "30, an empty run");
                counts.add(refusal.number == 30 && last == fields.len(), "30, right beyond the fields");
                counts.add(refusal.number == 34 && last + 1 - first == fields.len(), "34, no field");
                counts.add(refusal.number == 34 && last + 1 - first < fields.len(), "34, rows");
            }
        }
    }
    // No field reads a later one, so none before the run reads it.
    assert_eq!(counts.0.remove("31, before the run"), Some(0));
    counts.has_all();
}

/// A rule that fields put in break.
fn broken(fields: &[Field<usize>]) -> &'static str {
    match () {
        () if fields.len() > MOST_FIELDS => "34, too many fields",
        () if first_repeat(fields).is_some() => "34, a name twice",
        () if first_after_rest(fields).is_some() => "34, behind the rest field",
        () if !(0..fields.len()).all(|index| reads_right(fields, index)) => "34, a reference or a type",
        () => "34, rows, names or widths",
    }
}

#[test]
fn puttings_in_of_every_sort() {
    let (mut rng, mut counts) = (Rng::new(16), Counts::default());
    for _ in 0..CASES {
        let Put { table, index, records } = put(&mut rng);
        let answer = put_fields(&table, index, &records, usize::MAX);
        let Ok(mut description) = good_description(&table) else {
            counts.add(true, "21");
            continue;
        };
        let count = description.fields.len();
        let Some(new) = decode_fields(&CURRENT, &records).filter(|new| !new.is_empty() && index <= count)
        else {
            let number = answer.unwrap_err().number;
            counts.add(number == 30 && records.is_empty(), "30, no records");
            counts.add(number == 30 && index == count + 1, "30, right beyond the end");
            counts.add(number == 34, "34, no records");
            continue;
        };
        let run = index..index + new.len();
        description.fields.iter_mut().for_each(|field| renumber(field, |read| opened(&run, read)));
        description.fields.splice(index..index, new);
        match answer {
            Ok(longer) => {
                sorts(&mut counts, "ok", &description.fields, &run);
                let is_read = first_reader(&description.fields, &run).is_some();
                counts.add(is_read, "ok, one of the run is read");
                let same = encode(&description);
                counts.add(!same[..].windows(records.len()).any(|part| part == records), "ok, wrong numbers");
                assert_eq!(longer, same);
                assert_eq!(cut_fields(&longer, run.start, run.end - 1, usize::MAX), Ok(table));
            }
            Err(_) => counts.add(true, broken(&description.fields)),
        }
    }
    // Nothing that was there before can read what is put in.
    assert_eq!(counts.0.remove("ok, one of the run is read"), Some(0));
    counts.has_all();
}
