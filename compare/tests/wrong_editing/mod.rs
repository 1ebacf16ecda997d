//! Cutting fields out and putting them in with one wrong rule, or none. What is a good table, a record and a number is
//! the model's.

mod limits;
mod readers;

use crate::descriptions::{Description, Field};
use crate::editions::{CURRENT, UNCOUNTED};
use crate::refusals::{refused, Refusal};
use crate::stored::{decode_fields, encode_with};
use crate::tables::good_description;
use crate::trees::Node;
use std::ops::Range;
use Rule::*;

/// A wrong rule.
#[derive(Clone, Copy, Debug, PartialEq, Eq)]
pub enum Rule {
    /// Which references are renumbered: none; not those of a field to itself; those to earlier fields too; not those to
    /// the first field that moves; or all by one, whatever the number of fields.
    KeepsIndexes,
    OwnKept,
    EarlierMoved,
    FirstMissed,
    MovesByOne,
    /// A reference to a field that is cut out stays, as one to the field in its place.
    NeighbourRead,
    /// Which references count for 31: none in widths, constraints or conditions, none in what may be skipped, none to
    /// the last field of the run; or those of the run to itself too.
    NoneInWidths,
    NoneInConstraints,
    NoneInConditions,
    NoneSkipped,
    NoneToLast,
    RunReadsItself,
    /// The place of 31: by the new numbering, from 0, or that of the last field that reads.
    NewNumbering,
    PlaceFrom0,
    LastReader,
    /// Which refusal goes first.
    LimitsFor31,
    LimitsFirst,
    RoomFirst,
    FieldsFirst,
    RecordsFirst,
    /// What a run and a place are: without its last field, an empty one, one beyond the fields, the end not, one beyond
    /// it, with no records, behind the field of the index.
    LastLeft,
    EmptyRun,
    RunClamped,
    EndRefused,
    BeyondEnd,
    NoRecords,
    PlaceBehind,
    /// The numbers of the fields that were there, or of those put in, or that of the fields, stay as they were.
    KeepsNumbers,
    BelievesNumbers,
    KeepsCount,
    /// References in records are by their own numbering.
    OwnNumbering,
    /// Which records are taken.
    OldRecords,
    BytesBehind,
    /// Which results are taken for good.
    AnyResult,
    NoFieldLeft,
    AnyRows,
    AnyNames,
    Of129,
    /// The output is compared with the old length; it is written before a refusal by 11, or before any.
    RoomOfOld,
    WritesWhatFits,
    WritesAtOnce,
}

/// A program with this wrong rule or none.
#[derive(Clone, Copy)]
pub struct Program(pub Option<Rule>);

/// A result: the description that there was with its table's length, the one that there is to be, and the numbers that
/// its fields have in records that were put in.
struct Edit<'a, 'b> {
    old: &'b Description<'a>,
    length: usize,
    new: Description<'a>,
    believed: Vec<Option<usize>>,
}

impl Program {
    fn is(self, rule: Rule) -> bool {
        self.0 == Some(rule)
    }

    pub fn cut(self, table: &[u8], first: usize, last: usize, room: usize) -> Result<Vec<u8>, Refusal> {
        if self.is(FieldsFirst) && first > last {
            return refused(30, 0);
        }
        let old = good_description(table)?;
        let count = old.fields.len();
        let last = if self.is(RunClamped) { last.min(count - 1) } else { last };
        if self.is(EmptyRun) && last < first && first < count && table.len() <= room {
            return Ok(table.to_vec());
        }
        if first > last || last >= count {
            return refused(30, 0);
        }
        let run = first..if self.is(LastLeft) && first < last { last } else { last + 1 };
        let new = self.without(&old, &run);
        let believed = vec![None; new.fields.len()];
        let still_read = self.still_read(&old.fields, &run);
        self.written(Edit { old: &old, length: table.len(), new, believed }, still_read, room)
    }

    fn without<'a>(self, old: &Description<'a>, run: &Range<usize>) -> Description<'a> {
        let mut new = old.clone();
        let by = if self.is(MovesByOne) { 1 } else { run.len() };
        let from = if self.is(FirstMissed) { run.end + 1 } else { run.start };
        let becomes = |index: usize| match run.contains(&index) {
            true => run.start,
            false => index.saturating_sub(by),
        };
        for (own, field) in new.fields.iter_mut().enumerate() {
            self.renumber(field, own, from, becomes);
        }
        new.fields.drain(run.clone());
        new
    }

    pub fn put(self, table: &[u8], index: usize, records: &[u8], room: usize) -> Result<Vec<u8>, Refusal> {
        let old = good_description(table)?;
        let count = old.fields.len();
        let fields = self.fields_in(records);
        if self.is(RecordsFirst) && fields.is_none() {
            return refused(34, 0);
        }
        if self.is(NoRecords) && records.is_empty() && index <= count && table.len() <= room {
            return Ok(table.to_vec());
        }
        let index = if self.is(BeyondEnd) && index == count + 1 { count } else { index };
        if records.is_empty() || index > count || (self.is(EndRefused) && index == count) {
            return refused(30, 0);
        }
        let Some(mut fields) = fields else { return refused(34, 0) };
        if self.is(OwnNumbering) {
            fields.iter_mut().for_each(|field| self.renumber(field, usize::MAX, 0, |read| read + index));
        }
        let index = if self.is(PlaceBehind) && index < count { index + 1 } else { index };
        let run = index..index + fields.len();
        let new = self.with(&old, fields, &run);
        let mut believed = vec![None; new.fields.len()];
        if self.is(BelievesNumbers) {
            believed.splice(run, numbers_in(records).into_iter().map(Some));
        }
        self.written(Edit { old: &old, length: table.len(), new, believed }, None, room)
    }

    fn with<'a>(
        self,
        old: &Description<'a>,
        fields: Vec<Field<'a, usize>>,
        run: &Range<usize>,
    ) -> Description<'a> {
        let mut new = old.clone();
        let by = if self.is(MovesByOne) { 1 } else { run.len() };
        let from = if self.is(FirstMissed) { run.start + 1 } else { run.start };
        for (own, field) in new.fields.iter_mut().enumerate() {
            self.renumber(field, own, from, |index| index + by);
        }
        new.fields.splice(run.start..run.start, fields);
        new
    }

    /// The fields of records, of old ones too or with bytes behind them by a wrong rule.
    fn fields_in(self, records: &[u8]) -> Option<Vec<Field<'_, usize>>> {
        let least = if self.is(BytesBehind) { 1 } else { records.len() };
        let old = self.is(OldRecords).then(|| decode_fields(&UNCOUNTED, records)).flatten();
        let whole = |length: usize| decode_fields(&CURRENT, records.get(..length)?);
        (least..=records.len()).rev().find_map(whole).or(old)
    }

    /// Gives the references from an index on what they become.
    fn renumber(self, field: &mut Field<usize>, own: usize, from: usize, becomes: impl Fn(usize) -> usize) {
        for node in field.trees_mut().flat_map(|tree| &mut tree.nodes) {
            let Node::Name(index) = node else { continue };
            let moves = match self.0 {
                Some(KeepsIndexes) => false,
                Some(OwnKept) => *index >= from && *index != own,
                Some(EarlierMoved) => true,
                _ => *index >= from,
            };
            if moves {
                *index = becomes(*index);
            }
        }
    }

    /// The table, or the first refusal.
    fn written(self, edit: Edit, read: Option<Refusal>, room: usize) -> Result<Vec<u8>, Refusal> {
        let mut table = encode_with(&CURRENT, &edit.new, &self.numbers(&edit));
        if self.is(KeepsCount) {
            table[6] = edit.old.fields.len() as u8;
        }
        let needed = if self.is(RoomOfOld) { edit.length } else { table.len() };
        let limits = (!self.keeps_limits(&edit.new)).then_some(Refusal { number: 34, place: 0 });
        let short = (room < needed).then_some(Refusal { number: 11, place: 0 });
        let refusals = match self.0 {
            Some(LimitsFirst) => [limits, read, short],
            Some(RoomFirst) => [short, read, limits],
            _ => [read, limits, short],
        };
        refusals.into_iter().flatten().next().map_or(Ok(table), Err)
    }

    fn numbers(self, edit: &Edit) -> Vec<usize> {
        let (was, is) = (crate::references::readers(&edit.old.fields), &edit.new.fields);
        let before = |label: &[u8]| edit.old.fields.iter().position(|field| field.label == label);
        let number = |(index, right): (usize, usize)| match before(is[index].label) {
            Some(before) if self.is(KeepsNumbers) => was[before],
            _ => edit.believed[index].unwrap_or(right),
        };
        crate::references::readers(is).into_iter().enumerate().map(number).collect()
    }
}

/// The numbers that whole records have.
fn numbers_in(records: &[u8]) -> Vec<usize> {
    let (mut at, mut numbers) = (0, Vec::new());
    let two = |at: usize| usize::from(u16::from_le_bytes([records[at], records[at + 1]]));
    while at < records.len() {
        numbers.push(two(at + 4));
        at += two(at);
    }
    numbers
}
