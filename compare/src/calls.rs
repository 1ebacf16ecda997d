//! The calls, each on slices between guards. Of each is compared: the answer as it is, number, place and
//! length or offset and length; what was written; and that everything else that was lent is as it was.

use crate::exports::{Answer, Exports, Partial, Span};
use crate::lent::{Lent, Unit};
use crate::tally::Tally;
use std::fmt::{Arguments, Debug};
use umarekoza_model::generate::Rng;
use umarekoza_model::{Partly, Reading, Refusal};

/// What the library did wrong.
pub type Wrong = String;

/// What goes with an acceptance, or the refusal.
pub type Settled<T> = Result<T, Refusal>;

/// The functions that are called, what lent slices are filled from, and the comparisons so far.
pub struct Calls {
    exports: Exports,
    pub rng: Rng,
    pub tally: Tally,
    /// The bytes of a state that was started, once one was.
    pub(crate) fresh: Vec<u8>,
}

impl Calls {
    pub fn new(exports: Exports, seed: u64) -> Self {
        Calls { exports, rng: Rng::new(seed), tally: Tally::default(), fresh: Vec::new() }
    }

    /// The length is the table's.
    pub fn write_table(&mut self, text: &[u8], room: usize, due: &Settled<Vec<u8>>) -> Result<(), Wrong> {
        let (mut text, mut out) = (self.lent(text), self.room(room));
        let due_answer = self.due(due, |table| table.len() as u64);
        // SAFETY: what is lent is valid for its length.
        let answer = unsafe { (self.exports.write_table)(text.start(), text.len(), out.start(), out.len()) };
        let found = same(answer, due_answer).and(wrote(&out, due.as_deref())).and(kept(&[&text]));
        self.counted(found, format_args!("write_table to {room}"))
    }

    /// The length is the table's.
    pub fn check_table(&mut self, table: &[u8], due: &Settled<()>) -> Result<(), Wrong> {
        let mut table = self.lent(table);
        let due_answer = self.due(due, |()| table.len() as u64);
        // SAFETY: what is lent is valid for its length.
        let answer = unsafe { (self.exports.check_table)(table.start(), table.len()) };
        self.counted(same(answer, due_answer).and(kept(&[&table])), format_args!("check_table"))
    }

    /// The length is the bit total.
    pub fn read_packet(
        &mut self,
        (table, packet): (&[u8], &[u8]),
        run_len: usize,
        due: &Settled<Reading>,
    ) -> Result<(), Wrong> {
        let (mut table, mut packet, mut run) = (self.lent(table), self.lent(packet), self.room(run_len));
        let due_answer = self.due(due, |reading| u64::from(reading.total));
        let call = self.exports.read_packet;
        let (table_at, packet_at) = (table.start(), packet.start());
        // SAFETY: what is lent is valid for its length.
        let answer = unsafe { call(table_at, table.len(), packet_at, packet.len(), run.start(), run.len()) };
        let numbers = due.as_ref().map(|reading| reading.fields.as_flattened());
        let found = same(answer, due_answer).and(wrote(&run, numbers)).and(kept(&[&table, &packet]));
        self.counted(found, format_args!("read_packet to {run_len}"))
    }

    pub fn field_bytes(
        &mut self,
        (table, packet): (&[u8], &[u8]),
        index: usize,
        due: (usize, usize),
    ) -> Result<(), Wrong> {
        let (mut table, mut packet) = (self.lent(table), self.lent(packet));
        let call = self.exports.field_bytes;
        // SAFETY: what is lent is valid for its length.
        let part = unsafe { call(table.start(), table.len(), packet.start(), packet.len(), index) };
        let found = same(part, span(due)).and(kept(&[&table, &packet]));
        self.counted(found, format_args!("field_bytes {index}"))
    }

    /// The length is the listing's.
    pub fn list_packet(
        &mut self,
        (table, packet): (&[u8], &[u8]),
        room: usize,
        due: &Settled<Vec<u8>>,
    ) -> Result<(), Wrong> {
        let (mut table, mut packet, mut out) = (self.lent(table), self.lent(packet), self.room(room));
        let due_answer = self.due(due, |listing| listing.len() as u64);
        let call = self.exports.list_packet;
        let (table_at, packet_at) = (table.start(), packet.start());
        // SAFETY: what is lent is valid for its length.
        let answer = unsafe { call(table_at, table.len(), packet_at, packet.len(), out.start(), out.len()) };
        let found = same(answer, due_answer).and(wrote(&out, due.as_deref())).and(kept(&[&table, &packet]));
        self.counted(found, format_args!("list_packet to {room}"))
    }

    /// The length is the field's index.
    pub fn find_field(&mut self, table: &[u8], name: &[u8], due: &Settled<usize>) -> Result<(), Wrong> {
        let (mut table, mut lent_name) = (self.lent(table), self.lent(name));
        let due_answer = self.due(due, |index| *index as u64);
        let call = self.exports.find_field;
        // SAFETY: what is lent is valid for its length.
        let answer = unsafe { call(table.start(), table.len(), lent_name.start(), lent_name.len()) };
        let found = same(answer, due_answer).and(kept(&[&table, &lent_name]));
        self.counted(found, format_args!("find_field {name:02x?}"))
    }

    pub fn field_label(&mut self, table: &[u8], index: usize, due: (usize, usize)) -> Result<(), Wrong> {
        let mut table = self.lent(table);
        // SAFETY: what is lent is valid for its length.
        let label = unsafe { (self.exports.field_label)(table.start(), table.len(), index) };
        self.counted(same(label, span(due)).and(kept(&[&table])), format_args!("field_label {index}"))
    }

    pub fn field_short(&mut self, table: &[u8], index: usize, due: (usize, usize)) -> Result<(), Wrong> {
        let mut table = self.lent(table);
        // SAFETY: what is lent is valid for its length.
        let short = unsafe { (self.exports.field_short)(table.start(), table.len(), index) };
        self.counted(same(short, span(due)).and(kept(&[&table])), format_args!("field_short {index}"))
    }

    /// The length is the number of fields.
    pub fn count_fields(&mut self, table: &[u8], due: &Settled<usize>) -> Result<(), Wrong> {
        let mut table = self.lent(table);
        let due_answer = self.due(due, |count| *count as u64);
        // SAFETY: what is lent is valid for its length.
        let answer = unsafe { (self.exports.count_fields)(table.start(), table.len()) };
        self.counted(same(answer, due_answer).and(kept(&[&table])), format_args!("count_fields"))
    }

    /// The length is the kind.
    pub fn field_kind(&mut self, table: &[u8], index: usize, due: &Settled<usize>) -> Result<(), Wrong> {
        let mut table = self.lent(table);
        let due_answer = self.due(due, |kind| *kind as u64);
        // SAFETY: what is lent is valid for its length.
        let answer = unsafe { (self.exports.field_kind)(table.start(), table.len(), index) };
        self.counted(same(answer, due_answer).and(kept(&[&table])), format_args!("field_kind {index}"))
    }

    /// The length is the number of references.
    pub fn count_readers(&mut self, table: &[u8], index: usize, due: &Settled<usize>) -> Result<(), Wrong> {
        let mut table = self.lent(table);
        let due_answer = self.due(due, |count| *count as u64);
        // SAFETY: what is lent is valid for its length.
        let answer = unsafe { (self.exports.count_readers)(table.start(), table.len(), index) };
        self.counted(same(answer, due_answer).and(kept(&[&table])), format_args!("count_readers {index}"))
    }

    /// The length is the new table's.
    pub fn convert_table(&mut self, table: &[u8], room: usize, due: &Settled<Vec<u8>>) -> Result<(), Wrong> {
        let (mut table, mut out) = (self.lent(table), self.room(room));
        let due_answer = self.due(due, |table| table.len() as u64);
        let call = self.exports.convert_table;
        // SAFETY: what is lent is valid for its length.
        let answer = unsafe { call(table.start(), table.len(), out.start(), out.len()) };
        let found = same(answer, due_answer).and(wrote(&out, due.as_deref())).and(kept(&[&table]));
        self.counted(found, format_args!("convert_table to {room}"))
    }

    /// The length is the new table's.
    pub fn cut_fields(
        &mut self,
        table: &[u8],
        (first, last): (usize, usize),
        room: usize,
        due: &Settled<Vec<u8>>,
    ) -> Result<(), Wrong> {
        let (mut table, mut out) = (self.lent(table), self.room(room));
        let due_answer = self.due(due, |table| table.len() as u64);
        let call = self.exports.cut_fields;
        // SAFETY: what is lent is valid for its length.
        let answer = unsafe { call(table.start(), table.len(), first, last, out.start(), out.len()) };
        let found = same(answer, due_answer).and(wrote(&out, due.as_deref())).and(kept(&[&table]));
        self.counted(found, format_args!("cut_fields {first} to {last} to {room}"))
    }

    /// The length is the new table's.
    pub fn put_fields(
        &mut self,
        (table, records): (&[u8], &[u8]),
        index: usize,
        room: usize,
        due: &Settled<Vec<u8>>,
    ) -> Result<(), Wrong> {
        let (mut table, mut records, mut out) = (self.lent(table), self.lent(records), self.room(room));
        let due_answer = self.due(due, |table| table.len() as u64);
        let call = self.exports.put_fields;
        let (table_at, records_at) = (table.start(), records.start());
        // SAFETY: what is lent is valid for its length.
        let answer =
            unsafe { call(table_at, table.len(), index, records_at, records.len(), out.start(), out.len()) };
        let found = same(answer, due_answer).and(wrote(&out, due.as_deref())).and(kept(&[&table, &records]));
        self.counted(found, format_args!("put_fields before {index} to {room}"))
    }

    /// The length is the bit total, the count that of the fields in the run.
    pub fn read_partly(
        &mut self,
        (table, packet): (&[u8], &[u8]),
        run_len: usize,
        (fields, total): &Partly,
    ) -> Result<(), Wrong> {
        let (mut table, mut packet, mut run) = (self.lent(table), self.lent(packet), self.room(run_len));
        let Answer { number, place, length } = self.due(total, |total| u64::from(*total));
        let due = Partial { number, place, length, count: fields.len() as u64 };
        let call = self.exports.read_partly;
        let (table_at, packet_at) = (table.start(), packet.start());
        // SAFETY: what is lent is valid for its length.
        let answer = unsafe { call(table_at, table.len(), packet_at, packet.len(), run.start(), run.len()) };
        let found =
            same(answer, due).and(wrote(&run, Ok(fields.as_flattened()))).and(kept(&[&table, &packet]));
        self.counted(found, format_args!("read_partly to {run_len}"))
    }

    pub fn exports(&self) -> &Exports {
        &self.exports
    }

    pub fn lent(&mut self, bytes: &[u8]) -> Lent<u8> {
        Lent::holding(&mut self.rng, bytes)
    }

    pub fn room<T: Unit>(&mut self, length: usize) -> Lent<T> {
        Lent::random(&mut self.rng, length)
    }

    /// The answer that is due, with the length that goes with an acceptance.
    pub fn due<T>(&mut self, due: &Settled<T>, length: impl Fn(&T) -> u64) -> Answer {
        let answer = match due {
            Ok(accepted) => Answer { number: 0, place: 0, length: length(accepted) },
            Err(Refusal { number, place }) => Answer { number: *number, place: *place, length: 0 },
        };
        *self.tally.numbers.entry(answer.number).or_default() += 1;
        answer
    }

    pub fn counted(&mut self, found: Result<(), Wrong>, call: Arguments<'_>) -> Result<(), Wrong> {
        found.map_err(|wrong| format!("{call}: the library {wrong}"))?;
        self.tally.comparisons += 1;
        Ok(())
    }
}

fn span((start, length): (usize, usize)) -> Span {
    Span { offset: start as u64, length: length as u64 }
}

pub fn same<T: PartialEq + Debug>(answer: T, due: T) -> Result<(), Wrong> {
    if answer == due {
        return Ok(());
    }
    Err(format!("answers {answer:?}, where {due:?} is due"))
}

/// What was to be written stands at the start of the output, and nothing else has changed; after a refusal nothing.
pub fn wrote<T: Unit>(out: &Lent<T>, due: Result<&[T], &Refusal>) -> Result<(), Wrong> {
    if out.has_only(due.unwrap_or_default()) {
        return Ok(());
    }
    Err("wrote something else than is due, or changed something beyond it".to_string())
}

pub fn kept(lent: &[&Lent<u8>]) -> Result<(), Wrong> {
    if lent.iter().all(|lent| lent.is_untouched()) {
        return Ok(());
    }
    Err("changed what it may only read, or what stands around it".to_string())
}
