//! The comparisons of a case: every call that goes with it, with what the model says it must answer and write.

use crate::calls::{Calls, Settled, Wrong};
use crate::cases::Case;
use umarekoza::{FIELDS_MOST, LISTING_MOST, RUN_MOST, TABLE_MOST};
use umarekoza_model as model;
use umarekoza_model::generate::{every_cut, pieces, random_pieces, records, Cut, Put, Rng};

/// What is due where an output is shorter than what is written there.
const TOO_SHORT: Settled<Vec<u8>> = Err(model::Refusal { number: 11, place: 0 });

/// Compares every call of a case.
pub fn compare(calls: &mut Calls, case: &Case) -> Result<(), Wrong> {
    calls.tally.cases += 1;
    match case {
        Case::Text(text) => compare_text(calls, text),
        Case::Packet { table, packet } => {
            compare_table(calls, table)?;
            compare_reading(calls, table, packet)?;
            compare_listing(calls, table, packet)?;
            compare_conversion(calls, table)
        }
        Case::Old(table) => {
            compare_table(calls, table)?;
            compare_conversion(calls, table)
        }
        Case::Cut(cut) => compare_cut(calls, cut),
        Case::Put(put) => compare_put(calls, put),
    }
}

fn compare_text(calls: &mut Calls, text: &[u8]) -> Result<(), Wrong> {
    let fits = model::write_table(text, usize::MAX);
    each_room(calls, &fits, |calls, room, due| calls.write_table(text, room, due))?;
    compare_pieces(calls, text, &fits)
}

/// The text in pieces, which are cut as the text and what was lent before tell, a short one at every place too; and
/// states that no pieces leave.
fn compare_pieces(calls: &mut Calls, text: &[u8], fits: &Settled<Vec<u8>>) -> Result<(), Wrong> {
    for pieces in [pieces(&mut calls.rng, text), random_pieces(&mut calls.rng, text)] {
        let (room, due) = piece_room(&mut calls.rng, fits);
        calls.pieces(&pieces, room, due)?;
        if calls.rng.one_in(8) {
            calls.any_state(&pieces)?;
        }
    }
    let cuttings = every_cut(text);
    if !cuttings.is_empty() {
        let room = fits.as_ref().map_or(0, Vec::len) + calls.rng.below(100);
        calls.cuttings(&cuttings, room, fits)?;
    }
    if calls.rng.one_in(20) {
        calls.short_state(text)?;
    }
    Ok(())
}

/// The length of an output for a text in pieces, and what is due with it where `fits` is due with room enough.
fn piece_room<'a>(rng: &mut Rng, fits: &'a Settled<Vec<u8>>) -> (usize, &'a Settled<Vec<u8>>) {
    let needed = fits.as_ref().map_or(0, Vec::len);
    let room = match rng.below(6) {
        0 => needed.saturating_sub(1),
        1 => needed,
        2 => TABLE_MOST,
        _ => needed + rng.below(100),
    };
    (room, if fits.is_ok() && room < needed { &TOO_SHORT } else { fits })
}

/// Calls with outputs of several lengths, and with what is due for each where `fits` is due with room enough.
fn each_room(
    calls: &mut Calls,
    fits: &Settled<Vec<u8>>,
    call: impl Fn(&mut Calls, usize, &Settled<Vec<u8>>) -> Result<(), Wrong>,
) -> Result<(), Wrong> {
    let needed = fits.as_ref().map_or(calls.rng.below(100), Vec::len);
    for room in rooms(&mut calls.rng, needed, TABLE_MOST) {
        call(calls, room, if fits.is_ok() && room < needed { &TOO_SHORT } else { fits })?;
    }
    Ok(())
}

fn compare_table(calls: &mut Calls, table: &[u8]) -> Result<(), Wrong> {
    calls.check_table(table, &model::check_table(table))?;
    calls.count_fields(table, &model::count_fields(table))?;
    for index in [0, calls.rng.below(8), calls.rng.below(FIELDS_MOST + 2), usize::MAX] {
        let (start, length) = model::field_label(table, index);
        let (short_start, short_length) = model::field_short(table, index);
        calls.field_label(table, index, (start, length))?;
        calls.field_short(table, index, (short_start, short_length))?;
        calls.field_kind(table, index, &model::field_kind(table, index))?;
        calls.count_readers(table, index, &model::count_readers(table, index))?;
        let name = name_like(&mut calls.rng, table, &table[start..start + length]);
        for name in [&name[..], &table[short_start..short_start + short_length]] {
            calls.find_field(table, name, &model::find_field(table, name))?;
        }
    }
    compare_readers(calls, table)
}

/// The last field and the one beyond it.
fn compare_readers(calls: &mut Calls, table: &[u8]) -> Result<(), Wrong> {
    let fields = model::count_fields(table).unwrap_or(0);
    for index in [fields.saturating_sub(1), fields] {
        calls.count_readers(table, index, &model::count_readers(table, index))?;
    }
    Ok(())
}

/// A table that is converted is compared once more as it then is.
fn compare_conversion(calls: &mut Calls, table: &[u8]) -> Result<(), Wrong> {
    let fits = model::convert_table(table, usize::MAX);
    each_room(calls, &fits, |calls, room, due| calls.convert_table(table, room, due))?;
    fits.map_or(Ok(()), |converted| compare_table(calls, &converted))
}

/// Fields that are cut out are put in again, with any numbers in their records: the table is then what it was.
fn compare_cut(calls: &mut Calls, cut: &Cut) -> Result<(), Wrong> {
    let Cut { table, first, last } = cut;
    let fits = model::cut_fields(table, *first, *last, usize::MAX);
    each_room(calls, &fits, |calls, room, due| calls.cut_fields(table, (*first, *last), room, due))?;
    let Ok(left) = fits else { return Ok(()) };
    compare_readers(calls, &left)?;
    let records = records(&mut calls.rng, table, *first, *last);
    calls.put_fields((&left, &records), *first, table.len(), &Ok(table.clone()))
}

/// Fields that are put in are cut out again: the table is then what it was.
fn compare_put(calls: &mut Calls, put: &Put) -> Result<(), Wrong> {
    let Put { table, index, records } = put;
    let fits = model::put_fields(table, *index, records, usize::MAX);
    each_room(calls, &fits, |calls, room, due| calls.put_fields((table, records), *index, room, due))?;
    let Ok(longer) = fits else { return Ok(()) };
    compare_readers(calls, &longer)?;
    let fields = |table: &[u8]| model::count_fields(table).unwrap_or(0);
    let last = index + fields(&longer) - fields(table) - 1;
    calls.cut_fields(&longer, (*index, last), table.len(), &Ok(table.clone()))
}

fn compare_reading(calls: &mut Calls, table: &[u8], packet: &[u8]) -> Result<(), Wrong> {
    let fields = model::count_fields(table).unwrap_or(0);
    for run_len in rooms(&mut calls.rng, 4 * fields, RUN_MOST) {
        calls.read_packet((table, packet), run_len, &model::read_packet(table, packet, run_len))?;
        calls.read_partly((table, packet), run_len, &model::read_partly(table, packet, run_len))?;
    }
    let indexes = [fields, fields, FIELDS_MOST + 2].map(|bound| calls.rng.below(bound));
    for index in indexes.into_iter().chain([usize::MAX]) {
        calls.field_bytes((table, packet), index, model::field_bytes(table, packet, index))?;
    }
    Ok(())
}

fn compare_listing(calls: &mut Calls, table: &[u8], packet: &[u8]) -> Result<(), Wrong> {
    let listing = model::list_packet(table, packet);
    let (needed, fits) = (listing.len(), Ok(listing));
    for room in rooms(&mut calls.rng, needed, LISTING_MOST) {
        calls.list_packet((table, packet), room, if room < needed { &TOO_SHORT } else { &fits })?;
    }
    Ok(())
}

/// Lengths of a lent slice that needs `needed`: exactly that, one less, none, some more, and `most`, which the safe
/// crate lends.
fn rooms(rng: &mut Rng, needed: usize, most: usize) -> [usize; 5] {
    assert!(needed <= most, "{needed} are needed, over {most}");
    [needed, needed.saturating_sub(1), 0, needed + rng.between(1, 300), most]
}

/// A label as it is or with a change, or some bytes of the table.
fn name_like(rng: &mut Rng, table: &[u8], label: &[u8]) -> Vec<u8> {
    let mut name = label.to_vec();
    match rng.below(4) {
        0 => {
            let start = rng.between(0, table.len());
            let end = rng.between(start, table.len().min(start + 8));
            name = table[start..end].to_vec();
        }
        1 => {
            name.pop();
        }
        _ => {}
    }
    name
}
