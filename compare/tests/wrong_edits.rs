//! The comparison notices programs that are wrong about cutting fields out or putting them in alone [02, R-4]: one
//! wrong rule of `editing` at a time. All other files are the model's own.

mod changed_model;
#[path = "wrong_editing/mod.rs"]
mod editing;
#[allow(dead_code)]
#[path = "../../model/src/editions.rs"]
mod editions;
#[path = "../../model/src/lines.rs"]
mod lines;
#[path = "../../model/src/naming.rs"]
mod naming;
#[allow(dead_code)]
#[path = "../../model/src/operators.rs"]
mod operators;
#[path = "../../model/src/references.rs"]
mod references;
#[path = "../../model/src/rows.rs"]
mod rows;
#[path = "../../model/src/widths.rs"]
mod widths;

use changed_model::*;
use editing::{Program, Rule, Rule::*};
use refusals::Refusal;
use std::slice::from_raw_parts;
use std::sync::Mutex;
use umarekoza::TABLE_MOST;
use umarekoza_compare::exports::{Answer, Exports, LIBRARY};
use umarekoza_compare::runs::{generated, Settings, Tally};
use umarekoza_model::generate::{cut, put, Cut, Put};

const CUT: &str = "cut_fields";
const PUT: &str = "put_fields";

/// The rules that both calls can have.
const BOTH: [Rule; 11] = [
    KeepsIndexes,
    OwnKept,
    EarlierMoved,
    FirstMissed,
    MovesByOne,
    RoomFirst,
    KeepsNumbers,
    KeepsCount,
    AnyResult,
    AnyRows,
    RoomOfOld,
];
const OF_CUT: [Rule; 17] = [
    NeighbourRead,
    LimitsFor31,
    NoneInWidths,
    NoneInConstraints,
    NoneInConditions,
    NoneSkipped,
    NoneToLast,
    RunReadsItself,
    NewNumbering,
    PlaceFrom0,
    LastReader,
    LimitsFirst,
    FieldsFirst,
    LastLeft,
    EmptyRun,
    RunClamped,
    NoFieldLeft,
];
const OF_PUT: [Rule; 11] = [
    RecordsFirst,
    EndRefused,
    BeyondEnd,
    NoRecords,
    PlaceBehind,
    BelievesNumbers,
    OwnNumbering,
    OldRecords,
    BytesBehind,
    AnyNames,
    Of129,
];
/// These answer right, and write where they are to write nothing.
const WRITING: [Rule; 2] = [WritesWhatFits, WritesAtOnce];

/// Each call with each rule that it can have.
fn programs() -> impl Iterator<Item = (&'static str, Rule)> {
    let both = BOTH.into_iter().flat_map(|rule| [(CUT, rule), (PUT, rule)]);
    let of_cut = OF_CUT.into_iter().map(|rule| (CUT, rule));
    both.chain(of_cut).chain(OF_PUT.into_iter().map(|rule| (PUT, rule)))
}

/// The wrong rule of the program that is compared, or none.
static WRONG: Mutex<Option<Rule>> = Mutex::new(None);

unsafe extern "C" fn cut_fields(
    table: *const u8,
    n: usize,
    first: usize,
    last: usize,
    out: *mut u8,
    m: usize,
) -> Answer {
    let table = from_raw_parts(table, n);
    written(table, |rule, room| Program(rule).cut(table, first, last, room), out, m)
}

unsafe extern "C" fn put_fields(
    table: *const u8,
    n: usize,
    index: usize,
    records: *const u8,
    k: usize,
    out: *mut u8,
    m: usize,
) -> Answer {
    let (table, records) = (from_raw_parts(table, n), from_raw_parts(records, k));
    written(table, |rule, room| Program(rule).put(table, index, records, room), out, m)
}

/// Writes what a program answers, and by a wrong rule before it what it is not to write.
unsafe fn written(
    table: &[u8],
    edit: impl Fn(Option<Rule>, usize) -> Result<Vec<u8>, Refusal>,
    out: *mut u8,
    room: usize,
) -> Answer {
    let rule = *WRONG.lock().unwrap();
    match rule {
        Some(WritesAtOnce) => deliver(&Ok(table.to_vec()), out, room),
        Some(WritesWhatFits) => deliver(&edit(None, usize::MAX), out, room),
        _ => {}
    }
    let written = edit(rule, room);
    deliver(&written, out, room);
    answer(written.map(|table| table.len()))
}

/// Puts as much of a table as fits.
unsafe fn deliver(table: &Result<Vec<u8>, Refusal>, out: *mut u8, room: usize) {
    if let Ok(table) = table {
        out.copy_from_nonoverlapping(table.as_ptr(), table.len().min(room));
    }
}

fn compared(rule: Option<Rule>, cases: u64, exports: Exports) -> Result<Tally, String> {
    *WRONG.lock().unwrap() = rule;
    generated(Settings { cases, seed: 1 }, exports)
}

#[test]
fn wrong_rules_on_edits_are_noticed() {
    let without = compared(None, 5_000, Exports { cut_fields, put_fields, ..LIBRARY });
    without.unwrap_or_else(|wrong| panic!("without a wrong rule: {wrong}"));
    let writing = WRITING.into_iter().flat_map(|rule| [(CUT, rule), (PUT, rule)]);
    for (call, rule) in programs().chain(writing) {
        let exports = match call {
            CUT => Exports { cut_fields, ..LIBRARY },
            _ => Exports { put_fields, ..LIBRARY },
        };
        is_noticed(compared(Some(rule), 20_000, exports), call, rule);
    }
}

/// What a cut answers with room enough, with a byte less than the table has, and with none.
fn all_cut(rule: Option<Rule>, Cut { table, first, last }: &Cut) -> [Result<Vec<u8>, Refusal>; 3] {
    [TABLE_MOST, table.len().saturating_sub(1), 0].map(|room| Program(rule).cut(table, *first, *last, room))
}

/// What a putting-in answers with room enough, with that of the table before it, and with none.
fn all_put(rule: Option<Rule>, Put { table, index, records }: &Put) -> [Result<Vec<u8>, Refusal>; 3] {
    [TABLE_MOST, table.len(), 0].map(|room| Program(rule).put(table, *index, records, room))
}

#[test]
fn ten_of_ten_thousand_cases_show_each_wrong_rule() {
    let cuts = answered(cut, |cut| all_cut(None, cut));
    let puts = answered(put, |put| all_put(None, put));
    for (call, rule) in programs() {
        match call {
            CUT => is_shown(&cuts, call, rule, |cut| all_cut(Some(rule), cut)),
            _ => is_shown(&puts, call, rule, |put| all_put(Some(rule), put)),
        }
    }
}
