//! The comparison notices programs that are wrong about the number of readers or the converter alone [02, R-5]: the
//! model, with one wrong rule of `references`, of `editions` or of what is done with them at a time. All its other
//! files are the model's own.

mod changed_model;
#[path = "../../model/src/conversion.rs"]
mod conversion;
#[path = "wrong_counting/mod.rs"]
mod counting;
#[path = "../../model/src/lines.rs"]
mod lines;
#[path = "../../model/src/naming.rs"]
mod naming;
#[allow(dead_code)]
#[path = "../../model/src/operators.rs"]
mod operators;
#[path = "../../model/src/rows.rs"]
mod rows;
#[path = "../../model/src/widths.rs"]
mod widths;

use changed_model::*;
use counting as editions;
use counting as references;
use counting::{by_rule, readers, Rule, Rule::*, UNCOUNTED};
use refusals::{refused, Refusal};
use std::slice::from_raw_parts;
use std::sync::Mutex;
use umarekoza::{FIELDS_MOST, TABLE_MOST};
use umarekoza_compare::exports::{Answer, Exports, LIBRARY};
use umarekoza_compare::runs::{generated, Settings, Tally};
use umarekoza_model::generate::{old_table, table, text};

const READERS: &str = "count_readers";
const CONVERT: &str = "convert_table";

/// The rules on which references count, which all four calls can have.
const COUNTING: [Rule; 7] = [
    OwnCount,
    OnceForExpression,
    OnceForField,
    NoneInWidths,
    NoneInConstraints,
    NoneInConditions,
    NoneToNeighbours,
];
const OTHERS: [(&str, Rule); 18] = [
    (CHECK, AnyNumber),
    (CHECK, AnySecondByte),
    (CHECK, AnyNumberOfLast),
    (CHECK, AnyNumberBelow),
    (CHECK, OldKinds),
    (CHECK, OldTables),
    (READERS, AnyNumber),
    (READERS, BeyondFirst),
    (CONVERT, OldOf65),
    (CONVERT, OldOf128),
    (CONVERT, OldWithPowers),
    (CONVERT, OldWithQuotients),
    (CONVERT, NewForOld),
    (CONVERT, KeepsLength),
    (CONVERT, KeepsKind),
    (CONVERT, NumbersAreZero),
    (CONVERT, RoomOfOld),
    (READERS, OldTables),
];
/// These answer right, and write where they are to write nothing.
const WRITING: [(&str, Rule); 2] = [(CONVERT, WritesWhatFits), (CONVERT, WritesAtOnce)];

/// Each call with each rule that it can have.
fn programs() -> impl Iterator<Item = (&'static str, Rule)> {
    let calls = [WRITE, CHECK, READERS, CONVERT];
    COUNTING.into_iter().flat_map(move |rule| calls.map(|call| (call, rule))).chain(OTHERS)
}

fn written(rule: Option<Rule>, text: &[u8], room: usize) -> Result<Vec<u8>, Refusal> {
    by_rule(rule, || texts::write_table(text, room))
}

/// Whether a table is good, an old one too by a wrong rule.
fn checked(rule: Option<Rule>, table: &[u8]) -> Result<(), Refusal> {
    let is_old = || rule == Some(OldTables) && tables::good_in(&UNCOUNTED, table).is_ok();
    by_rule(rule, || tables::check_table(table)).or_else(|refusal| is_old().then_some(()).ok_or(refusal))
}

/// How often a field of a table that is good by the right rules, or by those on numbers and kinds, is read.
fn told(rule: Option<Rule>, table: &[u8], index: usize) -> Result<usize, Refusal> {
    if rule == Some(BeyondFirst) && index >= FIELDS_MOST {
        return refused(30, 0);
    }
    let is_good = |rule| matches!(rule, AnyNumber | OldTables);
    let good = by_rule(rule.filter(|rule| is_good(*rule)), || tables::good_description(table));
    let fields = match (good, rule) {
        (Err(_), Some(OldTables)) => tables::good_in(&UNCOUNTED, table)?.fields,
        (good, _) => good?.fields,
    };
    let counts = by_rule(rule, || readers(&fields));
    counts.get(index).copied().map_or_else(|| refused(30, 0), Ok)
}

fn converted(rule: Option<Rule>, table: &[u8], room: usize) -> Result<Vec<u8>, Refusal> {
    if rule == Some(NewForOld) && tables::check_table(table).is_ok() && table.len() <= room {
        return Ok(table.to_vec());
    }
    let new = by_rule(rule, || conversion::convert_table(table, usize::MAX))?;
    let needed = if rule == Some(RoomOfOld) { table.len() } else { new.len() };
    if room < needed {
        return refused(11, 0);
    }
    Ok(misconverted(rule, new))
}

/// A converted table with what a wrong rule keeps or leaves out.
fn misconverted(rule: Option<Rule>, mut table: Vec<u8>) -> Vec<u8> {
    let mut at = 0;
    while at < table.len() {
        let (length, kind) = (u16::from_le_bytes([table[at], table[at + 1]]), table[at + 2]);
        if kind > 5 {
            match rule {
                Some(KeepsLength) => table[at..at + 2].copy_from_slice(&(length - 2).to_le_bytes()),
                Some(KeepsKind) => table[at + 2] -= 10,
                Some(NumbersAreZero) => table[at + 4..at + 6].fill(0),
                _ => {}
            }
        }
        at += usize::from(length);
    }
    table
}

/// The wrong rule of the program that is compared, or none.
static WRONG: Mutex<Option<Rule>> = Mutex::new(None);

unsafe extern "C" fn write_table(text: *const u8, n: usize, out: *mut u8, m: usize) -> Answer {
    put(written(*WRONG.lock().unwrap(), from_raw_parts(text, n), m), out, m)
}

unsafe extern "C" fn check_table(table: *const u8, n: usize) -> Answer {
    answer(checked(*WRONG.lock().unwrap(), from_raw_parts(table, n)).map(|()| n))
}

unsafe extern "C" fn count_readers(table: *const u8, n: usize, index: usize) -> Answer {
    answer(told(*WRONG.lock().unwrap(), from_raw_parts(table, n), index))
}

unsafe extern "C" fn convert_table(table: *const u8, n: usize, out: *mut u8, m: usize) -> Answer {
    let (rule, table) = (*WRONG.lock().unwrap(), from_raw_parts(table, n));
    if rule == Some(WritesAtOnce) {
        put(Ok(table.to_vec()), out, m);
    }
    if let (Some(WritesWhatFits), Ok(new)) = (rule, converted(None, table, usize::MAX)) {
        put(Ok(new), out, m);
    }
    put(converted(rule, table, m), out, m)
}

/// Puts as much of a table as fits.
unsafe fn put(table: Result<Vec<u8>, Refusal>, out: *mut u8, room: usize) -> Answer {
    if let Ok(table) = &table {
        out.copy_from_nonoverlapping(table.as_ptr(), table.len().min(room));
    }
    answer(table.map(|table| table.len()))
}

/// The changed model's functions.
const CHANGED: Exports = Exports { write_table, check_table, count_readers, convert_table, ..LIBRARY };

fn compared(rule: Option<Rule>, cases: u64, exports: Exports) -> Result<Tally, String> {
    *WRONG.lock().unwrap() = rule;
    generated(Settings { cases, seed: 1 }, exports)
}

#[test]
fn wrong_rules_on_readers_are_noticed() {
    let without = compared(None, 3_000, CHANGED);
    without.unwrap_or_else(|wrong| panic!("without a wrong rule: {wrong}"));
    for (call, rule) in programs().chain(WRITING) {
        let exports = match call {
            WRITE => Exports { write_table, ..LIBRARY },
            CHECK => Exports { check_table, ..LIBRARY },
            READERS => Exports { count_readers, ..LIBRARY },
            _ => Exports { convert_table, ..LIBRARY },
        };
        is_noticed(compared(Some(rule), 10_000, exports), call, rule);
    }
}

/// How often each of the first fields is read, and one that is not there.
fn all_told(rule: Option<Rule>, table: &[u8]) -> Vec<Result<usize, Refusal>> {
    (0..8).chain([FIELDS_MOST]).map(|index| told(rule, table, index)).collect()
}

/// What a table becomes with room enough, and for an output that is longer than it by a byte.
fn both_converted(rule: Option<Rule>, table: &[u8]) -> [Result<Vec<u8>, Refusal>; 2] {
    [TABLE_MOST, table.len() + 1].map(|room| converted(rule, table, room))
}

#[test]
fn ten_of_ten_thousand_cases_show_each_wrong_rule() {
    let texts = answered(text, |text| written(None, text, TABLE_MOST));
    let tables = answered(table, |table| checked(None, table));
    let counts = answered(table, |table| all_told(None, table));
    let olds = answered(old_table, |table| both_converted(None, table));
    for (call, rule) in programs() {
        match call {
            WRITE => is_shown(&texts, call, rule, |text| written(Some(rule), text, TABLE_MOST)),
            CHECK => is_shown(&tables, call, rule, |table| checked(Some(rule), table)),
            READERS => is_shown(&counts, call, rule, |table| all_told(Some(rule), table)),
            _ => is_shown(&olds, call, rule, |table| both_converted(Some(rule), table)),
        }
    }
}
