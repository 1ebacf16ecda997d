//! The comparison notices programs that are wrong about `/`, `%` and `^` alone [02, R-7]: the model, with one wrong
//! rule of `operators` or `widths` at a time. All its other files are the model's own.

mod changed_model;
#[allow(dead_code)]
#[path = "../../model/src/editions.rs"]
mod editions;
#[path = "../../model/src/evaluation.rs"]
mod evaluation;
#[path = "../../model/src/lines.rs"]
mod lines;
#[path = "../../model/src/listing.rs"]
mod listing;
#[path = "../../model/src/naming.rs"]
mod naming;
#[path = "wrong_operating/mod.rs"]
mod operators;
#[path = "../../model/src/reading.rs"]
mod reading;
#[path = "../../model/src/references.rs"]
mod references;
#[path = "../../model/src/rows.rs"]
mod rows;

use changed_model::*;
use operators as widths;
use operators::{by_rule, Rule, Rule::*};
use reading::{Partly, Reading};
use refusals::Refusal;
use std::slice::from_raw_parts;
use std::sync::Mutex;
use umarekoza::{RUN_MOST, TABLE_MOST};
use umarekoza_compare::exports::{Answer, Exports, Partial, Span, LIBRARY};
use umarekoza_compare::runs::{generated, Settings, Tally};
use umarekoza_model::generate::{packet, table, text};

const PARTLY: &str = "read_partly";
const BYTES: &str = "field_bytes";
const LIST: &str = "list_packet";

/// The calls that have each wrong rule; the last three, alone, do not carry a zero divisor.
const PROGRAMS: [(&str, Rule); 21] = [
    (WRITE, PowerGroupsToLeft),
    (WRITE, PowerIsProduct),
    (WRITE, RemainderIsLooser),
    (WRITE, QuotientIsTighter),
    (WRITE, PowerIsFixed),
    (CHECK, PowerIsFixed),
    (WRITE, CodesAreDecimal),
    (CHECK, CodesAreDecimal),
    (WRITE, CodesAreSwapped),
    (READ, CodesAreSwapped),
    (READ, QuotientRoundsUp),
    (READ, ByZeroIsZero),
    (READ, RemainderByZeroIsLeft),
    (READ, ZeroDivisorIsOutOfRange),
    (READ, ZeroPowerIsZero),
    (READ, PowerWraps),
    (READ, PowerStaysAtMost),
    (READ, DivisorGoesFirst),
    (PARTLY, ZeroDivisorIsOutOfRange),
    (BYTES, ByZeroIsZero),
    (LIST, ZeroDivisorIsOutOfRange),
];

fn written(rule: Option<Rule>, text: &[u8], room: usize) -> Result<Vec<u8>, Refusal> {
    by_rule(rule, || texts::write_table(text, room))
}

fn checked(rule: Option<Rule>, table: &[u8]) -> Result<(), Refusal> {
    by_rule(rule, || tables::check_table(table))
}

fn read(rule: Option<Rule>, table: &[u8], packet: &[u8], run_len: usize) -> Result<Reading, Refusal> {
    by_rule(rule, || reading::read_packet(table, packet, run_len))
}

fn partly_read(rule: Option<Rule>, table: &[u8], packet: &[u8], run_len: usize) -> Partly {
    by_rule(rule, || reading::read_partly(table, packet, run_len))
}

fn lent(rule: Option<Rule>, table: &[u8], packet: &[u8], index: usize) -> (usize, usize) {
    by_rule(rule, || reading::field_bytes(table, packet, index))
}

fn listed(rule: Option<Rule>, table: &[u8], packet: &[u8]) -> Vec<u8> {
    by_rule(rule, || listing::list_packet(table, packet))
}

/// The wrong rule of the program that is compared, or none.
static WRONG: Mutex<Option<Rule>> = Mutex::new(None);

unsafe extern "C" fn write_table(text: *const u8, n: usize, out: *mut u8, m: usize) -> Answer {
    let written = written(*WRONG.lock().unwrap(), from_raw_parts(text, n), m);
    if let Ok(table) = &written {
        out.copy_from_nonoverlapping(table.as_ptr(), table.len());
    }
    answer(written.map(|table| table.len()))
}

unsafe extern "C" fn check_table(table: *const u8, n: usize) -> Answer {
    answer(checked(*WRONG.lock().unwrap(), from_raw_parts(table, n)).map(|()| n))
}

unsafe extern "C" fn read_packet(
    table: *const u8,
    n: usize,
    packet: *const u8,
    m: usize,
    run: *mut u32,
    len: usize,
) -> Answer {
    let rule = *WRONG.lock().unwrap();
    let read = read(rule, from_raw_parts(table, n), from_raw_parts(packet, m), len);
    if let Ok(reading) = &read {
        let numbers = reading.fields.as_flattened();
        run.copy_from_nonoverlapping(numbers.as_ptr(), numbers.len());
    }
    answer(read.map(|reading| reading.total as usize))
}

unsafe extern "C" fn read_partly(
    table: *const u8,
    n: usize,
    packet: *const u8,
    m: usize,
    run: *mut u32,
    len: usize,
) -> Partial {
    let rule = *WRONG.lock().unwrap();
    let (fields, total) = partly_read(rule, from_raw_parts(table, n), from_raw_parts(packet, m), len);
    run.copy_from_nonoverlapping(fields.as_flattened().as_ptr(), 4 * fields.len());
    let Answer { number, place, length } = answer(total.map(|total| total as usize));
    Partial { number, place, length, count: fields.len() as u64 }
}

unsafe extern "C" fn field_bytes(
    table: *const u8,
    n: usize,
    packet: *const u8,
    m: usize,
    index: usize,
) -> Span {
    let rule = *WRONG.lock().unwrap();
    let (start, length) = lent(rule, from_raw_parts(table, n), from_raw_parts(packet, m), index);
    Span { offset: start as u64, length: length as u64 }
}

unsafe extern "C" fn list_packet(
    table: *const u8,
    n: usize,
    packet: *const u8,
    m: usize,
    out: *mut u8,
    len: usize,
) -> Answer {
    let listing = listed(*WRONG.lock().unwrap(), from_raw_parts(table, n), from_raw_parts(packet, m));
    if listing.len() > len {
        return Answer { number: 11, place: 0, length: 0 };
    }
    out.copy_from_nonoverlapping(listing.as_ptr(), listing.len());
    Answer { number: 0, place: 0, length: listing.len() as u64 }
}

/// The changed model's functions.
const CHANGED: Exports =
    Exports { write_table, check_table, read_packet, read_partly, field_bytes, list_packet, ..LIBRARY };

fn compared(rule: Option<Rule>, cases: u64, exports: Exports) -> Result<Tally, String> {
    *WRONG.lock().unwrap() = rule;
    generated(Settings { cases, seed: 1 }, exports)
}

#[test]
fn wrong_rules_on_operators_are_noticed() {
    let without = compared(None, 3_000, CHANGED);
    without.unwrap_or_else(|wrong| panic!("without a wrong rule: {wrong}"));
    for (call, rule) in PROGRAMS {
        let exports = match call {
            WRITE => Exports { write_table, ..LIBRARY },
            CHECK => Exports { check_table, ..LIBRARY },
            READ => Exports { read_packet, ..LIBRARY },
            PARTLY => Exports { read_partly, ..LIBRARY },
            BYTES => Exports { field_bytes, ..LIBRARY },
            _ => Exports { list_packet, ..LIBRARY },
        };
        is_noticed(compared(Some(rule), 20_000, exports), call, rule);
    }
}

/// What the calls on a packet say.
type Said = (Result<Reading, Refusal>, Partly, Vec<(usize, usize)>, Vec<u8>);

/// What they say where the one of them that is named has this wrong rule.
fn said(wrong: (&str, Rule), table: &[u8], packet: &[u8]) -> Said {
    let rule = |call: &str| (wrong.0 == call).then_some(wrong.1);
    let lent = |index: usize| lent(rule(BYTES), table, packet, index);
    (
        read(rule(READ), table, packet, RUN_MOST),
        partly_read(rule(PARTLY), table, packet, RUN_MOST),
        (0..8).map(lent).collect(),
        listed(rule(LIST), table, packet),
    )
}

#[test]
fn ten_of_ten_thousand_cases_show_each_wrong_rule() {
    let texts = answered(text, |text| written(None, text, TABLE_MOST));
    let tables = answered(table, |table| checked(None, table));
    let packets = answered(
        |rng| {
            let table = table(rng);
            let packet = packet(rng, &table);
            (table, packet)
        },
        |(table, packet)| said(("none", PowerIsFixed), table, packet),
    );
    for (call, rule) in PROGRAMS {
        match call {
            WRITE => is_shown(&texts, call, rule, |text| written(Some(rule), text, TABLE_MOST)),
            CHECK => is_shown(&tables, call, rule, |table| checked(Some(rule), table)),
            _ => is_shown(&packets, call, rule, |(table, packet)| said((call, rule), table, packet)),
        }
    }
}
