//! The comparison notices programs that are wrong about names alone [02, R-2]: the model, with one wrong rule of
//! `naming` at a time. All its other files are the model's own.

mod changed_model;
#[allow(dead_code)]
#[path = "../../model/src/editions.rs"]
mod editions;
#[path = "../../model/src/lines.rs"]
mod lines;
#[path = "wrong_naming/mod.rs"]
mod naming;
#[allow(dead_code)]
#[path = "../../model/src/operators.rs"]
mod operators;
#[path = "../../model/src/references.rs"]
mod references;
#[path = "../../model/src/rows.rs"]
mod rows;
#[path = "../../model/src/widths.rs"]
mod widths;

use changed_model::*;
use naming::{by_rule, Rule, Rule::*};
use refusals::Refusal;
use std::slice::from_raw_parts;
use std::sync::Mutex;
use umarekoza::TABLE_MOST;
use umarekoza_compare::exports::{Answer, Exports, LIBRARY};
use umarekoza_compare::runs::{generated, Settings, Tally};
use umarekoza_model::generate::{table, text};

const OF_BOTH: [Rule; 17] = [
    AnyIsRead,
    SpacesAreRead,
    ReservedIsRead,
    NineBytesAreRead,
    LaterIsRead,
    LongIsRead,
    NoneIsRead,
    EightBytesAreNotRead,
    LetterIsNotRead,
    DigitIsNotRead,
    OtherCaseIsReserved,
    LabelMayBeShort,
    ShortMayBeLabel,
    LongMayRepeat,
    FarMayRepeat,
    WordTwice,
    OtherCaseRepeats,
];
/// A table is refused at no line.
const OF_TEXTS: [Rule; 2] = [EarliestFirst, LikeFirst];

/// Each call with each rule that it can have.
fn programs() -> impl Iterator<Item = (&'static str, Rule)> {
    let of_texts = OF_TEXTS.into_iter().map(|rule| (WRITE, rule));
    OF_BOTH.into_iter().flat_map(|rule| [(WRITE, rule), (CHECK, rule)]).chain(of_texts)
}

/// The label of a field line.
fn label(line: &[u8]) -> &[u8] {
    let end = line.iter().position(|byte| matches!(byte, b'(' | b':')).unwrap_or(line.len());
    line[..end].trim_ascii_end()
}

fn written(rule: Option<Rule>, text: &[u8], room: usize) -> Result<Vec<u8>, Refusal> {
    let lines = frames::frame(text, frames::Limits::CURRENT).map_or(Vec::new(), |frame| frame.field_lines);
    let labels: Vec<&[u8]> = lines.into_iter().map(label).collect();
    by_rule(rule, &labels, || texts::write_table(text, room))
}

fn checked(rule: Option<Rule>, table: &[u8]) -> Result<(), Refusal> {
    by_rule(rule, &[], || tables::check_table(table))
}

/// The wrong rule of the program that is compared, or none.
static WRONG: Mutex<Option<Rule>> = Mutex::new(None);

unsafe extern "C" fn write_table(text: *const u8, n: usize, out: *mut u8, m: usize) -> Answer {
    let written = written(*WRONG.lock().unwrap(), from_raw_parts(text, n), m);
    if let Ok(table) = &written {
        out.copy_from_nonoverlapping(table.as_ptr(), table.len());
    }
    answer(written.map(|table| table.len()))
}

unsafe extern "C" fn check_table(table: *const u8, n: usize) -> Answer {
    answer(checked(*WRONG.lock().unwrap(), from_raw_parts(table, n)).map(|()| n))
}

fn compared(rule: Option<Rule>, cases: u64, exports: Exports) -> Result<Tally, String> {
    *WRONG.lock().unwrap() = rule;
    generated(Settings { cases, seed: 1 }, exports)
}

#[test]
fn wrong_rules_on_names_are_noticed() {
    let without = compared(None, 3_000, Exports { write_table, check_table, ..LIBRARY });
    without.unwrap_or_else(|wrong| panic!("without a wrong rule: {wrong}"));
    for (call, rule) in programs() {
        let exports = match call {
            WRITE => Exports { write_table, ..LIBRARY },
            _ => Exports { check_table, ..LIBRARY },
        };
        is_noticed(compared(Some(rule), 10_000, exports), call, rule);
    }
}

#[test]
fn ten_of_ten_thousand_cases_show_each_wrong_rule() {
    let texts = answered(text, |text| written(None, text, TABLE_MOST));
    let tables = answered(table, |table| checked(None, table));
    for (call, rule) in programs() {
        match call {
            WRITE => is_shown(&texts, call, rule, |text| written(Some(rule), text, TABLE_MOST)),
            _ => is_shown(&tables, call, rule, |table| checked(Some(rule), table)),
        }
    }
}

/// A text of fields of a byte with these names; its first field line is the 17th.
fn page(names: [&str; 4]) -> String {
    let border = "+-+-+-+-+-+-+-+-+\n";
    let row = |names: &str| format!("|{:^15}|\n{border}", &names[..1]);
    let (rows, lines) = (names.map(row).concat(), names.map(|names| format!("{names}: 1 byte.\n")).concat());
    format!("A Tag is formatted as follows:\n\n 0\n 0 1 2 3 4 5 6 7\n{border}{rows}\nwhere:\n\n{lines}")
}

/// Of several clashes the one on the first line is refused, here the third; wrong programs refuse others.
#[test]
fn the_line_of_several_clashes() {
    for (names, earliest_first, like_first) in [
        (["A", "B", "C (B)", "D (A)"], 4, 3),
        (["A (x)", "B", "C (B)", "D (x)"], 4, 4),
        (["A", "B (y)", "C (y)", "A"], 4, 4),
        (["A", "B (y)", "C (y)", "D (A)"], 4, 3),
    ] {
        let (text, mut out) = (page(names), [0; 256]);
        let at = |line: u32| Answer { number: 8, place: 16 + line, length: 0 };
        // SAFETY: what is lent is valid for its length.
        let found = unsafe { (LIBRARY.write_table)(text.as_ptr(), text.len(), out.as_mut_ptr(), out.len()) };
        assert_eq!(found, at(3), "{names:?}");
        for (rule, line) in [(EarliestFirst, earliest_first), (LikeFirst, like_first)] {
            let found = written(Some(rule), text.as_bytes(), out.len()).map(|table| table.len());
            assert_eq!(answer(found), at(line), "{names:?}, {rule:?}");
        }
    }
}
