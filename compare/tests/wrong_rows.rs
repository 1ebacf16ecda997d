//! The comparison notices programs that are wrong about rows of several lines alone [02, R-1]: the model, with one
//! wrong rule of `rows` at a time. All its other files are the model's own.

mod changed_model;
#[allow(dead_code)]
#[path = "../../model/src/editions.rs"]
mod editions;
#[path = "../../model/src/lines.rs"]
mod lines;
#[path = "../../model/src/naming.rs"]
mod naming;
#[allow(dead_code)]
#[path = "../../model/src/operators.rs"]
mod operators;
#[path = "../../model/src/references.rs"]
mod references;
#[path = "wrong_drawing/mod.rs"]
mod rows;
#[path = "../../model/src/widths.rs"]
mod widths;

use changed_model::*;
use refusals::Refusal;
use rows::{by_rule, Rule, Rule::*};
use std::slice::from_raw_parts;
use std::sync::Mutex;
use umarekoza::TABLE_MOST;
use umarekoza_compare::exports::{Answer, Exports, LIBRARY};
use umarekoza_compare::runs::{generated, Settings, Tally};
use umarekoza_model::generate::text;

const RULES: [Rule; 25] = [
    LinesAreAppended,
    EmptyLinesCount,
    LinesAreNotTrimmed,
    FirstLineAlone,
    BlanksAreKept,
    BitIsJoined,
    EmptyIsLabel,
    LongIsLabel,
    FourthLineIsWrong,
    FifthLineIsRight,
    LongRowsHaveLines,
    BarsAreNotCompared,
    BarsMayBeFewer,
    BarsMayBeMore,
    LengthIsNotCompared,
    UnendedLineCounts,
    EachLineIsJudged,
    EachLineIsLabel,
    CellIsWrongAtFirst,
    CellIsWrongBehind,
    WrongLineGoesFirst,
    EndGoesFirst,
    LineBehindIsWrongAbove,
    FurtherLinesAreNotCounted,
    EachLineHasCells,
];

fn written(rule: Option<Rule>, text: &[u8], room: usize) -> Result<Vec<u8>, Refusal> {
    by_rule(rule, || texts::write_table(text, room))
}

/// The wrong rule of the program that is compared, or none.
static WRONG: Mutex<Option<Rule>> = Mutex::new(None);

unsafe extern "C" fn write_table(text: *const u8, n: usize, out: *mut u8, m: usize) -> Answer {
    let written = written(*WRONG.lock().unwrap(), from_raw_parts(text, n), m);
    if let Ok(table) = &written {
        out.copy_from_nonoverlapping(table.as_ptr(), table.len());
    }
    answer(written.map(|table| table.len()))
}

fn compared(rule: Option<Rule>, cases: u64) -> Result<Tally, String> {
    *WRONG.lock().unwrap() = rule;
    generated(Settings { cases, seed: 1 }, Exports { write_table, ..LIBRARY })
}

#[test]
fn wrong_rules_on_rows_are_noticed() {
    compared(None, 3_000).unwrap_or_else(|wrong| panic!("without a wrong rule: {wrong}"));
    for rule in RULES {
        is_noticed(compared(Some(rule), 10_000), WRITE, rule);
    }
}

#[test]
fn ten_of_ten_thousand_cases_show_each_wrong_rule() {
    let texts = answered(text, |text| written(None, text, TABLE_MOST));
    for rule in RULES {
        is_shown(&texts, WRITE, rule, |text| written(Some(rule), text, TABLE_MOST));
    }
}
