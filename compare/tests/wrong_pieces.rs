//! The comparison notices programs that are wrong about texts in pieces alone [02, R-9]: one that keeps the joined text
//! and answers by the model, with one wrong rule at a time.

mod changed_model;
#[allow(dead_code)]
#[path = "../../model/src/editions.rs"]
mod editions;
#[path = "wrong_feeding/mod.rs"]
mod feeding;
#[path = "../../model/src/lines.rs"]
mod lines;
#[path = "../../model/src/naming.rs"]
mod naming;
#[allow(dead_code)]
#[path = "../../model/src/operators.rs"]
mod operators;
#[path = "../../model/src/references.rs"]
mod references;
#[path = "../../model/src/rows.rs"]
mod rows;
#[path = "../../model/src/widths.rs"]
mod widths;

use changed_model::*;
use feeding::{Rule, Rule::*};
use refusals::Refusal;
use std::slice::{from_raw_parts, from_raw_parts_mut};
use std::sync::Mutex;
use umarekoza::{STATE_BYTES, TABLE_MOST};
use umarekoza_compare::exports::{Answer, Exports, LIBRARY};
use umarekoza_compare::runs::{generated, Settings, Tally};
use umarekoza_model::generate::{pieces, text, Rng};

const END: &str = "text_end";
const RULES: [Rule; 18] = [
    PieceEndsLine,
    UnfinishedIsWrong,
    EmptyPieceEnds,
    EmptyPieceEndsLine,
    FirstLfIsLost,
    LastLfIsLost,
    UnfinishedIsLost,
    BlanksAreLost,
    EarlierByteIsForgotten,
    LengthOfPieceCounts,
    LineIsCut,
    TextIsCut,
    LaterAndHigher,
    EarlierAndHigher,
    LastOfNumber,
    FirstLineIsKept,
    RefusedIsWritten,
    RoomIsForgotten,
];

/// The wrong rule of the program that is compared, or none.
static WRONG: Mutex<Option<Rule>> = Mutex::new(None);

unsafe extern "C" fn text_start(state: *mut u8, n: usize) {
    if n >= STATE_BYTES {
        feeding::start(from_raw_parts_mut(state, STATE_BYTES));
    }
}

unsafe extern "C" fn text_piece(state: *mut u8, n: usize, piece: *const u8, m: usize) {
    if n >= STATE_BYTES {
        let state = from_raw_parts_mut(state, STATE_BYTES);
        feeding::piece(*WRONG.lock().unwrap(), state, from_raw_parts(piece, m));
    }
}

unsafe extern "C" fn text_end(state: *const u8, n: usize, out: *mut u8, m: usize) -> Answer {
    if n < STATE_BYTES {
        return answer(Err(Refusal { number: 11, place: 0 }));
    }
    let (table, written) = feeding::end(*WRONG.lock().unwrap(), from_raw_parts(state, n), m);
    if let Ok(table) = &table {
        out.copy_from_nonoverlapping(table.as_ptr(), table.len());
    }
    for at in 0..written.min(m) {
        *out.add(at) ^= 1;
    }
    answer(table.map(|table| table.len()))
}

fn compared(rule: Option<Rule>, cases: u64) -> Result<Tally, String> {
    *WRONG.lock().unwrap() = rule;
    generated(Settings { cases, seed: 1 }, Exports { text_start, text_piece, text_end, ..LIBRARY })
}

#[test]
fn wrong_rules_on_pieces_are_noticed() {
    compared(None, 3_000).unwrap_or_else(|wrong| panic!("without a wrong rule: {wrong}"));
    for rule in RULES {
        is_noticed(compared(Some(rule), 10_000), END, rule);
    }
}

/// Where a text is cut behind 77 bytes, and there alone, the last byte of what follows is lost.
unsafe extern "C" fn lost_behind_77(state: *mut u8, n: usize, piece: *const u8, m: usize) {
    let is_behind = n >= STATE_BYTES && from_raw_parts(state, 2) == [77, 0] && m > 1;
    (LIBRARY.text_piece)(state, n, piece, m - usize::from(is_behind));
}

#[test]
fn a_wrong_place_is_noticed() {
    let exports = Exports { text_piece: lost_behind_77, ..LIBRARY };
    is_noticed(generated(Settings { cases: 200, seed: 1 }, exports), END, 77);
}

/// The last byte of a state stays what it was.
unsafe extern "C" fn last_stays(state: *mut u8, n: usize) {
    let last = (n >= STATE_BYTES).then(|| *state.add(STATE_BYTES - 1));
    (LIBRARY.text_start)(state, n);
    if let Some(last) = last {
        *state.add(STATE_BYTES - 1) = last;
    }
}

#[test]
fn a_start_that_leaves_a_byte_is_noticed() {
    let exports = Exports { text_start: last_stays, ..LIBRARY };
    is_noticed(generated(Settings { cases: 200, seed: 1 }, exports), "text_start", "a byte left");
}

/// A text and where its pieces end, and the room for its table: most often just enough.
type Case = (Vec<u8>, Vec<usize>, usize);

fn case(rng: &mut Rng) -> Case {
    let text = text(rng);
    let mut end = 0;
    let mut ends = Vec::new();
    for piece in pieces(rng, &text) {
        end += piece.len();
        ends.push(end);
    }
    let room = if rng.one_in(6) { rng.below(100) } else { TABLE_MOST };
    (text, ends, room)
}

fn fed(rule: Option<Rule>, (text, ends, room): &Case) -> (Result<Vec<u8>, Refusal>, usize) {
    let mut state = vec![0; STATE_BYTES];
    feeding::start(&mut state);
    let mut start = 0;
    for end in ends {
        feeding::piece(rule, &mut state, &text[start..*end]);
        start = *end;
    }
    feeding::end(rule, &state, *room)
}

#[test]
fn ten_of_ten_thousand_cases_show_each_wrong_rule() {
    let cases = answered(case, |case| fed(None, case));
    for rule in RULES {
        is_shown(&cases, END, rule, |case| fed(Some(rule), case));
    }
}
