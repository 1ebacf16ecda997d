//! Programs that are the model with one wrong rule: the model's files that all of them have, each module at the root of
//! the test that takes them, and what is asked of such programs. The files with the rules are the test's own.

#![allow(dead_code)]

#[path = "../../../model/src/descriptions.rs"]
pub mod descriptions;
#[path = "../../../model/src/expressions.rs"]
pub mod expressions;
#[path = "../../../model/src/field_lines.rs"]
pub mod field_lines;
#[path = "../../../model/src/frames.rs"]
pub mod frames;
#[path = "../../../model/src/matching.rs"]
pub mod matching;
#[path = "../../../model/src/names.rs"]
pub mod names;
#[path = "../../../model/src/refusals.rs"]
pub mod refusals;
#[path = "../../../model/src/rules.rs"]
pub mod rules;
#[path = "../../../model/src/stored.rs"]
pub mod stored;
#[path = "../../../model/src/tables.rs"]
pub mod tables;
#[path = "../../../model/src/texts.rs"]
pub mod texts;
#[path = "../../../model/src/trees.rs"]
pub mod trees;

use refusals::Refusal;
use std::fmt::Debug;
use umarekoza_compare::exports::Answer;
use umarekoza_compare::runs::Tally;
use umarekoza_model::generate::Rng;

pub const WRITE: &str = "write_table";
pub const CHECK: &str = "check_table";
pub const READ: &str = "read_packet";
/// How many of ten thousand cases show a wrong rule, at the least.
const DUE: usize = 10;

pub fn answer(settled: Result<usize, Refusal>) -> Answer {
    match settled {
        Ok(length) => Answer { number: 0, place: 0, length: length as u64 },
        Err(Refusal { number, place }) => Answer { number, place, length: 0 },
    }
}

/// A comparison of the program with this wrong rule finds that this call is wrong.
pub fn is_noticed(compared: Result<Tally, String>, call: &str, rule: impl Debug) {
    let wrong = compared.err().unwrap_or_else(|| panic!("{call}, {rule:?}: not noticed"));
    assert!(wrong.contains(&format!(": {call}")), "{call}, {rule:?}: {wrong}");
}

/// Ten thousand cases, each with its right answer.
pub fn answered<C, T>(case: impl Fn(&mut Rng) -> C, right: impl Fn(&C) -> T) -> Vec<(C, T)> {
    let mut rng = Rng::new(1);
    let answered = |case: C| {
        let right = right(&case);
        (case, right)
    };
    (0..10_000).map(|_| answered(case(&mut rng))).collect()
}

/// Enough of the cases have another answer by the program with this wrong rule.
pub fn is_shown<C, T: PartialEq>(cases: &[(C, T)], call: &str, rule: impl Debug, wrong: impl Fn(&C) -> T) {
    let found = cases.iter().filter(|(case, right)| wrong(case) != *right).take(DUE).count();
    assert_eq!(found, DUE, "{call}, {rule:?}");
}
