//! What to write instead of an expression that faults.

use crate::operators::{Operator, OPERATORS};
use crate::stored::{StoredField, Tree};
use crate::written::{name_of, written};

fn operator(symbol: &str) -> Option<Operator> {
    OPERATORS.into_iter().find(|operator| operator.symbol == symbol)
}

/// For an expression that reads a field which is absent.
pub fn of_absent(what: &str, rule: &Tree, fields: &[StoredField], absent: usize) -> Option<String> {
    let there = fields.get(absent)?.condition.clone()?;
    Some(match what {
        "width" => format!("let this field be `present only when {}`", written(&there, fields)),
        "condition" => {
            let tested = Tree::two(operator("&&")?, there, rule.clone());
            format!("write `present only when {}`", written(&tested, fields))
        }
        _ => {
            let tested = Tree::two(operator("||")?, Tree::Not(Box::new(there)), rule.clone());
            format!("write `{}`", written(&tested, fields))
        }
    })
}

/// For an expression with a step that leaves the range.
pub fn of_range(what: &str, rule: &Tree, fields: &[StoredField], step: &Tree) -> Option<String> {
    let Tree::Two(operation, left, right) = step else { return None };
    if operation.symbol != "-" {
        let names: Vec<String> =
            step.fields().iter().map(|index| format!("`{}`", name_of(fields, *index))).collect();
        return Some(match names.as_slice() {
            [] => "use smaller numbers".to_string(),
            names => format!("keep {} small by a constraint", names.join(" and ")),
        });
    }
    let enough = Tree::two(operator(">=")?, (**left).clone(), (**right).clone());
    tested_first(what, rule, fields, enough)
}

/// For an expression with a step that divides by zero.
pub fn of_divisor(what: &str, rule: &Tree, fields: &[StoredField], step: &Tree) -> Option<String> {
    let Tree::Two(_, _, divisor) = step else { return None };
    if divisor.fields().is_empty() {
        return Some("the divisor is 0 in every packet".to_string());
    }
    let some = Tree::two(operator("!=")?, (**divisor).clone(), Tree::Number(0));
    tested_first(what, rule, fields, some)
}

/// The expression behind a test without which it faults; a width has it as a condition.
fn tested_first(what: &str, rule: &Tree, fields: &[StoredField], test: Tree) -> Option<String> {
    if what == "width" {
        return Some(format!("let this field be `present only when {}`", written(&test, fields)));
    }
    let tested = written(&Tree::two(operator("&&")?, test, rule.clone()), fields);
    let when = if what == "condition" { "present only when " } else { "" };
    Some(format!("write `{when}{tested}`"))
}
