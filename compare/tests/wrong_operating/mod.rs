//! The model's `operators` and `widths` with one rule wrong, or none, as is set for the thread.

#[allow(dead_code)]
#[path = "../../../model/src/operators.rs"]
mod right;
#[path = "../../../model/src/widths.rs"]
mod right_widths;

use crate::trees::{Node, Tree};
pub use right::{Op, ABSENT_READ, OPS};
use std::cell::Cell;
use Rule::*;

/// A wrong rule.
#[derive(Clone, Copy, Debug, PartialEq, Eq)]
pub enum Rule {
    /// How operators are grouped.
    PowerGroupsToLeft,
    PowerIsProduct,
    RemainderIsLooser,
    QuotientIsTighter,
    /// What a step gives, or its fault.
    QuotientRoundsUp,
    ByZeroIsZero,
    RemainderByZeroIsLeft,
    ZeroDivisorIsOutOfRange,
    ZeroPowerIsZero,
    PowerWraps,
    PowerStaysAtMost,
    /// A zero divisor goes before a fault of the left operand.
    DivisorGoesFirst,
    /// A width that is a power of two numbers is a fixed one.
    PowerIsFixed,
    /// The codes of the three are 13 to 15 in decimal; those of `/` and `%` are each other's.
    CodesAreDecimal,
    CodesAreSwapped,
}

thread_local! {
    static RULE: Cell<Option<Rule>> = const { Cell::new(None) };
}

/// What `answer` gives with this wrong rule or none.
pub fn by_rule<T>(rule: Option<Rule>, answer: impl FnOnce() -> T) -> T {
    RULE.set(rule);
    let answer = answer();
    RULE.set(None);
    answer
}

/// The levels, with room for one between two.
pub const OR: u8 = 2 * right::OR;
pub const AND: u8 = 2 * right::AND;
pub const COMPARISON: u8 = 2 * right::COMPARISON;
const PRODUCT: u8 = 2 * right::PRODUCT;
const POWER: u8 = 2 * right::POWER;

pub fn code(op: Op) -> u8 {
    match (RULE.get(), op) {
        (Some(CodesAreDecimal), Op::Div | Op::Rem | Op::Pow) => right::code(op) - 0x13 + 13,
        (Some(CodesAreSwapped), Op::Div) => right::code(Op::Rem),
        (Some(CodesAreSwapped), Op::Rem) => right::code(Op::Div),
        _ => right::code(op),
    }
}

pub fn op_of(stored: u8) -> Option<Op> {
    OPS.iter().map(|row| row.0).find(|op| code(*op) == stored)
}

pub fn level(op: Op) -> u8 {
    match (RULE.get(), op) {
        (Some(PowerIsProduct), Op::Pow) => PRODUCT,
        (Some(RemainderIsLooser), Op::Rem) => PRODUCT - 1,
        (Some(QuotientIsTighter), Op::Div) => PRODUCT + 1,
        _ => 2 * right::level(op),
    }
}

pub fn groups(level: u8) -> (bool, bool) {
    match (RULE.get(), level) {
        (Some(PowerGroupsToLeft), POWER) => (true, false),
        _ => right::groups(level / 2),
    }
}

pub fn two_sided(
    op: Op,
    left: impl FnOnce() -> Result<u32, u32>,
    right: impl FnOnce() -> Result<u32, u32>,
) -> Result<u32, u32> {
    let (left, right) = (left(), right());
    let wrong = match (left, right) {
        (Ok(left), Ok(right)) => wrong_step(op, left, right),
        (Err(_), Ok(0)) if RULE.get() == Some(DivisorGoesFirst) && matches!(op, Op::Div | Op::Rem) => {
            Some(Err(right::ZERO_DIVISOR))
        }
        _ => None,
    };
    wrong.unwrap_or_else(|| right::two_sided(op, || left, || right))
}

/// What the step gives by a wrong rule, if that is on it.
fn wrong_step(op: Op, left: u32, right: u32) -> Option<Result<u32, u32>> {
    Some(match (RULE.get()?, op, left, right) {
        (QuotientRoundsUp, Op::Div, _, 1..) => Ok(left.div_ceil(right)),
        (ByZeroIsZero, Op::Div | Op::Rem, _, 0) => Ok(0),
        (RemainderByZeroIsLeft, Op::Rem, _, 0) => Ok(left),
        (ZeroDivisorIsOutOfRange, Op::Div | Op::Rem, _, 0) => Err(right::OUT_OF_RANGE),
        (ZeroPowerIsZero, Op::Pow, 0, 0) => Ok(0),
        (PowerWraps, Op::Pow, ..) => Ok(left.wrapping_pow(right)),
        (PowerStaysAtMost, Op::Pow, ..) => Ok(left.saturating_pow(right)),
        _ => return None,
    })
}

pub fn fixed_number<N>(tree: &Tree<N>) -> Option<u32> {
    match (RULE.get(), &tree.nodes[..]) {
        (Some(PowerIsFixed), [Node::Number(base), Node::Number(exponent), Node::Two(Op::Pow, ..)]) => {
            right::apply(Op::Pow, *base, *exponent).ok()
        }
        _ => right_widths::fixed_number(tree),
    }
}
