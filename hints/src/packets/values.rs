//! The value of a stored expression, or the step at which it faults.

use crate::operators::Broken;
use crate::stored::Tree;

/// What ends an evaluation.
#[derive(Clone, Copy, Debug)]
pub enum Fault<'a> {
    /// This field is absent.
    Absent(usize),
    /// This step, with the values of its operands, is broken.
    Step { step: &'a Tree, left: u32, right: u32, broken: Broken },
    /// No value is known for this field.
    Unknown,
}

/// The value of a field that is read: its number, that it is absent, or that it is not known.
pub type Reads<'r> = &'r dyn Fn(usize) -> Option<Option<u32>>;

/// Yes is 1, no is 0.
pub fn value_of<'a>(tree: &'a Tree, reads: Reads) -> Result<u32, Fault<'a>> {
    match tree {
        Tree::Number(number) => Ok(*number),
        Tree::Field(index) => match reads(*index) {
            Some(value) => value.ok_or(Fault::Absent(*index)),
            None => Err(Fault::Unknown),
        },
        Tree::Not(operand) => Ok(u32::from(value_of(operand, reads)? == 0)),
        Tree::Two(operator, left, right) => {
            let left = value_of(left, reads)?;
            match (operator.symbol, left) {
                ("&&", 0) => return Ok(0),
                ("||", 1..) => return Ok(1),
                _ => {}
            }
            let right = value_of(right, reads)?;
            operator.applied(left, right).map_err(|broken| Fault::Step { step: tree, left, right, broken })
        }
    }
}
