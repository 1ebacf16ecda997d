//! Which results are within the limits, by a program with a wrong rule.

use super::{Program, Rule::*};
use crate::descriptions::{Description, Field, Width};
use crate::editions::CURRENT;
use crate::naming::read_names;
use crate::rules::within_limits;
use std::sync::LazyLock;

/// Labels that no two fields have: some by which a field may be read, and others.
static READABLE: LazyLock<Vec<String>> = LazyLock::new(|| (0..400).map(|i| format!("F{i}")).collect());
static OTHERS: LazyLock<Vec<String>> = LazyLock::new(|| (0..400).map(|i| format!("9 {i}")).collect());

impl Program {
    pub fn keeps_limits(self, new: &Description) -> bool {
        let mut judged = new.clone();
        match self.0 {
            Some(AnyResult) => return true,
            Some(NoFieldLeft) if new.fields.is_empty() => return true,
            Some(Of129) if new.fields.len() == 129 => {
                judged.fields.pop();
            }
            // Each fixed field fills a row by itself.
            Some(AnyRows) => {
                judged.row_bits = 32;
                let is_fixed = |field: &&mut Field<usize>| matches!(field.width, Width::Fixed(1..=32));
                judged.fields.iter_mut().filter(is_fixed).for_each(|field| field.width = Width::Fixed(32));
            }
            Some(AnyNames) => judged.fields.iter_mut().take(READABLE.len()).enumerate().for_each(rename),
            _ => {}
        }
        within_limits(&CURRENT, &judged)
    }
}

/// Gives a field a label of its own, by which it may be read where it could be before.
fn rename((index, field): (usize, &mut Field<usize>)) {
    let labels = if read_names(field).next().is_some() { &READABLE } else { &OTHERS };
    field.label = labels[index].as_bytes();
    field.short = None;
}
