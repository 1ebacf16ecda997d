//! Labels that stand in an expression though they have not the form of a short name.

use crate::faults::Fault;
use crate::field_lines::line_names;
use crate::fields::Field;
use crate::names::{is_short, OF_SHORTS};
use crate::shown::{quoted, shown};
use std::cmp::Reverse;
use std::ops::Range;

/// Such a label, of the line of this number.
pub struct Unreadable<'a> {
    label: &'a [u8],
    short: Option<&'a [u8]>,
    number: usize,
}

/// Those of a page, the longest first.
pub fn labels<'a>(lines: &[Field<'a>]) -> Vec<Unreadable<'a>> {
    let unreadable = |field: &Field<'a>| {
        let (label, short, _) = line_names(field.line).ok()?;
        let (label, short) = (field.part(&label), short.map(|short| field.part(&short)));
        is_looked_for(label).then_some(Unreadable { label, short, number: field.number })
    };
    let mut labels: Vec<Unreadable> = lines.iter().filter_map(unreadable).collect();
    labels.sort_by_key(|found| Reverse(found.label.len()));
    labels
}

/// Whether a label cannot be read and is not easily taken for a number.
fn is_looked_for(label: &[u8]) -> bool {
    let lettered = label.first().is_some_and(u8::is_ascii_alphabetic);
    let one_word = label.iter().all(u8::is_ascii_alphanumeric) && !label.iter().all(u8::is_ascii_digit);
    !is_short(label) && (lettered || one_word)
}

impl Unreadable<'_> {
    /// A fault of a line's form; where its place is in a label that stands as an operand, this is told instead.
    pub fn told(labels: &[Self], field: &Field, fault: Fault) -> Fault {
        match Self::at(labels, field.line, &fault.operands, fault.spot.start) {
            Some((found, spot)) => found.fault(spot),
            None => fault,
        }
    }

    /// The label that begins at one of these operands of a line and holds the byte `at`, and all of its place.
    pub fn at<'l>(
        labels: &'l [Self],
        line: &[u8],
        operands: &[usize],
        at: usize,
    ) -> Option<(&'l Self, Range<usize>)> {
        labels.iter().find_map(|found| Some((found, spot_of(found.label, line, operands, at)?)))
    }

    /// What is said where an expression has its form all the same.
    pub fn note(&self) -> String {
        format!("{}, the label of line {}, has not the form of a short name", quoted(self.label), self.number)
    }

    fn fault(&self, spot: Range<usize>) -> Fault {
        let (label, line) = (quoted(self.label), self.number);
        let message = format!("{label} is the label of line {line}, but has not the form of a short name");
        let mend = match self.short {
            Some(short) => format!("its field is read by its short name, {}", quoted(short)),
            None => format!("its field needs a short name to be read: `{} (Short)`", shown(self.label)),
        };
        Fault::new(spot, message, "cannot be read").note(mend).note(OF_SHORTS)
    }
}

/// Where a label begins as one of these operands, so that it holds the byte `at` and no letter or digit follows it.
fn spot_of(label: &[u8], line: &[u8], operands: &[usize], at: usize) -> Option<Range<usize>> {
    let stands = |spot: &Range<usize>| {
        let follows = line.get(spot.end).is_some_and(u8::is_ascii_alphanumeric);
        spot.contains(&at) && line.get(spot.clone()) == Some(label) && !follows
    };
    operands.iter().map(|start| *start..start + label.len()).find(stands)
}
