//! Mistakes as they are found: a fault is within a line, a mistake in a page.

use crate::hint::{Also, Hint};
use std::ops::Range;

/// What is wrong in a line; the spot is in bytes from 0.
#[derive(Clone, Debug)]
pub struct Fault {
    pub spot: Range<usize>,
    pub message: String,
    pub label: String,
    pub notes: Vec<String>,
    /// Where the operands begin of the expression at the spot or right before it.
    pub operands: Vec<usize>,
}

impl Fault {
    pub fn new(spot: Range<usize>, message: impl Into<String>, label: impl Into<String>) -> Self {
        let (message, label) = (message.into(), label.into());
        Fault { spot, message, label, notes: Vec::new(), operands: Vec::new() }
    }

    pub fn note(mut self, note: impl Into<String>) -> Self {
        self.notes.push(note.into());
        self
    }

    /// The note, if there is one.
    pub fn note_if(self, note: Option<String>) -> Self {
        match note {
            Some(note) => self.note(note),
            None => self,
        }
    }

    /// In or right behind an expression with operands at these places.
    pub fn of_operands(self, operands: Vec<usize>) -> Self {
        Fault { operands, ..self }
    }

    /// As a mistake in a line, counted from 1.
    pub fn at(self, number: u32, line: usize) -> Mistake {
        Mistake { number, place: line, line, fault: self }
    }
}

/// A fault of a page, with the number and place that document 01 gives it.
#[derive(Clone, Debug)]
pub struct Mistake {
    pub number: u32,
    pub place: usize,
    pub line: usize,
    pub fault: Fault,
}

impl Mistake {
    /// With the place 0.
    pub fn without_place(self) -> Self {
        Mistake { place: 0, ..self }
    }

    fn column(&self) -> usize {
        if self.line == 0 {
            0
        } else {
            self.fault.spot.start + 1
        }
    }

    pub fn also(&self) -> Also {
        let message = self.fault.message.clone();
        Also { number: self.number, line: self.line, column: self.column(), message }
    }

    pub fn hint(self, also: Vec<Also>) -> Hint {
        let (column, line, number) = (self.column(), self.line, self.number);
        let width = if column == 0 { 0 } else { self.fault.spot.len().max(1) };
        let Fault { message, label, notes, .. } = self.fault;
        Hint { number, line, column, width, message, label, notes, also }
    }
}
