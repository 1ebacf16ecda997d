//! The field lines of a page, each with its form where that is right.

use crate::faults::{Fault, Mistake};
use crate::field_lines::{read, FieldLine};
use crate::names::is_short;
use crate::unreadable::{labels, Unreadable};
use std::ops::Range;

pub struct Fields<'a> {
    pub lines: Vec<Field<'a>>,
    /// The labels that cannot be read.
    pub unreadable: Vec<Unreadable<'a>>,
}

/// A field line.
pub struct Field<'a> {
    pub number: usize,
    pub line: &'a [u8],
    pub form: Option<FieldLine>,
}

impl<'a> Fields<'a> {
    /// Reads the lines, of which the first has this number. Answers what is wrong with their forms too.
    pub fn read(lines: &[&'a [u8]], first: usize) -> (Self, Vec<Mistake>) {
        let mut faults = Vec::new();
        let field = |(index, line): (usize, &&'a [u8])| {
            let form = read(line).map_err(|fault| faults.push((index, fault))).ok();
            Field { number: first + index, line, form }
        };
        let lines: Vec<Field> = lines.iter().enumerate().map(field).collect();
        let unreadable = labels(&lines);
        let mistake = |(index, fault): (usize, Fault)| {
            Unreadable::told(&unreadable, &lines[index], fault).at(5, first + index)
        };
        let mistakes = faults.into_iter().map(mistake).collect();
        (Fields { lines, unreadable }, mistakes)
    }

    /// The lines of right form.
    pub fn right(&self) -> impl Iterator<Item = (&Field<'a>, &FieldLine)> {
        self.lines.iter().filter_map(|field| Some((field, field.form.as_ref()?)))
    }
}

impl<'a> Field<'a> {
    pub fn part(&self, part: &Range<usize>) -> &'a [u8] {
        &self.line[part.clone()]
    }

    /// Whether this is a name of the field, and which.
    pub fn called(&self, form: &FieldLine, name: &[u8]) -> Option<&'static str> {
        form.names().find(|(_, part)| self.part(part) == name).map(|(what, _)| what)
    }

    /// The names by which the field may be read: those of the form of a short name, each once.
    pub fn read_names(&self, form: &FieldLine) -> Vec<&'a [u8]> {
        let mut names: Vec<&[u8]> = form.names().map(|(_, part)| self.part(part)).collect();
        names.dedup();
        names.retain(|name| is_short(name));
        names
    }
}
