//! Numbers 4 and 7: how many cells and field lines there are, and where they disagree.

use crate::faults::{Fault, Mistake};
use crate::field_lines::{FieldLine, Width};
use crate::fields::{Field, Fields};
use crate::limits::FIELDS_MOST;
use crate::lines::Lines;
use crate::rows::{Cell, Part};
use crate::shown::{counted, quoted};
use crate::trees::Tree;

/// Number 4: too many cells or field lines.
pub fn too_many(cells: &[Cell], fields: &Fields) -> Option<Mistake> {
    let count =
        |number: usize, thing: &str| format!("{}, at most {FIELDS_MOST}", counted(number as u64, thing));
    let first_part = cells.get(FIELDS_MOST).and_then(|cell| cell.parts.first());
    let (spot, line, found, thing) = if let Some(part) = first_part {
        (part.spot.clone(), part.line, count(cells.len(), "cell"), "cell")
    } else {
        let field = fields.lines.get(FIELDS_MOST)?;
        (0..field.line.len(), field.number, count(fields.lines.len(), "field line"), "field line")
    };
    let what = format!("the {}th {thing}", FIELDS_MOST + 1);
    let fault = Fault::new(spot, found, what).note("every line below `where:` counts as a field");
    Some(fault.at(4, line).without_place())
}

/// Number 7: each line that disagrees with its cell; only the first where they are not equally many.
pub fn disagreements(lines: &Lines, cells: &[Cell], fields: &Fields) -> Vec<Mistake> {
    let page = Page { lines, cells, fields };
    let mut found: Vec<Mistake> = fields
        .right()
        .enumerate()
        .filter_map(|(index, (field, form))| Some(page.fault(index, field, form)?.at(7, field.number)))
        .collect();
    if cells.len() != fields.lines.len() {
        found.truncate(1);
    }
    if found.is_empty() {
        found.extend(page.cell_left());
    }
    found
}

struct Page<'a> {
    lines: &'a Lines<'a>,
    cells: &'a [Cell],
    fields: &'a Fields<'a>,
}

impl Page<'_> {
    /// A cell in words.
    fn told(&self, index: usize, cell: &Cell) -> String {
        let width = cell.bits.map_or("a row between `:`".to_string(), |bits| counted(bits as u64, "bit"));
        format!("cell {} ({}): {}, {width}", index + 1, place(cell), quoted(&cell.text))
    }

    fn counts(&self) -> Option<String> {
        let (cells, lines) = (self.cells.len() as u64, self.fields.lines.len() as u64);
        let note = format!("there are {} and {}", counted(cells, "cell"), counted(lines, "field line"));
        (cells != lines).then_some(note)
    }

    fn fault(&self, index: usize, field: &Field, form: &FieldLine) -> Option<Fault> {
        let Some(cell) = self.cells.get(index) else {
            let message = format!("no cell for field line {}", index + 1);
            return Some(Fault::new(0..field.line.len(), message, "no cell").note_if(self.counts()));
        };
        let told = self.told(index, cell);
        if field.called(form, &cell.text).is_none() {
            return Some(self.misnamed(field, form, &told, cell));
        }
        let fault = match (&form.width, cell.bits) {
            (Width::Fixed(bits), Some(cell_bits)) if *bits as usize == cell_bits => return None,
            (Width::Fixed(bits), Some(cell_bits)) => wide(form, &told, *bits as usize, cell_bits),
            (Width::Fixed(bits), None) => fixed_in_long(form, &told, *bits),
            (Width::Measured { unit, tree }, Some(_)) => {
                let value = tree.constant().map(|value| u64::from(value) * u64::from(*unit));
                let name = self.unknown_name(field, tree);
                not_fixed(field, form, &told, value.filter(|bits| (1..=32).contains(bits))).note_if(name)
            }
            (Width::Rest, Some(_)) => {
                let message = format!("{told}; this line: `variable`");
                Fault::new(form.width_span.clone(), message, "not fixed")
                    .note("a `variable` field has a row of its own between `:`")
            }
            (_, None) => return None,
        };
        Some(fault.note_if(self.counts()))
    }

    /// A width that is only a name, which no field has.
    fn unknown_name(&self, field: &Field, tree: &Tree) -> Option<String> {
        let name = field.part(&tree.names().next().filter(|name| *name == tree.span)?);
        let known = self.fields.right().any(|(other, form)| other.called(form, name).is_some());
        let note = format!("{} is taken for a name; a fixed width is a number", quoted(name));
        (!known).then_some(note)
    }

    /// A line whose names the cell does not show.
    fn misnamed(&self, field: &Field, form: &FieldLine, told: &str, cell: &Cell) -> Fault {
        let label = field.part(&form.label);
        let short = form.short.as_ref().map(|short| field.part(short));
        let own = match short {
            Some(short) => format!("{} ({})", quoted(label), quoted(short)),
            None => quoted(label),
        };
        let message = format!("{told}; this line: {own}");
        let shows = |cell: &Cell| field.called(form, &cell.text).is_some();
        let elsewhere = self.cells.iter().enumerate().find(|(_, cell)| shows(cell));
        let place = elsewhere.map(|(index, cell)| {
            format!("cell {} ({}) shows this field: cells and lines have one order", index + 1, place(cell))
        });
        let spot = form.label.start..form.short.as_ref().map_or(form.label.end, |short| short.end + 1);
        Fault::new(spot, message, "another name than its cell shows")
            .note_if(place)
            .note_if(self.line_alone(field, form, cell))
            .note_if(self.counts())
            .note("a cell shows its field's label or short name, letter for letter")
    }

    /// The line of a cell of several lines that alone shows a field.
    fn line_alone(&self, field: &Field, form: &FieldLine, cell: &Cell) -> Option<String> {
        let text = |part: &Part| &self.lines.ended[part.line - 1][part.spot.clone()];
        let part = cell.parts.iter().find(|part| field.called(form, text(part)).is_some())?;
        Some(format!("line {} alone shows this field: a border stands between two rows", part.line))
    }

    /// The first cell that has no line.
    fn cell_left(&self) -> Option<Mistake> {
        let index = self.fields.lines.len();
        let cell = self.cells.get(index)?;
        let message = format!("no field line for {}", self.told(index, cell));
        let fault = Fault::new(0..1, message, "a field line is missing here").note_if(self.counts());
        Some(fault.at(7, self.lines.ended.len() + 1))
    }
}

/// The line of a cell, or the lines of its row.
fn place(cell: &Cell) -> String {
    match cell.lines {
        (first, last) if first == last => format!("line {first}"),
        (first, last) => format!("lines {first} to {last}"),
    }
}

fn wide(form: &FieldLine, told: &str, bits: usize, cell_bits: usize) -> Fault {
    let message = format!("{told}; this line: {}", counted(bits as u64, "bit"));
    let cell_label = format!("its cell has {}", counted(cell_bits as u64, "bit"));
    let between = 2 * bits - 1;
    Fault::new(form.width_span.clone(), message, cell_label)
        .note(format!("a cell of {} has {between} characters between its bars", counted(bits as u64, "bit")))
}

fn fixed_in_long(form: &FieldLine, told: &str, bits: u32) -> Fault {
    let message = format!("{told}; this line: {}, a fixed width", counted(u64::from(bits), "bit"));
    Fault::new(form.width_span.clone(), message, "fixed")
        .note("a field of fixed width has a cell between `|`")
}

/// A width that is calculated, in a cell between bars. `bits` is what it comes to, where it could be fixed.
fn not_fixed(field: &Field, form: &FieldLine, told: &str, bits: Option<u64>) -> Fault {
    let message = format!("{told}; this line: {}", quoted(field.part(&form.width_span)));
    let fault = Fault::new(form.width_span.clone(), message, "not fixed");
    match bits {
        Some(bits) => {
            fault.note(format!("a calculated width is never fixed: write `{}`", counted(bits, "bit")))
        }
        None => fault.note("a calculated width is never fixed: its field has a row of its own between `:`"),
    }
}
