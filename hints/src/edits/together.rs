//! The rules that a list of fields breaks: on their number, on each alone, on their names, on what they read, on what
//! stands behind the rest field, and on how they fill rows.

use super::alone::fault;
use crate::limits::FIELDS_MOST;
use crate::names::is_short;
use crate::shown::{counted, listed, quoted};
use crate::stored::{StoredField, StoredWidth};

/// A rule that is broken.
pub struct Broken {
    pub message: String,
    pub notes: Vec<String>,
}

impl Broken {
    fn new(message: String, note: &str) -> Self {
        Broken { message, notes: vec![note.to_string()] }
    }
}

/// The rules that these fields, in rows of so many bits, break; of each the first place.
pub fn broken(row_bits: u32, fields: &[StoredField]) -> Vec<Broken> {
    let all = [
        number(fields),
        alone(fields),
        names(fields),
        reads(fields),
        behind_rest(fields),
        rows(row_bits, fields),
    ];
    all.into_iter().flatten().collect()
}

fn number(fields: &[StoredField]) -> Option<Broken> {
    let found = match fields.len() {
        0 => "no field would be left".to_string(),
        count if count > FIELDS_MOST => format!("there would be {count} fields"),
        _ => return None,
    };
    Some(Broken::new(found, "a table has 1 to 128 fields"))
}

/// A field that breaks a rule by itself.
fn alone(fields: &[StoredField]) -> Option<Broken> {
    let (index, fault) = fields.iter().enumerate().find_map(|(index, field)| Some((index, fault(field)?)))?;
    let label = quoted(&fields[index].label);
    Some(Broken {
        message: format!("field {}, {label}, is wrong by itself: {fault}", index + 1),
        notes: vec![],
    })
}

/// Two fields with one name.
fn names(fields: &[StoredField]) -> Option<Broken> {
    let clash = |later: usize| {
        let own = |name: &&[u8]| fields[later].names().any(|other| other == *name);
        let shared = |earlier: usize| fields[earlier].names().find(own).map(|name| (earlier, later, name));
        (0..later).find_map(shared)
    };
    let (earlier, later, name) = (0..fields.len()).find_map(clash)?;
    let which = |index: usize| format!("field {}, {}", index + 1, quoted(&fields[index].label));
    let message = format!("two fields would have the name {}", quoted(name));
    let where_they_are = format!("they would be {}, and {}", which(earlier), which(later));
    let rule = "no label or short name of a field is either name of another".to_string();
    Some(Broken { message, notes: vec![where_they_are, rule] })
}

/// A field that reads what it may not read.
fn reads(fields: &[StoredField]) -> Option<Broken> {
    let wrong = |index: usize| {
        fields[index].expressions().find_map(|(what, tree)| {
            let end = if what == "constraint" { index + 1 } else { index };
            let why = |read: usize| unread(fields, read, end).map(|why| (what, read, why));
            tree.fields().into_iter().find_map(why)
        })
    };
    let (index, (what, read, why)) = (0..fields.len()).find_map(|index| Some((index, wrong(index)?)))?;
    let whose = quoted(&fields[index].label);
    let message = format!("the {what} of {whose} would read field {}, {why}", read + 1);
    Some(Broken::new(message, "an expression reads earlier fixed fields that have a name to be read by"))
}

/// Why an expression whose fields end here may not read a field.
fn unread(fields: &[StoredField], read: usize, end: usize) -> Option<String> {
    let Some(field) = fields.get(read) else { return Some("which is not there".to_string()) };
    let label = quoted(&field.label);
    match field.width {
        _ if read >= end => Some(format!("{label}, which is not an earlier one")),
        StoredWidth::Fixed(_) if field.names().any(is_short) => None,
        StoredWidth::Fixed(_) => Some(format!("{label}, which has no name to be read by")),
        _ => Some(format!("{label}, which is not fixed")),
    }
}

/// A field that may not stand behind the rest field.
fn behind_rest(fields: &[StoredField]) -> Option<Broken> {
    let is_rest = |field: &StoredField| matches!(field.width, StoredWidth::Rest);
    let rest = fields.iter().position(is_rest)?;
    let why = |field: &StoredField| match field.width {
        StoredWidth::Rest => Some("it takes the rest too"),
        StoredWidth::Measured { .. } => Some("its width is measured"),
        StoredWidth::Fixed(_) => field.condition.as_ref().map(|_| "it has a condition"),
    };
    let (field, why) = fields[rest + 1..].iter().find_map(|field| Some((field, why(field)?)))?;
    let (label, rest) = (quoted(&field.label), quoted(&fields[rest].label));
    let message = format!("{label} would stand behind {rest}, which takes the rest: {why}");
    Some(Broken::new(message, "behind the rest field only fixed fields without a condition follow"))
}

/// A row that is not filled by its fields, or one that a field would cross.
fn rows(row_bits: u32, fields: &[StoredField]) -> Option<Broken> {
    if row_bits == 0 {
        return None;
    }
    let (mut filled, mut start) = (0, 0);
    for (index, field) in fields.iter().enumerate() {
        let row = Row { bits: row_bits, filled, fields: &fields[start..index] };
        match field.fixed_bits() {
            Some(bits) if bits > row_bits - filled => return Some(row.crossed(field, bits)),
            Some(bits) => filled = (filled + bits) % row_bits,
            None if filled > 0 => return Some(row.unfilled(&format!("before {}", quoted(&field.label)))),
            None => {}
        }
        if filled == 0 {
            start = index + 1;
        }
    }
    let row = Row { bits: row_bits, filled, fields: &fields[start..] };
    (filled > 0).then(|| row.unfilled("at the end"))
}

/// A row that is filled in part, with its fields so far.
struct Row<'a> {
    bits: u32,
    filled: u32,
    fields: &'a [StoredField],
}

impl Row<'_> {
    fn crossed(&self, field: &StoredField, bits: u32) -> Broken {
        let (label, has) = (quoted(&field.label), counted(u64::from(bits), "bit"));
        let left = self.bits - self.filled;
        let message = format!("{label} would cross the end of its row: it has {has}, and {left} are left");
        if self.fields.is_empty() {
            return Broken::new(message, &format!("a row has {} bits, and no field is wider", self.bits));
        }
        Broken { message, notes: self.notes() }
    }

    fn unfilled(&self, place: &str) -> Broken {
        let message = format!("the row {place} would have {} of its {} bits", self.filled, self.bits);
        Broken { message, notes: self.notes() }
    }

    fn notes(&self) -> Vec<String> {
        let labels: Vec<String> = self.fields.iter().map(|field| quoted(&field.label)).collect();
        let (filled, bits) = (self.filled, self.bits);
        let lacks = bits - filled;
        vec![
            format!("in that row: {}, {filled} of {bits} bits", listed(&labels, "and")),
            format!("fixed fields fill whole rows: {lacks} bits more are to come, or these {filled} to go"),
        ]
    }
}
