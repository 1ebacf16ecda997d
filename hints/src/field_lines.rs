//! Number 5: the form of a field line.

use crate::expression_faults::{behind, expected};
use crate::expressions::read as read_expression;
use crate::faults::Fault;
use crate::names::{is_label_byte, label_fault, short_fault};
use crate::shown::{counted, found, quoted, word_length};
use crate::trees::Tree;
use std::ops::Range;

const PRESENT: &[u8] = b"present only when ";
const VARIABLE: &[u8] = b"variable";
const FORM: &str =
    "the form is `Label (Short): 2 bytes; CONSTRAINT; present only when CONDITION.`; short name, \
                    constraint and condition may be left out";
const UNITS: &str = "`bit`, `bits`, `byte` or `bytes`";

/// A line of right form; names are parts of the line.
#[derive(Clone, Debug)]
pub struct FieldLine {
    pub label: Range<usize>,
    pub short: Option<Range<usize>>,
    pub width: Width,
    /// The width as it is written, with its unit.
    pub width_span: Range<usize>,
    pub constraint: Option<Tree>,
    pub condition: Option<Tree>,
}

#[derive(Clone, Debug)]
pub enum Width {
    Fixed(u32),
    Measured { unit: u32, tree: Tree },
    Rest,
}

impl FieldLine {
    /// The expressions of the line with what they are, in their order.
    pub fn expressions(&self) -> impl Iterator<Item = (&'static str, &Tree)> {
        let width = match &self.width {
            Width::Measured { tree, .. } => Some(("width", tree)),
            _ => None,
        };
        let constraint = self.constraint.as_ref().map(|tree| ("constraint", tree));
        let condition = self.condition.as_ref().map(|tree| ("condition", tree));
        width.into_iter().chain(constraint).chain(condition)
    }

    /// The names of the field: which each is, and its part of the line.
    pub fn names(&self) -> impl Iterator<Item = (&'static str, &Range<usize>)> {
        let short = self.short.as_ref().map(|short| ("short name", short));
        [("label", &self.label)].into_iter().chain(short)
    }

    pub fn is_fixed(&self) -> bool {
        matches!(self.width, Width::Fixed(_))
    }
}

/// The label of a line, its short name if it has one, and the place of its width.
pub type Names = (Range<usize>, Option<Range<usize>>, usize);

/// The names with which a line begins.
pub fn line_names(line: &[u8]) -> Result<Names, Fault> {
    let (label, at) = label(line)?;
    let (short, at) = short(line, at)?;
    Ok((label, short, colon(line, at)?))
}

/// Reads a field line.
pub fn read(line: &[u8]) -> Result<FieldLine, Fault> {
    let (label, short, at) = line_names(line)?;
    let (width, end) = width(line, at)?;
    let width_span = at..end;
    let (constraint, end) = constraint(line, end)?;
    let (condition, end) = condition(line, end)?;
    let due = if condition.is_some() { "`.`" } else { "`;` or `.`" };
    match condition.as_ref().or(constraint.as_ref()) {
        Some(last) => stop(line, end, due, true).map_err(|fault| fault.of_operands(last.operands.clone()))?,
        None => stop(line, end, due, false)?,
    }
    Ok(FieldLine { label, short, width, width_span, constraint, condition })
}

/// The label, and the place of what has to follow it.
fn label(line: &[u8]) -> Result<(Range<usize>, usize), Fault> {
    if line.is_empty() {
        return Err(Fault::new(0..1, "an empty line below `where:`", "expected a field line")
            .note("every line below `where:` is a field line; take the empty line out"));
    }
    let blanks = line.iter().take_while(|byte| **byte == b' ').count();
    if blanks > 0 {
        let message =
            if blanks == 1 { "blank at the start of the line" } else { "blanks at the start of the line" };
        return Err(Fault::new(0..blanks, message, message));
    }
    let end = line.iter().position(|byte| !is_label_byte(*byte)).unwrap_or(line.len());
    let label = match line.get(end) {
        Some(b'(') => line[..end].strip_suffix(b" ").unwrap_or(&line[..end]),
        _ => &line[..end],
    };
    if !matches!(line.get(end), Some(b'(' | b':')) {
        return Err(no_label_end(line, end));
    }
    if label.is_empty() {
        return Err(expected(line, 0, "a label").note(FORM));
    }
    match label_fault(label, 0, "the label") {
        Some(fault) => Err(fault),
        None => Ok((0..label.len(), label.len())),
    }
}

/// A label that neither ` (` nor `: ` ends.
fn no_label_end(line: &[u8], at: usize) -> Fault {
    if line.get(at) == Some(&b'_') {
        let label: Vec<u8> = line.iter().map(|byte| if *byte == b'_' { b' ' } else { *byte }).collect();
        let end = label.iter().position(|byte| !is_label_byte(*byte)).unwrap_or(label.len());
        return Fault::new(at..at + 1, "`_` is not allowed in a label", "not allowed in a label")
            .note(format!("did you mean {}?", quoted(label[..end].trim_ascii_end())));
    }
    let message = format!("expected `: ` behind the label, found {}", found(line, at));
    let fault = Fault::new(at..at + 1, message, "expected `: `");
    if line.contains(&b':') {
        return fault.note(FORM);
    }
    fault.note("a remark stays on its field's line: if this line goes on with one, join the two").note(FORM)
}

/// The short name, if ` (` begins one, and the place of what has to follow it.
fn short(line: &[u8], at: usize) -> Result<(Option<Range<usize>>, usize), Fault> {
    let from = match &line[at..] {
        [b' ', b'(', ..] => at + 2,
        [b'(', ..] => {
            return Err(expected(line, at, "a space before `(`"));
        }
        _ => return Ok((None, at)),
    };
    let stop = |byte: &u8| matches!(byte, b')' | b':' | b';' | b'.');
    let length = line[from..].iter().position(stop).unwrap_or(line.len() - from);
    let name = &line[from..from + length];
    if let Some(fault) = short_fault(name, from) {
        return Err(fault);
    }
    match line.get(from + length) {
        Some(b')') => Ok((Some(from..from + length), from + length + 1)),
        _ => Err(expected(line, from + length, "`)`")),
    }
}

fn colon(line: &[u8], at: usize) -> Result<usize, Fault> {
    match &line[at..] {
        [b':', b' ', ..] => Ok(at + 2),
        [b':', ..] => Err(expected(line, at + 1, "a space behind `:`")),
        [b' ', b':', ..] => Err(Fault::new(at..at + 1, "a space before `:`", "a space too many")),
        _ => Err(expected(line, at, "`: `").note(FORM)),
    }
}

/// The width, and the place behind it.
fn width(line: &[u8], at: usize) -> Result<(Width, usize), Fault> {
    let rest = &line[at..];
    if &rest[..word_length(rest)] == VARIABLE {
        return Ok((Width::Rest, at + VARIABLE.len()));
    }
    let (tree, end) = read_expression(line, at)?;
    let (unit, end) = unit(line, end).map_err(|fault| {
        let variable = line[at..end].eq_ignore_ascii_case(VARIABLE);
        fault
            .of_operands(tree.operands.clone())
            .note_if(variable.then(|| "did you mean `variable`?".to_string()))
    })?;
    match tree.single() {
        None => Ok((Width::Measured { unit, tree }, end)),
        Some(number) => {
            let bits = u64::from(number) * u64::from(unit);
            if (1..=32).contains(&bits) {
                return Ok((Width::Fixed(bits as u32), end));
            }
            let message = format!("a fixed width is 1 to 32 bits, found {}", counted(bits, "bit"));
            let mend =
                "give the bits to several fields; if the length differs, measure it by a field: `N bytes`";
            let mend = (bits > 0).then(|| mend.to_string());
            Err(Fault::new(at..end, message, "1 to 32 bits").note_if(mend))
        }
    }
}

/// The bits of the unit, and the place behind it.
fn unit(line: &[u8], at: usize) -> Result<(u32, usize), Fault> {
    let word_at = at + usize::from(line.get(at) == Some(&b' '));
    let rest = &line[word_at..];
    let word = &rest[..word_length(rest)];
    let (end, spaced) = (word_at + word.len(), word_at > at);
    match word {
        b"bit" | b"bits" if spaced => Ok((1, end)),
        b"byte" | b"bytes" if spaced => Ok((8, end)),
        b"bit" | b"bits" | b"byte" | b"bytes" => Err(expected(line, at, "a space before the unit")),
        [] => match line.get(word_at) {
            None | Some(b';' | b'.' | b',') => Err(expected(line, at, "a space and a unit")
                .note(format!("a width ends with a space and {UNITS}"))),
            _ => Err(behind(line, at, &format!("a space and {UNITS}"))),
        },
        _ if spaced => Err(no_unit(word, word_at)),
        _ => Err(behind(line, at, "a space and the unit")),
    }
}

fn no_unit(word: &[u8], at: usize) -> Fault {
    let message = format!("expected {UNITS}, found {}", quoted(word));
    let small = word.to_ascii_lowercase();
    let mend = match small.as_slice() {
        b"octet" | b"octets" | b"bytes" | b"byte" => Some("did you mean `bytes`?"),
        b"bits" | b"bit" => Some("did you mean `bits`?"),
        _ => None,
    };
    let fault = Fault::new(at..at + word.len(), message, "no unit").note_if(mend.map(str::to_string));
    if small.starts_with(b"b") || mend.is_some() {
        return fault;
    }
    fault.note("a name in an expression is one word, and an operator stands between operands")
}

/// The constraint, if `; ` begins one, and the place behind it.
fn constraint(line: &[u8], at: usize) -> Result<(Option<Tree>, usize), Fault> {
    let Some(from) = part(line, at)? else { return Ok((None, at)) };
    let rest = &line[from..];
    let word = &rest[..word_length(rest)];
    if word == b"present" || rest.to_ascii_lowercase().starts_with(b"present only ") {
        return Ok((None, at));
    }
    let (tree, end) = read_expression(line, from)?;
    Ok((Some(tree), end))
}

/// The condition, if `; present only when ` begins one, and the place behind it.
fn condition(line: &[u8], at: usize) -> Result<(Option<Tree>, usize), Fault> {
    let Some(from) = part(line, at)? else { return Ok((None, at)) };
    let same = line[from..].iter().zip(PRESENT).take_while(|(byte, due)| byte == due).count();
    if same < PRESENT.len() {
        let fault = expected(line, from + same, &quoted(&PRESENT[same..]));
        let present = line[from..].to_ascii_lowercase().starts_with(b"present");
        let second = "a line has one constraint at most: join two with `&&`";
        return Err(fault.note_if((!present).then(|| second.to_string())));
    }
    let (tree, end) = read_expression(line, from + same)?;
    Ok((Some(tree), end))
}

/// The place behind `; `, if that stands here.
fn part(line: &[u8], at: usize) -> Result<Option<usize>, Fault> {
    match &line[at..] {
        [b';', b' ', ..] => Ok(Some(at + 2)),
        [b';', ..] => Err(expected(line, at + 1, "a space behind `;`")),
        _ => Ok(None),
    }
}

/// The full stop, and a space before a remark; `due` has to stand here, behind an expression or not.
fn stop(line: &[u8], at: usize, due: &str, is_behind: bool) -> Result<(), Fault> {
    match &line[at..] {
        [b'.'] | [b'.', b' ', ..] => Ok(()),
        [b'.', ..] => Err(expected(line, at + 1, "a space before the remark")
            .note("behind the full stop comes nothing, or a space and a remark")),
        [] => {
            Err(Fault::new(at..at + 1, "expected `.`, found the end of the line", "the full stop is missing"))
        }
        [b',', ..] => Err(expected(line, at, due).note("did you mean `;`?")),
        [b';', ..] => Err(expected(line, at, due).note("the condition comes last")),
        [b' ', b';' | b'.', ..] => {
            Err(Fault::new(at..at + 1, format!("a space before {}", found(line, at + 1)), "a space too many"))
        }
        _ if is_behind => Err(behind(line, at, due)),
        _ => Err(expected(line, at, due).note("a remark stands behind the full stop")),
    }
}
