//! The names in a text or a table, found without the model.

use std::ops::Range;

const RESERVED: [&str; 6] = ["bit", "bits", "byte", "bytes", "variable", "present"];

/// A field line: its names, the short name empty where there is none, and its expressions, that of the width first.
pub struct Line<'a> {
    pub number: u32,
    pub label: &'a str,
    pub short: &'a str,
    told: Vec<&'a str>,
}

/// The field lines of a text, if each begins with names.
pub fn lines_of(text: &[u8]) -> Option<Vec<Line<'_>>> {
    let text = std::str::from_utf8(text).ok()?;
    let (above, fields) = text.split_once("\nwhere:\n\n")?;
    let first = above.lines().count() as u32 + 4;
    let line = |(line, number)| line_of(line, number);
    fields.lines().zip(first..).map(line).collect()
}

fn line_of(line: &str, number: u32) -> Option<Line<'_>> {
    let (names, told) = line.split_once(": ")?;
    let both = names.strip_suffix(')').and_then(|names| names.split_once(" ("));
    let (label, short) = both.unwrap_or((names, ""));
    let told = told.split('.').next()?;
    let (width, clauses) = told.split_once("; ").unwrap_or((told, ""));
    let width = width.rsplit_once(' ').map_or("", |(width, _unit)| width);
    let clauses = clauses.split("; ").map(|clause| clause.trim_start_matches("present only when "));
    Some(Line { number, label, short, told: [width].into_iter().chain(clauses).collect() })
}

impl Line<'_> {
    /// Whether the line's expressions have this word or these words.
    pub fn tells(&self, name: &str) -> bool {
        self.told.iter().any(|told| has_words(told, name))
    }

    /// Whether the width is a number, in parentheses or not.
    pub fn is_fixed(&self) -> bool {
        let width = self.told[0].trim_matches(['(', ')']);
        !width.is_empty() && width.bytes().all(|byte| byte.is_ascii_digit())
    }
}

fn has_words(told: &str, words: &str) -> bool {
    let is_word = |letter: char| letter.is_ascii_alphanumeric();
    told.match_indices(words)
        .any(|(at, _)| !told[..at].ends_with(is_word) && !told[at + words.len()..].starts_with(is_word))
}

/// Which names of a line stand before it as names of the other sort, if none does as one of its own: its label, its
/// short name.
pub fn crossed(lines: &[Line], index: usize) -> Option<&'static str> {
    let (line, earlier) = (&lines[index], &lines[..index]);
    let alike =
        |other: &Line| other.label == line.label || (!line.short.is_empty() && other.short == line.short);
    if earlier.iter().any(alike) {
        return None;
    }
    let labels = earlier.iter().any(|other| other.short == line.label);
    let shorts = earlier.iter().any(|other| other.label == line.short);
    labels.then_some("label").or(shorts.then_some("short name"))
}

/// The form of a short name.
pub fn is_readable(name: &str) -> bool {
    (1..=8).contains(&name.len())
        && name.starts_with(|first: char| first.is_ascii_alphabetic())
        && name.bytes().all(|byte| byte.is_ascii_alphanumeric())
        && !is_reserved(name)
}

pub fn is_reserved(name: &str) -> bool {
    RESERVED.contains(&name)
}

/// Where the names of the fields of a table stand, if it is a list of records.
pub fn names_in(table: &[u8]) -> Option<Vec<[Range<usize>; 2]>> {
    let number = |at: usize| Some(usize::from(u16::from_le_bytes([*table.get(at)?, *table.get(at + 1)?])));
    let mut at = number(0)?;
    let mut names = Vec::new();
    while number(at + 2)? != 5 {
        let label = at + 8..at + 8 + number(at + 6)?;
        let short = label.end + 2..label.end + 2 + number(label.end)?;
        table.get(short.clone())?;
        names.push([label, short]);
        at += number(at)?.max(1);
    }
    Some(names)
}

/// The table with another label or short name of the same length where it is one of the other sort of an earlier field;
/// none if there is no such name.
pub fn uncrossed(table: &[u8]) -> Option<Vec<u8>> {
    let names = names_in(table)?;
    let mut other = table.to_vec();
    for (index, own) in names.iter().enumerate() {
        for (sort, part) in own.iter().enumerate() {
            let name = &table[part.clone()];
            let is_crossed = |earlier: &[Range<usize>; 2]| &table[earlier[1 - sort].clone()] == name;
            if !name.is_empty() && names[..index].iter().any(is_crossed) {
                // Letters that are not likely to be a name there.
                other[part.clone()].copy_from_slice(&fresh(name, index));
            }
        }
    }
    (other != table).then_some(other)
}

fn fresh(name: &[u8], index: usize) -> Vec<u8> {
    let letters = b"ZYXWVUTSRQPONMLKJIHGFEDCBA";
    (0..name.len()).map(|place| letters[(index + place) % letters.len()]).collect()
}

/// The table with a label of the form of a short name for each field that has no name to be read by; none if there is
/// no such field or a label is too long for it.
pub fn readable(table: &[u8]) -> Option<Vec<u8>> {
    relabelled(table, |label, index| (!is_named(label) && label.len() <= 8).then(|| fresh(label, index)))
}

/// The table with a label that cannot be read for each field that has no short name and could be read; none if there is
/// no such field.
pub fn unreadable(table: &[u8]) -> Option<Vec<u8>> {
    relabelled(table, |label, _| is_named(label).then(|| [b"7", &label[1..]].concat()))
}

fn is_named(label: &[u8]) -> bool {
    std::str::from_utf8(label).is_ok_and(is_readable)
}

/// The table with other labels for fields without a short name; none if there are no others.
fn relabelled(table: &[u8], other: impl Fn(&[u8], usize) -> Option<Vec<u8>>) -> Option<Vec<u8>> {
    let mut relabelled = table.to_vec();
    for (index, [label, short]) in names_in(table)?.into_iter().enumerate() {
        let other = if short.is_empty() { other(&table[label.clone()], index) } else { None };
        if let Some(other) = other {
            relabelled[label].copy_from_slice(&other);
        }
    }
    (relabelled != table).then_some(relabelled)
}
