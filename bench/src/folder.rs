//! Folders of texts that are full of names, from a seed. A text has fields of a byte, four in a row, and each
//! of its lines reads the same number of names.
//!
//! Names have 1 to 8 bytes and share their beginnings: up to all bytes but the last are those of the text's
//! stem. Behind its first byte a name has no small letter, so that it is no reserved word.

use crate::cases::{page, row, Case};
use umarekoza_model::generate::Rng;

const SEED: u64 = 3;
const LETTERS: &[u8] = b"ABCDEFGHIJKLMNOPQRSTUVWXYZabcdefghijklmnopqrstuvwxyz";
const CAPITALS: &[u8] = b"ABCDEFGHIJKLMNOPQRSTUVWXYZ0123456789";
const LONGEST: usize = 8;
/// The lengths of the first field's short name, in turn: on average, that of a name.
const AVERAGE: [usize; 2] = [4, 5];
/// The first fields, which have a name of each length.
const EARLY: usize = LONGEST / 2;
/// A line is one of so many that has a condition, which reads a third of its names.
const CONDITIONS: usize = 8;
/// A comparison reads at most so many names.
const COMPARED: usize = 5;

/// What a folder holds: so many texts, the fields of each, and the names that each line reads.
#[derive(Clone, Copy, PartialEq)]
pub struct Size {
    pub texts: usize,
    pub fields: usize,
    pub names: usize,
}

/// As many names as fit into the texts and their twins.
pub const WHOLE: Size = Size { texts: 24, fields: 64, names: 26 };
/// As many names as fit into the longest of the texts. There are as many fields in each folder, so that the
/// processor learns none of them better than another.
pub const GROWN: [Size; 4] = [grown(16), grown(32), grown(64), grown(128)];

const fn grown(fields: usize) -> Size {
    Size { texts: WHOLE.texts * WHOLE.fields / fields, fields, names: 10 }
}

/// Which names are read. A folder and its twins differ in this only: what it takes longer is the walk of the
/// lookup.
#[derive(Clone, Copy)]
pub enum Reads {
    /// Those of the earlier fields and, by a constraint, the line's own, chosen evenly.
    All,
    /// The first field's short name in place of each. It is found at the first step, but all names have one
    /// length then, which is foreseen where the text is read: the difference is the walk and somewhat more.
    First,
    /// In place of each a name of the same length, of the first four fields: the difference is the walk
    /// beyond these.
    Early,
}

struct Field {
    label: String,
    short: String,
    /// The names that the field can be read by.
    readable: Vec<String>,
}

pub fn folder(size: Size, reads: Reads) -> Vec<Case> {
    let mut seeds = Rng::new(SEED);
    let mut text = |index| text(&mut Rng::new(seeds.bits()), size, AVERAGE[index % 2], reads);
    (0..size.texts).map(|index| Case::new("text of a folder", text(index), Vec::new())).collect()
}

fn text(rng: &mut Rng, size: Size, first: usize, reads: Reads) -> String {
    let fields = fields(rng, size.fields, first);
    let cells: Vec<(&str, usize)> = fields.iter().map(|field| (field.short.as_str(), 8)).collect();
    let rows: Vec<String> = cells.chunks(4).map(row).collect();
    let (mut lines, mut earlier) = (String::new(), Vec::new());
    for field in &fields {
        let known = earlier.len();
        earlier.extend(field.readable.iter().map(String::as_str));
        let condition = if known > 0 && rng.one_in(CONDITIONS) { size.names / 3 } else { 0 };
        let read = chosen(rng, &earlier, size.names - condition, reads);
        lines += &format!("{} ({}): 1 byte; {}", field.label, field.short, truth(rng, &read));
        if condition > 0 {
            let read = chosen(rng, &earlier[..known], condition, reads);
            lines += &format!("; present only when {}", truth(rng, &read));
        }
        lines += ".\n";
    }
    page(&rows, &lines)
}

/// Fields with short names. The early ones, and about half of the others, have a label that can be read too.
fn fields(rng: &mut Rng, count: usize, first: usize) -> Vec<Field> {
    let names = names(rng, 2 * count, first);
    let field = |(index, pair): (usize, &[String])| {
        let (short, mut readable) = (pair[0].clone(), pair.to_vec());
        if index < EARLY || rng.one_in(2) {
            return Field { label: pair[1].clone(), short, readable };
        }
        readable.truncate(1);
        Field { label: format!("Field {index}"), short, readable }
    };
    names.chunks(2).enumerate().map(field).collect()
}

/// Different names, each length once in eight of them; `first` is the length of the first.
fn names(rng: &mut Rng, count: usize, first: usize) -> Vec<String> {
    let stem = name(rng, "", LONGEST);
    let mut names: Vec<String> = Vec::with_capacity(count);
    let mut lengths: Vec<usize> = Vec::new();
    while names.len() < count {
        if lengths.is_empty() {
            lengths.extend(1..=LONGEST);
        }
        let place = if names.is_empty() { first - 1 } else { rng.below(lengths.len()) };
        let length = lengths.swap_remove(place);
        let mut new = name(rng, &stem, length);
        while names.contains(&new) {
            new = name(rng, &stem, length);
        }
        names.push(new);
    }
    names
}

/// A name that begins as the stem does.
fn name(rng: &mut Rng, stem: &str, length: usize) -> String {
    let shared = rng.below(length).min(stem.len());
    let mut name = stem[..shared].to_string();
    while name.len() < length {
        let symbols = if name.is_empty() { LETTERS } else { CAPITALS };
        name.push(char::from(symbols[rng.below(symbols.len())]));
    }
    name
}

/// So many of the names, and what is read in place of them.
fn chosen<'a>(rng: &mut Rng, names: &[&'a str], count: usize, reads: Reads) -> Vec<&'a str> {
    let chosen = (0..count).map(|_| names[rng.below(names.len())]);
    let read = chosen.map(|name| match reads {
        Reads::All => name,
        Reads::First => names[0],
        Reads::Early => names.iter().find(|early| early.len() == name.len()).unwrap_or(&name),
    });
    read.collect()
}

/// Comparisons of the names, joined.
fn truth(rng: &mut Rng, names: &[&str]) -> String {
    if names.len() <= COMPARED {
        let (left, right) = names.split_at(rng.between(1, names.len() - 1));
        let sign = rng.pick(["==", "!=", "<", "<=", ">", ">="]);
        return format!("{}{sign}{}", number(rng, left), number(rng, right));
    }
    let (left, right) = names.split_at(names.len() / 2);
    let (left, right) = (truth(rng, left), truth(rng, right));
    format!("{left}{}({right})", rng.pick(["&&", "||", "&&!", "||!"]))
}

/// Sums and products of the names.
fn number(rng: &mut Rng, names: &[&str]) -> String {
    let mut number = names[0].to_string();
    for name in &names[1..] {
        number += rng.pick(["+", "-", "*"]);
        number += name;
    }
    number
}

#[cfg(test)]
mod tests {
    use super::{folder, Case, Reads, EARLY, GROWN, WHOLE};
    use umarekoza::{field_label, field_short, table_of, FIELDS_MOST, TEXT_MOST};

    fn bytes(cases: &[Case]) -> usize {
        cases.iter().map(|case| case.page.len()).sum()
    }

    #[test]
    fn texts_are_accepted_and_full() {
        for size in GROWN.into_iter().chain([WHOLE]) {
            let cases = folder(size, Reads::All);
            assert!(cases.iter().all(|case| table_of(&case.page).as_ref() == Ok(&case.table)));
            if size.fields == FIELDS_MOST || size == WHOLE {
                assert!(bytes(&cases) > TEXT_MOST * 9 / 10 * cases.len());
            }
        }
    }

    /// A good table with 0 in the place of each number of readers.
    fn unnumbered(table: &[u8]) -> Vec<u8> {
        let mut table = table.to_vec();
        let two = |table: &[u8], at: usize| usize::from(u16::from_le_bytes([table[at], table[at + 1]]));
        let mut at = two(&table, 0);
        while two(&table, at + 2) != 5 {
            table[at + 4..at + 6].fill(0);
            at += two(&table, at);
        }
        table
    }

    #[test]
    fn twins_differ_in_the_names_that_are_read() {
        let all = folder(WHOLE, Reads::All);
        for (reads, last) in [(Reads::First, 0), (Reads::Early, EARLY as u8 - 1)] {
            let twins = folder(WHOLE, reads);
            assert!(bytes(&all).abs_diff(bytes(&twins)) < bytes(&all) / 100);
            for (case, twin) in all.iter().zip(&twins) {
                assert_eq!(table_of(&twin.page).as_ref(), Ok(&twin.table));
                assert_eq!(case.table.len(), twin.table.len());
                let (stored, other) = (unnumbered(&case.table), unnumbered(&twin.table));
                let bytes = stored.iter().zip(&other);
                let changed: Vec<_> = bytes.filter(|(byte, other)| byte != other).collect();
                assert!(changed.iter().all(|(byte, other)| other < byte && **other <= last));
                assert!(changed.len() > WHOLE.fields * WHOLE.names / 2);
            }
        }
    }

    #[test]
    fn a_seed_gives_one_folder() {
        let pages = || folder(WHOLE, Reads::All).into_iter().map(|case| case.page);
        assert!(pages().eq(pages()));
        assert!(pages().zip(pages().skip(1)).all(|(page, next)| page != next));
    }

    /// The names of a text that can be read and have a length.
    fn names_of(case: &Case, length: usize) -> Vec<&[u8]> {
        let names = |field| [field_label(&case.table, field), field_short(&case.table, field)];
        let names = (0..WHOLE.fields).flat_map(names).flatten();
        names.filter(|name| name.len() == length && !name.contains(&b' ')).collect()
    }

    #[test]
    fn names_have_all_lengths_and_share_their_beginnings() {
        let cases = folder(WHOLE, Reads::All);
        for length in 1..=8 {
            let names: Vec<Vec<&[u8]>> = cases.iter().map(|case| names_of(case, length)).collect();
            assert!(names.iter().all(|names| (8..=16).contains(&names.len())));
            let alike =
                |name: &[u8], other: &[u8]| name != other && name[..length - 1] == other[..length - 1];
            let shared =
                |names: &&Vec<&[u8]>| names.iter().any(|name| names.iter().any(|other| alike(name, other)));
            assert!(names.iter().filter(shared).count() > cases.len() / 4);
        }
    }
}
