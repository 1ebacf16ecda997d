//! The generated cases reach the answers that depend on names [02, R-2], and often.

mod named;

use named::{crossed, is_readable, is_reserved, lines_of, names_in, readable, uncrossed, unreadable, Line};
use std::collections::BTreeMap;
use umarekoza_model::generate::{table, text, Rng};
use umarekoza_model::{check_table, write_table, Refusal};

/// How often each sort of case turned up.
type Counts = BTreeMap<&'static str, usize>;

const OF_TEXTS: [&str; 9] = [
    "read by a label",
    "read by a label beside a short name",
    "one word as both names",
    "8: a label that is a short name",
    "8: a short name that is a label",
    "9: the label of a later field",
    "9: the label of a long field",
    "5: a label with a space",
    "5: a label that is reserved",
];

/// Which sorts an accepted text is of.
fn accepted(lines: &[Line]) -> Vec<&'static str> {
    let read = |line: &&Line| {
        is_readable(line.label)
            && line.label != line.short
            && lines.iter().any(|other| other.tells(line.label))
    };
    let by_label = lines.iter().find(read).map(|_| OF_TEXTS[0]);
    let beside = lines.iter().filter(read).any(|line| !line.short.is_empty()).then_some(OF_TEXTS[1]);
    let both = lines.iter().any(|line| line.label == line.short).then_some(OF_TEXTS[2]);
    [by_label, beside, both].into_iter().flatten().collect()
}

/// Which sort a text is of that is refused at the line of this index.
fn refused(lines: &[Line], number: u32, index: usize) -> Option<&'static str> {
    let line = &lines[index];
    let told = |other: &&Line| line.tells(other.label) && other.label != other.short;
    let later = || lines[index + 1..].iter().filter(told);
    match number {
        8 => match crossed(lines, index)? {
            "label" => Some(OF_TEXTS[3]),
            _ => Some(OF_TEXTS[4]),
        },
        9 if later().any(|other| is_readable(other.label) && other.is_fixed()) => Some(OF_TEXTS[5]),
        9 if lines[..index].iter().filter(told).any(|other| !other.is_fixed()) => Some(OF_TEXTS[6]),
        5 if lines.iter().filter(told).any(|other| other.label.contains(' ')) => Some(OF_TEXTS[7]),
        5 if lines.iter().any(|other| is_reserved(other.label) && line.tells(other.label)) => {
            Some(OF_TEXTS[8])
        }
        _ => None,
    }
}

#[test]
fn texts_of_every_sort_of_name() {
    let mut rng = Rng::new(7);
    let mut counts = Counts::new();
    for _ in 0..6000 {
        let text = text(&mut rng);
        let Some(lines) = lines_of(&text) else { continue };
        let sorts = match write_table(&text, 1 << 16) {
            Ok(_) => accepted(&lines),
            Err(Refusal { number, place }) => {
                let index = lines.iter().position(|line| line.number == place);
                index.and_then(|index| refused(&lines, number, index)).into_iter().collect()
            }
        };
        sorts.into_iter().for_each(|sort| *counts.entry(sort).or_default() += 1);
    }
    println!("{counts:?}");
    for sort in OF_TEXTS {
        assert!(counts.get(sort).is_some_and(|count| *count >= 6), "{sort}: {counts:?}");
    }
}

#[test]
fn tables_of_every_sort_of_name() {
    let mut rng = Rng::new(8);
    let mut counts = Counts::new();
    for _ in 0..6000 {
        let table = table(&mut rng);
        let Some(names) = names_in(&table) else { continue };
        let both = names.iter().any(|[label, short]| table[label.clone()] == table[short.clone()]);
        let good = |other: Option<Vec<u8>>| other.is_some_and(|other| check_table(&other).is_ok());
        let sort = match check_table(&table) {
            Ok(()) if unreadable(&table).is_some_and(|other| check_table(&other).is_err()) => {
                "read by a label"
            }
            Ok(()) if both => "one word as both names",
            Err(_) if good(uncrossed(&table)) => "a label that is another's short name",
            Err(_) if good(readable(&table)) => "an index of a field that cannot be read",
            _ => "others",
        };
        *counts.entry(sort).or_default() += 1;
    }
    println!("{counts:?}");
    assert!(counts.len() == 5 && counts.values().all(|count| *count >= 20), "{counts:?}");
}
