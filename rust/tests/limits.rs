//! The limits and lengths of this crate are those of the proved code and of the C header.

use std::fs;
use std::path::Path;
use umarekoza::{
    FIELDS_MOST, LINE_MOST, LISTING_MOST, PACKET_MOST, RUN_MOST, STATE_BYTES, TABLE_MOST, TEXT_MOST,
};

const LIMITS: [(&str, usize); 4] = [
    ("TEXT_MOST", TEXT_MOST),
    ("LINE_MOST", LINE_MOST),
    ("FIELDS_MOST", FIELDS_MOST),
    ("PACKET_MOST", PACKET_MOST),
];
const LENGTHS: [(&str, usize); 3] =
    [("RUN_MOST", RUN_MOST), ("TABLE_MOST", TABLE_MOST), ("LISTING_MOST", LISTING_MOST)];

fn text_of(file: &str) -> String {
    fs::read_to_string(Path::new(env!("CARGO_MANIFEST_DIR")).join("..").join(file)).unwrap()
}

/// What a constant of the proved code is: numbers and constants with `+`, `*` and parentheses.
fn constant(code: &str, name: &str) -> Option<usize> {
    let opening = format!("pub const {name}: usize = ");
    let written = code.lines().find_map(|line| line.strip_prefix(&opening)?.strip_suffix(';'))?;
    let spaced = written.replace('(', " ( ").replace(')', " ) ");
    let mut words = spaced.split_whitespace().peekable();
    Some(sum(code, &mut words))
}

type Words<'a> = std::iter::Peekable<std::str::SplitWhitespace<'a>>;

fn sum(code: &str, words: &mut Words<'_>) -> usize {
    let mut total = product(code, words);
    while words.next_if_eq(&"+").is_some() {
        total += product(code, words);
    }
    total
}

fn product(code: &str, words: &mut Words<'_>) -> usize {
    let mut total = atom(code, words);
    while words.next_if_eq(&"*").is_some() {
        total *= atom(code, words);
    }
    total
}

fn atom(code: &str, words: &mut Words<'_>) -> usize {
    match words.next().unwrap() {
        "(" => {
            let inner = sum(code, words);
            assert_eq!(words.next(), Some(")"));
            inner
        }
        word => word.parse().ok().or_else(|| constant(code, word)).unwrap_or_else(|| panic!("{word}?")),
    }
}

#[test]
fn limits_of_the_proved_code() {
    let code = text_of("crates/rules/src/lib.rt");
    for (name, limit) in LIMITS {
        assert_eq!(constant(&code, name), Some(limit), "{name}");
    }
    // Where the code has a length too, it is the same or leaves more room.
    for (name, length) in LENGTHS {
        assert!(constant(&code, name).is_none_or(|most| most >= length), "{name}");
    }
}

#[test]
fn sums_and_products() {
    let code = "pub const A: usize = 3;\npub const B: usize = 4 * (A + 2) + A * A;\n";
    assert_eq!((constant(code, "A"), constant(code, "B"), constant(code, "C")), (Some(3), Some(29), None));
}

#[test]
fn version_of_the_header() {
    let line = format!("#define UMAREKOZA_VERSION \"{}\"", umarekoza::VERSION);
    assert!(text_of("include/umarekoza.h").lines().any(|other| other == line), "not there: {line}");
}

#[test]
fn limits_of_the_header() {
    let header = text_of("include/umarekoza.h");
    for (name, limit) in LIMITS.into_iter().chain(LENGTHS).chain([("STATE_BYTES", STATE_BYTES)]) {
        let line = format!("#define UMAREKOZA_{name} {limit}");
        assert!(header.lines().any(|other| other == line), "not there: {line}");
    }
}

/// The parts of a state as the header lists them, `from START (LENGTH)` each, follow one another to its end.
#[test]
fn parts_of_a_state() {
    let header = text_of("include/umarekoza.h");
    let parts = header.lines().filter_map(|line| line.trim().strip_prefix("from ")?.split_once(')'));
    let mut end = 24;
    for (part, _) in parts {
        let (start, length) = part.split_once(" (").unwrap();
        assert_eq!(start.parse(), Ok(end), "{part}");
        end += length.parse::<usize>().unwrap();
    }
    assert_eq!(end, STATE_BYTES);
}
