//! The generated texts reach the answers that depend on the length of a line [02, R-9], and often; texts without a long
//! line have the answers of before; and texts are cut into pieces in every way.

use super::{pieces, text, Rng};
use crate::frames::Limits;
use crate::lines::LONGEST_LINE;
use crate::refusals::Refusal;
use crate::texts::{write_table, write_table_by};
use std::collections::BTreeMap;

const CASES: usize = 10_000;
/// So many of them are of each sort, at the least.
const DUE: usize = 10;
const ROOM: usize = 1 << 16;
/// Lines of any length, as by document 01.
const ANY_LENGTH: Limits = Limits { line_bytes: usize::MAX, ..Limits::CURRENT };

type Counts = BTreeMap<String, usize>;

fn has_all<const N: usize>(counts: &Counts, sorts: [&str; N]) {
    for sort in sorts {
        let found = counts.get(sort).copied().unwrap_or(0);
        assert!(found >= DUE, "{sort}: {found} of {counts:#?}");
    }
}

/// Where in a text a line stands, from 0.
fn part(lines: &[&[u8]], at: usize) -> &'static str {
    let first_field = lines.iter().position(|line| *line == b"where:").map_or(usize::MAX, |at| at + 2);
    match at {
        0 => "first line",
        _ if at >= first_field => "field line",
        _ if lines[at].starts_with(b"|") || lines[at].starts_with(b":") => "row",
        _ => "other line",
    }
}

/// The sorts of a text with a long line, by its answers with a limit and without.
fn sorts(counts: &mut Counts, text: &[u8]) {
    let mut add = |sort: String| *counts.entry(sort).or_default() += 1;
    let lines: Vec<&[u8]> = text.split(|byte| *byte == b'\n').collect();
    let ended = &lines[..lines.len() - 1];
    let now = write_table(text, ROOM);
    let longest = ended.iter().map(|line| line.len()).max().unwrap_or(0);
    if now.is_ok() {
        if longest >= LONGEST_LINE - 1 {
            add(format!("accepted, {longest}"));
        }
        return;
    }
    let is_over = |line: &&[u8]| line.len() > LONGEST_LINE;
    if is_over(&lines[ended.len()]) {
        add("an unended line".to_string());
    }
    let Some(first) = ended.iter().position(is_over) else { return };
    let before = write_table_by(ANY_LENGTH, text, ROOM);
    match (now, before) {
        (Err(Refusal { number: 3, place }), Ok(_)) if place as usize == first + 1 => {
            add(format!("3 alone, {}", ended[first].len()));
            add(format!("3 alone, {}", part(&lines, first)));
        }
        (Err(Refusal { number: 3, place }), Err(Refusal { number, .. })) if place as usize == first + 1 => {
            add(format!("3 before {number}"));
            add(format!("3, {}", part(&lines, first)));
        }
        (Err(Refusal { number, .. }), _) => add(format!("{number} before a long line")),
        _ => {}
    }
}

#[test]
fn texts_of_every_sort() {
    let (mut rng, mut counts) = (Rng::new(21), Counts::new());
    for _ in 0..CASES {
        sorts(&mut counts, &text(&mut rng));
    }
    has_all(
        &counts,
        ["accepted, 1023", "accepted, 1024", "3 alone, 1025", "3 alone, 1026", "an unended line"],
    );
    has_all(&counts, ["3 alone, field line", "3, first line", "3, row", "3, other line", "3, field line"]);
    has_all(&counts, ["3 before 3", "3 before 5"]);
    has_all(&counts, ["1 before a long line", "2 before a long line", "3 before a long line"]);
}

/// Only a text with a long line has another answer than without the limit, and then it is 3.
#[test]
fn texts_without_long_lines_keep_their_answers() {
    let (mut rng, mut changed) = (Rng::new(22), 0);
    for _ in 0..CASES {
        let text = text(&mut rng);
        let (before, now) = (write_table_by(ANY_LENGTH, &text, ROOM), write_table(&text, ROOM));
        let long = text.split(|byte| *byte == b'\n').any(|line| line.len() > LONGEST_LINE);
        let is_3 = matches!(now, Err(Refusal { number: 3, .. }));
        assert!(before == now || (long && is_3), "{}", String::from_utf8_lossy(&text));
        changed += usize::from(before != now);
    }
    assert!(changed > 50, "{changed}");
}

#[test]
fn cuttings_of_every_sort() {
    let (mut rng, mut counts) = (Rng::new(23), Counts::new());
    for _ in 0..CASES {
        let text = text(&mut rng);
        let pieces = pieces(&mut rng, &text);
        assert_eq!(pieces.concat(), text);
        let mut add =
            |sort: &str, found: bool| *counts.entry(sort.to_string()).or_default() += usize::from(found);
        let inner = &pieces[..pieces.len() - 1];
        let ends_in_line = |piece: &&[u8]| piece.last().is_some_and(|byte| *byte != b'\n');
        add("bytes", text.len() > 100 && pieces.iter().all(|piece| piece.len() <= 1));
        add("bytes of a long text", text.len() > 4_000 && pieces.iter().all(|piece| piece.len() <= 1));
        add(
            "of 64 bytes",
            inner.len() > 2 && inner.iter().all(|piece| piece.is_empty() || piece.len() == 64),
        );
        add("one piece", pieces.len() == 1);
        add(
            "none between",
            pieces.len() > 2 && pieces[1..pieces.len() - 1].iter().any(|piece| piece.is_empty()),
        );
        add("none at first", pieces.len() > 1 && pieces[0].is_empty());
        add("none at last", pieces.len() > 1 && pieces[pieces.len() - 1].is_empty());
        add("an LF at a start", pieces.iter().skip(1).any(|piece| piece.starts_with(b"\n")));
        add("within lines", inner.iter().any(ends_in_line));
        let is_long = text.split(|byte| *byte == b'\n').any(|line| line.len() == LONGEST_LINE + 1);
        add("a long line in short pieces", is_long && pieces.iter().all(|piece| piece.len() <= LONGEST_LINE));
    }
    has_all(&counts, ["bytes", "bytes of a long text", "of 64 bytes", "one piece", "none between"]);
    has_all(&counts, ["none at first", "none at last", "an LF at a start", "within lines"]);
    has_all(&counts, ["a long line in short pieces"]);
}
