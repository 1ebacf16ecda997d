//! The generated texts reach the answers that depend on rows of several lines [02, R-1], and often; texts without such
//! rows have the answers of document 01.

use super::{spelled_text, text, Rng};
use crate::frames::Limits;
use crate::lookups::count_fields;
use crate::names::is_label;
use crate::refusals::Refusal;
use crate::rows::{bars, downwards, has_bars, joined, ROW_LINES};
use crate::rules::ROW_BITS;
use crate::texts::{write_table, write_table_by};
use std::collections::BTreeMap;

const CASES: usize = 10_000;
/// So many of them are of each sort, at the least.
const DUE: usize = 10;
const ROOM: usize = 1 << 16;
/// A row is one line, as by document 01.
const ONE_LINE: Limits = Limits { row_lines: 1, ..Limits::CURRENT };

type Counts = BTreeMap<String, usize>;

fn has_all<const N: usize>(counts: &Counts, sorts: [&str; N]) {
    for sort in sorts {
        let found = counts.get(sort).copied().unwrap_or(0);
        assert!(found >= DUE, "{sort}: {found} of {counts:#?}");
    }
}

/// A row of a text: the number of its first line from 0, its bars, and its lines, those behind it with its bars too.
struct Row<'a> {
    first: usize,
    bars: Vec<usize>,
    lines: Vec<&'a [u8]>,
}

/// The rows of a text, each below a border, and all its lines that end in LF.
fn rows(text: &[u8]) -> (Vec<Row<'_>>, Vec<&[u8]>) {
    let mut lines: Vec<&[u8]> = text.split(|byte| *byte == b'\n').collect();
    lines.pop();
    let row = |first: usize| {
        let bars = ROW_BITS.into_iter().find_map(|row_bits| bars(lines[first], row_bits))?;
        let further = lines[first..].iter().copied().skip(1).take_while(|line| has_bars(line, &bars));
        let lines = [lines[first]].into_iter().chain(further).collect();
        Some(Row { first, bars, lines })
    };
    let below_border = (1..lines.len()).filter(|first| lines[first - 1].starts_with(b"+-"));
    (below_border.filter_map(row).collect(), lines)
}

impl Row<'_> {
    fn is_long(&self) -> bool {
        self.lines[0].starts_with(b":")
    }

    /// The parts of each cell, a line each, and whether it is of one bit.
    fn cells(&self) -> impl Iterator<Item = (Vec<&[u8]>, bool)> {
        let parts = |pair: &[usize]| self.lines.iter().map(|line| &line[pair[0] + 1..pair[1]]).collect();
        self.bars.windows(2).map(move |pair| (parts(pair), pair[1] - pair[0] == 2))
    }

    /// Whether a cell is no label by the first so many of its lines.
    fn is_bad_at(&self, lines: usize) -> bool {
        let label = |(parts, is_bit): (Vec<&[u8]>, bool)| {
            let parts = &parts[..lines];
            is_label(&if is_bit { downwards(parts) } else { joined(parts) })
        };
        !self.cells().all(label)
    }
}

/// The sorts of an accepted text.
fn accepted(counts: &mut Counts, text: &[u8], fields: usize) {
    let mut add = |sort: String| *counts.entry(sort).or_default() += 1;
    for row in rows(text).0.iter().filter(|row| row.lines.len() > 1) {
        add(format!("{} lines", row.lines.len()));
        if row.is_bad_at(1) {
            add("a cell that a later line makes a label".to_string());
        }
        if fields > 64 {
            add("several lines among many fields".to_string());
        }
        for (parts, is_bit) in row.cells() {
            let is_blank = |part: &&[u8]| part.trim_ascii().is_empty();
            let shown = parts.len() - parts.iter().filter(|part| is_blank(part)).count();
            let places = [parts.first(), parts.last()].map(|part| part.is_some_and(is_blank));
            let text = if is_bit { downwards(&parts) } else { joined(&parts) };
            let sort = if is_bit { "bit" } else { "wider" };
            match (shown, places) {
                (2.., [false, false]) if shown < parts.len() => add(format!("{sort}, blank between")),
                (_, [true, _]) => add(format!("{sort}, blank above")),
                (_, [_, true]) => add(format!("{sort}, blank below")),
                _ => {}
            }
            if shown > 1 {
                add(format!("{sort}, on several lines"));
            }
            if text.len() == ROW_LINES && is_bit {
                add("bit, as long as may be".to_string());
            }
        }
    }
}

/// The sort of a text that is refused by 3 at this place.
fn refused(text: &[u8], place: usize) -> Option<&'static str> {
    let (rows, lines) = rows(text);
    let row = rows.iter().rfind(|row| row.first < place)?;
    let (count, at) = (row.lines.len(), place - row.first);
    let behind = lines.get(row.first + count.min(ROW_LINES));
    let is_row = |line: &[u8]| matches!(line.first(), Some(b'|' | b':'));
    Some(match (at, behind) {
        (2, Some(line)) if row.is_long() && is_row(line) => "under a long row",
        _ if row.is_long() => return None,
        (5, Some(_)) if count > ROW_LINES => "a fifth line",
        (_, Some(line)) if at == count + 1 && is_row(line) && line.len() == row.lines[0].len() => {
            "other bars"
        }
        (_, Some(line)) if at == count + 1 && is_row(line) => "another length",
        (_, Some(_)) if at == count + 1 => "no border",
        (_, None) if at == count + 1 && !text.ends_with(b"\n") => "bytes behind a row",
        (_, None) if at == count + 1 => "the end behind a row",
        _ if at != count.min(ROW_LINES) || count == 1 => return None,
        (_, None) => "a cell at the end",
        (_, Some(line)) if line.starts_with(b"+-") => "a cell",
        _ if count > ROW_LINES => "a cell before a fifth line",
        _ => "a cell before a wrong line",
    })
}

#[test]
fn rows_of_every_sort() {
    let (mut rng, mut counts) = (Rng::new(12), Counts::new());
    for _ in 0..CASES {
        let text = text(&mut rng);
        match write_table(&text, ROOM) {
            Ok(table) => accepted(&mut counts, &text, count_fields(&table).unwrap()),
            Err(Refusal { number: 3, place }) => {
                if let Some(sort) = refused(&text, place as usize) {
                    *counts.entry(format!("3: {sort}")).or_default() += 1;
                }
            }
            Err(_) => {}
        }
    }
    has_all(&counts, ["2 lines", "3 lines", "4 lines", "several lines among many fields"]);
    has_all(&counts, ["a cell that a later line makes a label", "bit, as long as may be"]);
    for sort in ["bit", "wider"] {
        let places = ["on several lines", "blank above", "blank between", "blank below"];
        has_all(&counts, places.map(|place| format!("{sort}, {place}")).each_ref().map(String::as_str));
    }
    has_all(&counts, ["3: under a long row", "3: a fifth line", "3: other bars", "3: another length"]);
    has_all(&counts, ["3: no border", "3: bytes behind a row", "3: the end behind a row"]);
    has_all(&counts, ["3: a cell", "3: a cell at the end", "3: a cell before a wrong line"]);
    has_all(&counts, ["3: a cell before a fifth line"]);
}

/// Only a text with a row of several lines has another answer than by document 01, which had refused it by 3.
#[test]
fn texts_without_such_rows_keep_their_answers() {
    let (mut rng, mut kept) = (Rng::new(13), 0);
    for _ in 0..CASES {
        let text = text(&mut rng);
        let (before, now) = (write_table_by(ONE_LINE, &text, ROOM), write_table(&text, ROOM));
        let several = rows(&text).0.iter().any(|row| row.lines.len() > 1);
        let is_3 = matches!(before, Err(Refusal { number: 3, .. }));
        assert!(before == now || (several && is_3), "{}", String::from_utf8_lossy(&text));
        kept += usize::from(!several);
    }
    assert!(kept > CASES / 2, "{kept}");
}

/// A text that spells a description spells it by document 01 too if each of its rows is of one line.
#[test]
fn spelled_texts_of_one_line_to_a_row() {
    let mut rng = Rng::new(14);
    for _ in 0..2_000 {
        let (text, table) = spelled_text(&mut rng);
        let several = rows(&text).0.iter().any(|row| row.lines.len() > 1);
        let by_01 = write_table_by(ONE_LINE, &text, ROOM);
        assert!(text.len() > 16_384 || (by_01 == Ok(table)) != several);
    }
}
