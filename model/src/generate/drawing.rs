//! Rows as they are drawn: the names of their cells, over one line or several [02, R-1].

use super::Rng;
use crate::rows::ROW_LINES;

/// The room of a cell: its columns, and the most lines of its row.
#[derive(Clone, Copy)]
pub struct Room {
    pub columns: usize,
    pub lines: usize,
}

impl Room {
    /// The length of the longest word that can be shown.
    pub fn word(self) -> usize {
        if self.columns == 1 {
            self.lines
        } else {
            self.columns
        }
    }

    /// The length of the longest name that can be shown.
    pub fn most(self) -> usize {
        if self.columns == 1 {
            self.lines
        } else {
            (self.columns + 1) * self.lines - 1
        }
    }

    pub fn shows(self, name: &[u8]) -> bool {
        lines_of(name, self.columns).is_some_and(|lines| lines.len() <= self.lines)
    }
}

/// A name in as few lines of so many columns as may be: downwards in one column, else broken at spaces.
fn lines_of(name: &[u8], columns: usize) -> Option<Vec<Vec<u8>>> {
    if columns == 1 {
        return (!name.contains(&b' ')).then(|| name.iter().map(|byte| vec![*byte]).collect());
    }
    let mut lines: Vec<Vec<u8>> = Vec::new();
    for word in name.split(|byte| *byte == b' ') {
        match lines.last_mut() {
            _ if word.len() > columns => return None,
            Some(line) if line.len() + 1 + word.len() <= columns => line.extend([b" ", word].concat()),
            _ => lines.push(word.to_vec()),
        }
    }
    Some(lines)
}

/// A cell that is drawn: its name, its columns, and the bar behind it.
pub struct Drawn<'a> {
    pub name: &'a [u8],
    pub columns: usize,
    pub bar: u8,
}

/// The lines of a row of these cells: one, or as many as their names need and at times more, if it may have `most`.
pub fn row(rng: &mut Rng, cells: &[Drawn], most: usize) -> Vec<Vec<u8>> {
    let is_long = cells.iter().any(|cell| cell.bar == b':');
    let need = |cell: &Drawn| lines_of(cell.name, cell.columns).map_or(1, |lines| lines.len());
    let needed = cells.iter().map(need).max().unwrap_or(1);
    let height = match most {
        _ if is_long || needed > most => 1,
        2.. if rng.one_in(3) => rng.between(needed, most),
        _ => needed,
    };
    let first: Vec<u8> = cells.iter().take(1).map(|cell| cell.bar).collect();
    let mut lines = vec![first; height];
    for cell in cells {
        for (line, part) in lines.iter_mut().zip(cell_lines(rng, cell, height)) {
            line.extend(placed(rng, &part, cell.columns));
            line.push(cell.bar);
        }
    }
    lines
}

/// The parts of a cell's name on so many lines, some of them empty; broken more often than it has to be at times.
fn cell_lines(rng: &mut Rng, cell: &Drawn, height: usize) -> Vec<Vec<u8>> {
    let narrow = if rng.one_in(2) { rng.between(2, cell.columns.max(2)) } else { cell.columns };
    let fitting = |columns: usize| lines_of(cell.name, columns).filter(|lines| lines.len() <= height);
    let mut parts = match cell.columns {
        0 | 1 => fitting(cell.columns),
        columns => fitting(narrow.min(columns)).or_else(|| fitting(columns)),
    }
    .unwrap_or_else(|| vec![cell.name.to_vec()]);
    while parts.len() < height {
        let place = if rng.one_in(2) { parts.len() } else { rng.between(0, parts.len()) };
        parts.insert(place, Vec::new());
    }
    parts
}

/// A part among spaces that fill so many columns.
fn placed(rng: &mut Rng, part: &[u8], columns: usize) -> Vec<u8> {
    let spaces = columns.saturating_sub(part.len());
    let before = if rng.one_in(2) { spaces / 2 } else { rng.between(0, spaces) };
    [&b" ".repeat(before), part, &b" ".repeat(spaces - before)].concat()
}

/// The most lines of the bit rows of a description: one as in document 01, or as many as there may be.
pub fn row_lines(rng: &mut Rng) -> usize {
    if rng.one_in(3) {
        ROW_LINES
    } else {
        1
    }
}
