//! Random names: labels of all forms, and short names.

use super::drawing::Room;
use super::layouts::{Layout, Slot};
use super::Rng;
use crate::names::{is_label, is_short_name, LONGEST_LABEL, LONGEST_SHORT_NAME};

const WORDS: [&[u8]; 23] = [
    b"Version",
    b"Length",
    b"On",
    b"Loan",
    b"Sum",
    b"bit",
    b"bits",
    b"byte",
    b"bytes",
    b"variable",
    b"present",
    b"Bits",
    b"BYTE",
    b"Present",
    b"only",
    b"when",
    b"where",
    b"is formatted as follows",
    b"A",
    b"An",
    b"7",
    b"Next-Hop",
    b"x",
];
const TRIES: usize = 400;
/// Room for every label.
const ANY: Room = Room { columns: LONGEST_LABEL, lines: 1 };
/// With more fields than these, names of one letter are left to the cells of one bit.
const FEW_FIELDS: usize = 24;

pub struct Names {
    pub name: Vec<u8>,
    pub labels: Vec<Vec<u8>>,
    pub shorts: Vec<Option<Vec<u8>>>,
}

impl Names {
    /// Names for a layout, no name that of two fields; with `shown`, the label or the short name of a field fits in
    /// its cell.
    pub fn random(rng: &mut Rng, layout: &Layout, shown: bool) -> Names {
        let mut names = Names { name: label(rng, ANY), labels: Vec::new(), shorts: Vec::new() };
        for slot in &layout.slots {
            let (bits, lines) = match slot {
                Slot::Fixed(bits) => (*bits, layout.row_lines),
                _ => (layout.row_bits, 1),
            };
            let room = if shown { Room { columns: 2 * bits as usize - 1, lines } } else { ANY };
            let single = if layout.slots.len() <= FEW_FIELDS { 2 } else { usize::from(room.most() == 1) };
            names.add(rng, room, single);
        }
        names
    }

    /// Names for `count` fields, all as long as they may be.
    pub fn longest(rng: &mut Rng, count: usize) -> Names {
        let mut names = Names { name: longest_label(rng), labels: Vec::new(), shorts: Vec::new() };
        while names.labels.len() < count {
            let (label, short) = (longest_label(rng), Some(longest_short_name(rng)));
            if names.is_new(&label, short.as_deref()) {
                names.labels.push(label);
                names.shorts.push(short);
            }
        }
        names
    }

    /// Adds a new label and a new short name or none, one of which fits in `room`. At most so many of them are of a
    /// `single` letter.
    fn add(&mut self, rng: &mut Rng, room: Room, single: usize) {
        let mut chosen = (label(rng, room), None);
        for _ in 0..TRIES {
            let by_label = rng.one_in(2);
            let label = label(rng, if by_label { room } else { ANY });
            let longest = if by_label { LONGEST_SHORT_NAME } else { room.word().min(LONGEST_SHORT_NAME) };
            let short = match rng.below(6) {
                0 if is_short_name(&label) && label.len() <= longest => Some(label.clone()),
                1..=3 if by_label => None,
                _ => Some(short_name(rng, longest)),
            };
            let letters = usize::from(label.len() == 1)
                + usize::from(short.as_ref().is_some_and(|short| short.len() == 1 && *short != label));
            chosen = (label, short);
            if letters <= single && self.is_new(&chosen.0, chosen.1.as_deref()) {
                break;
            }
        }
        self.labels.push(chosen.0);
        self.shorts.push(chosen.1);
    }

    /// Whether no field so far has either name.
    fn is_new(&self, label: &[u8], short: Option<&[u8]>) -> bool {
        let taken = |name: &[u8]| {
            self.labels.iter().any(|label| label == name)
                || self.shorts.iter().any(|short| short.as_deref() == Some(name))
        };
        !taken(label) && !short.is_some_and(taken)
    }
}

/// A label that there is room for.
fn label(rng: &mut Rng, room: Room) -> Vec<u8> {
    let most = room.most().min(LONGEST_LABEL);
    loop {
        let length = if rng.one_in(15) { most } else { rng.between(1, most.min(14)) };
        let label = match rng.below(6) {
            _ if room.lines > 1 && rng.one_in(2) => broken(rng, room),
            0 | 1 => letters(rng, length),
            2 | 3 => short_name(rng, room.word().min(LONGEST_SHORT_NAME)),
            _ => words(rng, most),
        };
        if is_label(&label) && room.shows(&label) {
            return label;
        }
    }
}

/// Letters that take several lines: downwards in one column, else in words.
fn broken(rng: &mut Rng, room: Room) -> Vec<u8> {
    if room.columns == 1 {
        let length = rng.between(2, room.lines);
        return letters(rng, length);
    }
    let words = rng.between(2, room.lines);
    let mut label = Vec::new();
    for word in 0..words {
        let length = rng.between(1, room.columns.min(9));
        label.extend(if word > 0 { &b" "[..] } else { b"" });
        label.extend(letters(rng, length));
    }
    label
}

/// A short name of at most `most` bytes.
fn short_name(rng: &mut Rng, most: usize) -> Vec<u8> {
    loop {
        let length = if rng.one_in(2) { rng.between(1, most.min(2)) } else { rng.between(1, most) };
        let name: Vec<u8> = (0..length).map(|_| letter_or_digit(rng)).collect();
        if is_short_name(&name) {
            return name;
        }
    }
}

fn longest_label(rng: &mut Rng) -> Vec<u8> {
    loop {
        let label = letters(rng, LONGEST_LABEL);
        if is_label(&label) {
            return label;
        }
    }
}

fn longest_short_name(rng: &mut Rng) -> Vec<u8> {
    loop {
        let name: Vec<u8> = (0..LONGEST_SHORT_NAME).map(|_| letter_or_digit(rng)).collect();
        if is_short_name(&name) {
            return name;
        }
    }
}

fn words(rng: &mut Rng, most: usize) -> Vec<u8> {
    let mut text = rng.pick(WORDS).to_vec();
    while text.len() < most && rng.one_in(2) {
        text.push(rng.pick([b' ', b' ', b'-']));
        text.extend_from_slice(rng.pick(WORDS));
    }
    if text.len() > most || rng.one_in(4) {
        text.truncate(rng.between(1, most));
    }
    text
}

fn letters(rng: &mut Rng, length: usize) -> Vec<u8> {
    let inner = |rng: &mut Rng| if rng.one_in(8) { rng.pick([b' ', b'-']) } else { letter_or_digit(rng) };
    (0..length).map(|_| inner(rng)).collect()
}

fn letter_or_digit(rng: &mut Rng) -> u8 {
    let letter = rng.below(26) as u8;
    match rng.below(5) {
        0 => b'0' + rng.below(10) as u8,
        1 | 2 => b'A' + letter,
        _ => b'a' + letter,
    }
}
