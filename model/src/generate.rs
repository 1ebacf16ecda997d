//! Random texts, tables and packets from a seed: right ones, and ones damaged in many ways. The same seed gives
//! the same cases.
//!
//! `layouts` and `words` choose rows and names, `growth` the trees, `steps` some at the edges of `/`, `%` and `^`,
//! `fields` the description; `spelling` writes it as one of its texts, `drawing` its rows; `bends` breaks a rule of a
//! description, `clashes` those on equal names, `numbers` makes tables with wrong numbers and old ones, `edits`
//! changes bytes and lines, `misdrawn` rows, `lengths` makes lines long; `pieces` cuts a text; `fitting` makes packets
//! for a table; `runs` chooses fields, `cuts` to cut them out and `puts` to put them in. `extremes` makes what stands
//! at the far ends of the limits.

mod bends;
mod clashes;
mod cuts;
mod drawing;
mod edits;
mod extremes;
mod fields;
mod fitting;
mod growth;
mod layouts;
mod lengths;
mod misdrawn;
mod numbers;
mod pieces;
mod puts;
#[cfg(test)]
mod reached;
#[cfg(test)]
mod reached_edits;
#[cfg(test)]
mod reached_lines;
#[cfg(test)]
mod reached_numbers;
#[cfg(test)]
mod reached_rows;
mod rng;
mod runs;
mod spelling;
mod steps;
mod words;

pub use cuts::{cut, Cut};
pub use pieces::{every_cut, pieces, random_pieces};
pub use puts::{put, records, Put};
pub use rng::Rng;

use crate::descriptions::Description;
use crate::rows::ROW_LINES;
use crate::rules::MOST_FIELDS;
use crate::stored::encode;
use drawing::row_lines;
use layouts::{full_layout, layout, many, tall_layout, too_many, Layout, Slot};
use spelling::{spell, Manner};
use words::Names;

/// A text at the far ends is one of so many, and of the others one of twice so many has a long line.
const FAR_TEXT: usize = 40;
const LONG_LINE: usize = 9;
/// A table as long as may be is one of so many, one of too many fields, and one of a field that is read very often.
const FAR_TABLE: usize = 800;
const CROWDED_TABLE: usize = 60;
const MUCH_READ_TABLE: usize = 300;
/// So many lines that read as much as they can are often within the length of a text.
const MUCH_READ_LINES: usize = 40;
/// A table with wrong numbers is one of so many, and one of the old form or of both.
const MISNUMBERED: usize = 12;
const MIXED: usize = 24;
/// A description with broken rules is one of so many that has equal names.
const CLASHING: usize = 8;
/// The most fields, and the most bytes of a packet, by document 01 alone.
const EARLIER_FIELDS: usize = 64;
const EARLIER_PACKET: usize = 2_048;

/// A text: nearly half of them spell a description, the others are damaged.
pub fn text(rng: &mut Rng) -> Vec<u8> {
    if rng.one_in(FAR_TEXT) {
        return far_text(rng);
    }
    let (layout, names) = plan(rng, true);
    let description = fields::description(rng, &layout, &names);
    let lines = layout.row_lines;
    if rng.one_in(2) {
        return match rng.below(LONG_LINE) {
            0 => text_of_long_line(rng, &description, lines),
            _ => spelled(rng, &description, lines),
        };
    }
    match rng.below(16) {
        0 | 1 => edits::edit_bytes(spelled(rng, &description, lines), rng, &edits::TEXT_BYTES),
        2 => edits::edit_lines(spelled(rng, &description, lines), rng),
        3 | 4 => {
            let manner = Manner::wrong(rng, lines);
            spell(rng, &description, &description, manner)
        }
        5 => too_many_fields(rng),
        6..=8 => misdrawn::misdraw(spelled(rng, &description, ROW_LINES), rng),
        _ => bent_text(rng, &description, lines),
    }
}

/// A text that spells a description, with the table of that description. It may be over the length of a text.
pub fn spelled_text(rng: &mut Rng) -> (Vec<u8>, Vec<u8>) {
    let (layout, names) = plan(rng, true);
    let description = fields::description(rng, &layout, &names);
    (spelled(rng, &description, layout.row_lines), encode(&description))
}

/// A table: about half of them are good, the others have broken rules or changed bytes.
pub fn table(rng: &mut Rng) -> Vec<u8> {
    if rng.one_in(FAR_TABLE) {
        return longest_table(rng);
    }
    if rng.one_in(CROWDED_TABLE) {
        return crowded_table(rng);
    }
    if rng.one_in(MUCH_READ_TABLE) {
        return much_read_table(rng);
    }
    let (layout, names) = plan(rng, false);
    let mut description = fields::description(rng, &layout, &names);
    if rng.one_in(MISNUMBERED) {
        return numbers::misnumbered(rng, &description);
    }
    if rng.one_in(MIXED) {
        return numbers::mixed(rng, &description);
    }
    match rng.below(8) {
        0 | 1 => {
            spoiled(rng, &mut description);
            encode(&description)
        }
        2 if rng.one_in(3) => edits::recode(encode(&description), rng),
        2 | 3 => edits::edit_bytes(encode(&description), rng, &edits::TABLE_BYTES),
        _ => encode(&description),
    }
}

/// A table for the converter: about half of them are old good ones, the others are of too many fields, have operators
/// that document 01 does not, broken rules or changed bytes, or are no old ones.
pub fn old_table(rng: &mut Rng) -> Vec<u8> {
    let layout = match rng.below(10) {
        0 => {
            let count = EARLIER_FIELDS + rng.pick([0, 0, 1, 1, 2, 64]);
            wide_or_tall(rng, count)
        }
        _ => layout(rng),
    };
    let names = Names::random(rng, &layout, false);
    let mut description = fields::description(rng, &layout, &names);
    match rng.below(16) {
        0 | 1 => {
            spoiled(rng, &mut description);
            numbers::old(rng, &description)
        }
        2 | 3 => edits::edit_bytes(numbers::old(rng, &description), rng, &edits::TABLE_BYTES),
        4 => edits::recode(numbers::old(rng, &description), rng),
        5 => table(rng),
        6 if rng.one_in(4) => {
            let names = much_read_names(rng, EARLIER_FIELDS);
            let description = extremes::much_read(rng, &names);
            numbers::old(rng, &description)
        }
        _ => numbers::old(rng, &description),
    }
}

/// A packet for a table: made to fit it if that can be, then cut, extended or changed, or random bytes.
pub fn packet(rng: &mut Rng, table: &[u8]) -> Vec<u8> {
    let fitting = fitting::fitting(rng, table);
    match rng.below(12) {
        0 => edits::cut(fitting, rng),
        1 => edits::extended(fitting, rng),
        2 => edits::edit_bytes(fitting, rng, &edits::TABLE_BYTES),
        3 => fitting::random_packet(rng),
        _ => fitting,
    }
}

/// A table of a rest field among as many fixed bits as may be, and a packet for it.
pub fn tail(rng: &mut Rng) -> (Vec<u8>, Vec<u8>) {
    let names = Names::longest(rng, MOST_FIELDS);
    let description = extremes::tail(rng, &names);
    (encode(&description), extremes::tail_packet(rng, &description))
}

/// The longest table, or one that is nearly that.
fn longest_table(rng: &mut Rng) -> Vec<u8> {
    let names = Names::longest(rng, MOST_FIELDS);
    let table = encode(&extremes::longest(rng, &names));
    if rng.one_in(3) {
        return edits::edit_bytes(table, rng, &edits::TABLE_BYTES);
    }
    table
}

/// A table of fields that are read very often, at times with a wrong number.
fn much_read_table(rng: &mut Rng) -> Vec<u8> {
    let names = much_read_names(rng, MOST_FIELDS);
    let description = extremes::much_read(rng, &names);
    if rng.one_in(3) {
        return numbers::misnumbered(rng, &description);
    }
    encode(&description)
}

/// Names for up to `most` fields of a byte, each in a row of its own.
fn much_read_names(rng: &mut Rng, most: usize) -> Names {
    let slots = vec![Slot::Fixed(8); rng.between(most / 2, most)];
    Names::random(rng, &Layout::new(8, slots), true)
}

/// A table of more fields than there may be.
fn crowded_table(rng: &mut Rng) -> Vec<u8> {
    let count = too_many(rng);
    let layout = full_layout(rng, count);
    let names = Names::random(rng, &layout, false);
    encode(&fields::description(rng, &layout, &names))
}

/// A text of very many lines or fields, of a very long line, or of a long table; about half of them damaged.
fn far_text(rng: &mut Rng) -> Vec<u8> {
    let text = match rng.below(7) {
        0 => extremes::many_rows(rng),
        1 => extremes::many_lines(rng),
        2 => return tall_text(rng),
        3 | 4 => return extremes::many_powers(rng),
        5 => return much_read_text(rng),
        _ => long_table_text(rng),
    };
    match rng.below(5) {
        0 => edits::edit_bytes(text, rng, &edits::TEXT_BYTES),
        1 => edits::edit_lines(text, rng),
        2 => misdrawn::misdraw(text, rng),
        _ => text,
    }
}

/// A text of about as many fields with the longest expressions as its length allows, with long or short names.
fn long_table_text(rng: &mut Rng) -> Vec<u8> {
    let names = if rng.one_in(2) {
        let count = rng.between(EARLIER_FIELDS, 67);
        Names::longest(rng, count)
    } else {
        let slots = vec![Slot::Measured; rng.between(70, 80)];
        Names::random(rng, &Layout::new(8, slots), true)
    };
    let description = extremes::longest(rng, &names);
    spell(rng, &description, &description, Manner::PLAIN)
}

/// A text of fields that are read very often; it may be over the length of a text.
fn much_read_text(rng: &mut Rng) -> Vec<u8> {
    let names = much_read_names(rng, MUCH_READ_LINES);
    let description = extremes::much_read(rng, &names);
    spell(rng, &description, &description, Manner::PLAIN)
}

/// A text of as many fields as may be, each in a row of its own, with broken rules.
fn tall_text(rng: &mut Rng) -> Vec<u8> {
    let layout = tall_layout(rng, 8, MOST_FIELDS);
    let names = Names::random(rng, &layout, true);
    let description = fields::description(rng, &layout, &names);
    let lines = row_lines(rng);
    bent_text(rng, &description, lines)
}

/// Rows of `count` fields, of several cells or of one.
fn wide_or_tall(rng: &mut Rng, count: usize) -> Layout {
    if rng.one_in(3) {
        let row_bits = rng.pick([8, 8, 16, 32]);
        return tall_layout(rng, row_bits, count);
    }
    full_layout(rng, count)
}

/// Rows and names; with `shown`, each field has a name that its cell has room for.
fn plan(rng: &mut Rng, shown: bool) -> (Layout, Names) {
    let mut layout = if rng.one_in(if shown { 20 } else { 40 }) {
        let count = many(rng);
        wide_or_tall(rng, count)
    } else {
        layout(rng)
    };
    layout.row_lines = row_lines(rng);
    let names = Names::random(rng, &layout, shown);
    (layout, names)
}

fn spelled(rng: &mut Rng, description: &Description, row_lines: usize) -> Vec<u8> {
    let text = spell(rng, description, description, Manner::of_rows(row_lines));
    match rng.below(60) {
        0 => lengths::padded(text, rng),
        1 => lengths::long_remarks(text, rng),
        _ => text,
    }
}

/// A text of more fields than there may be, or of too many cells or lines only.
fn too_many_fields(rng: &mut Rng) -> Vec<u8> {
    let count = too_many(rng);
    let mut layout = wide_or_tall(rng, count);
    layout.row_lines = row_lines(rng);
    let names = Names::random(rng, &layout, true);
    let description = fields::description(rng, &layout, &names);
    let manner = Manner::of_rows(layout.row_lines);
    let mut fewer = description.clone();
    fewer.fields.truncate(MOST_FIELDS - rng.below(2));
    match rng.below(4) {
        0 => spell(rng, &description, &fewer, manner),
        1 => spell(rng, &fewer, &description, manner),
        _ => spelled(rng, &description, layout.row_lines),
    }
}

/// A text with a line that is most often too long, at times with what else is wrong.
fn text_of_long_line(rng: &mut Rng, description: &Description, row_lines: usize) -> Vec<u8> {
    let text = match rng.below(6) {
        0 => bent_text(rng, description, row_lines),
        1 => {
            let manner = Manner::wrong(rng, row_lines);
            spell(rng, description, description, manner)
        }
        _ => spelled(rng, description, row_lines),
    };
    lengths::long_line(text, rng)
}

/// A text whose lines, and at times cells, are those of a description with broken rules.
fn bent_text(rng: &mut Rng, description: &Description, row_lines: usize) -> Vec<u8> {
    let mut told = description.clone();
    let manner = Manner::of_rows(row_lines);
    if clashed(rng, &mut told, 5) {
        return spell(rng, &told, &told, manner);
    }
    bent(rng, &mut told);
    let drawn = if rng.one_in(2) { &told } else { description };
    spell(rng, drawn, &told, manner)
}

/// Gives fields of a description equal names, or breaks other rules of it.
fn spoiled(rng: &mut Rng, description: &mut Description) {
    if !clashed(rng, description, 2) {
        bent(rng, description);
    }
}

/// Breaks one or two rules of a description.
fn bent(rng: &mut Rng, description: &mut Description) {
    for _ in 0..rng.between(1, 2) {
        bends::bend(rng, description);
    }
}

/// Gives fields of a description equal names, one time in `CLASHING`, with many fields one in `many`, and says so.
fn clashed(rng: &mut Rng, description: &mut Description, many: usize) -> bool {
    let rarity = if description.fields.len() >= EARLIER_FIELDS { many } else { CLASHING };
    let clashes = rng.one_in(rarity);
    if clashes {
        clashes::clash(rng, description);
    }
    clashes
}
