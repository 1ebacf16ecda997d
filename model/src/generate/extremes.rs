//! Cases at the far ends of the limits: the longest tables and listings, very many bits behind a rest field, and
//! texts of very many lines or very long ones.

use super::drawing::{row, Drawn};
use super::growth::Growth;
use super::words::Names;
use super::{Rng, EARLIER_PACKET};
use crate::descriptions::{Description, Field, Width};
use crate::frames::{border, tens_ruler, units_ruler, FORMATTED, WHERE};
use crate::lines::LONGEST_LINE;
use crate::names::is_short_name;
use crate::reading::LONGEST_PACKET;
use crate::rows::ROW_LINES;
use crate::rules::{MOST_FIXED_BITS, ROW_BITS};
use crate::texts::LONGEST_TEXT;

/// Measured fields with expressions as long as they may be. Packets fit it, and with rows of 8 bits it can be
/// spelled within the length of a text.
pub fn longest<'a>(rng: &mut Rng, names: &'a Names) -> Description<'a> {
    let whole_bytes = !rng.one_in(4);
    let row_bits = if rng.one_in(4) { rng.pick(ROW_BITS) } else { 8 };
    let fields = names.labels.iter().zip(&names.shorts).map(|(label, short)| {
        let unit = if whole_bytes || rng.one_in(2) { 8 } else { 1 };
        let present = !rng.one_in(8);
        Field {
            label,
            short: short.as_deref(),
            width: Width::Measured { unit, tree: Growth::new(&[]).longest_number(rng) },
            constraint: Some(Growth::new(&[]).longest_truth(rng, true)),
            condition: Some(Growth::new(&[]).longest_truth(rng, present)),
        }
    });
    Description { name: &names.name, row_bits, fields: fields.collect() }
}

/// Fields of a byte of which a few are read by all later ones, as often as their expressions have room for.
pub fn much_read<'a>(rng: &mut Rng, names: &'a Names) -> Description<'a> {
    let named = names.labels.iter().zip(&names.shorts);
    let readable =
        |(_, (label, short)): &(usize, (&Vec<u8>, &Option<Vec<u8>>))| short.is_some() || is_short_name(label);
    let most = rng.between(1, 3);
    let read: Vec<usize> =
        named.clone().enumerate().filter(readable).map(|(index, _)| index).take(most).collect();
    let (present, own) = (rng.one_in(2), rng.one_in(4));
    let fields = named.enumerate().map(|(index, (label, short))| {
        let is_read = short.is_some() || is_short_name(label);
        let mut earlier: Vec<usize> = read.iter().copied().filter(|read| *read < index).collect();
        let condition = (present && !earlier.is_empty()).then(|| Growth::new(&[]).names(rng, &earlier));
        earlier.extend((own && is_read).then_some(index));
        let constraint = (!earlier.is_empty()).then(|| Growth::new(&[]).names(rng, &earlier));
        let width = Width::Fixed(8);
        Field { label, short: short.as_deref(), width, constraint, condition }
    });
    Description { name: &names.name, row_bits: 8, fields: fields.collect() }
}

/// A rest field, early, among fixed fields of as many bits as may be.
pub fn tail<'a>(rng: &mut Rng, names: &'a Names) -> Description<'a> {
    let rest = rng.below(3);
    let named = names.labels.iter().zip(&names.shorts).enumerate();
    let fields = named.map(|(index, (label, short))| Field {
        label,
        short: short.as_deref(),
        width: if index == rest { Width::Rest } else { Width::Fixed(MOST_FIXED_BITS) },
        constraint: None,
        condition: None,
    });
    Description { name: &names.name, row_bits: MOST_FIXED_BITS, fields: fields.collect() }
}

/// A length of a packet that may be: the most, about the earlier most, or one less.
pub fn far_length(rng: &mut Rng) -> usize {
    match rng.below(2) {
        0 => LONGEST_PACKET - rng.below(2),
        _ => rng.between(EARLIER_PACKET - 1, EARLIER_PACKET + 1),
    }
}

/// A packet for such a description: as long as may be, about as long as its fixed fields, or anything else.
pub fn tail_packet(rng: &mut Rng, description: &Description) -> Vec<u8> {
    let fixed: u32 = description.fields.iter().filter_map(Field::fixed_bits).sum();
    let least = fixed as usize / 8;
    let length = match rng.below(4) {
        0 | 1 => far_length(rng),
        2 => (least + rng.below(3)).saturating_sub(1),
        _ => rng.between(0, LONGEST_PACKET + 1),
    };
    rng.bytes(length)
}

/// A right frame up to its rows.
fn opening(row_bits: u32) -> Vec<u8> {
    let first = [b"A Far", FORMATTED].concat();
    let lines =
        [first, Vec::new(), tens_ruler(row_bits), units_ruler(row_bits), border(row_bits), Vec::new()];
    lines.join(&b'\n')
}

/// A text of so many rows, one cell each, that its length may be that of the longest text; at times of several lines.
pub fn many_rows(rng: &mut Rng) -> Vec<u8> {
    let row_bits = rng.pick([8, 8, 16]);
    let columns = 2 * row_bits as usize - 1;
    let mut text = opening(row_bits);
    let most = rng.between(2_000, LONGEST_TEXT - 50);
    let lines = rng.pick([1, 1, ROW_LINES]);
    while text.len() + (lines + 1) * (columns + 3) <= most {
        let cell = Drawn { name: b"F", columns, bar: rng.pick([b'|', b':']) };
        text.extend(row(rng, &[cell], lines).join(&b'\n'));
        text.push(b'\n');
        text.extend(border(row_bits));
        text.push(b'\n');
    }
    text.extend([b"\n", WHERE, b"\n\nF: 8 bits.\n"].concat());
    text
}

/// A text of one row and of as many field lines as its length allows, all alike; at times without the last LF.
pub fn many_lines(rng: &mut Rng) -> Vec<u8> {
    let mut text = opening(8);
    text.extend([b"|F              |\n", &border(8)[..], b"\n\n", WHERE, b"\n\n"].concat());
    let line: &[u8] = rng.pick([b"\n", b"\n", b"?\n", b"F: 8 bits.\n"]);
    let most = rng.between(2_000, LONGEST_TEXT);
    while text.len() + line.len() < most {
        text.extend(line);
    }
    if rng.one_in(2) {
        text.push(b'F');
    }
    text
}

/// A text of one or two field lines, one of them with powers of about as many numbers as a line has room for, at times
/// of more; at times wrong at the end of that line.
pub fn many_powers(rng: &mut Rng) -> Vec<u8> {
    let most = match rng.below(8) {
        0 => rng.between(LONGEST_LINE - 60, LONGEST_TEXT - 300),
        _ => rng.between(LONGEST_LINE / 2, LONGEST_LINE - 60),
    };
    let number: &[u8] = rng.pick([b"1", b"0", b"F", b"2", b"4294967295"]);
    let sign: &[u8] = rng.pick([b"^", b"^", b" ^ ", b"^ "]);
    let mut powers = number.to_vec();
    while powers.len() < most {
        powers.extend([sign, number].concat());
    }
    let end: &[u8] = rng.pick([b"", b"", b"", b"/0", b"^", b"^)", b"^^1", b"^01", b"  "]);
    powers.extend(end);
    let long = [b"G: ", &powers[..], b" bits"].concat();
    let constraint = [b"G: 1 byte; ", &powers[..], b" == 1"].concat();
    let condition = [b"G: 1 byte; present only when 1 != ", &powers[..]].concat();
    let (bar, line): (&[u8], _) = match rng.below(3) {
        0 => (b":", long),
        1 => (b"|", constraint),
        _ => (b"|", condition),
    };
    let mut text = opening(8);
    text.extend([b"|F              |\n", &border(8)[..], b"\n"].concat());
    text.extend([bar, b"       G       ", bar, b"\n", &border(8)[..], b"\n\n", WHERE, b"\n\n"].concat());
    let first: &[u8] = rng.pick([b"F: 8 bits.\n", b"F: 8 bits.\n", b"F: 08 bits.\n"]);
    text.extend([first, &line[..], b".\n"].concat());
    text
}
