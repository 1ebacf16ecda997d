//! Changes to the bytes and lines of a text, a table or a packet.

use super::Rng;
use crate::operators::{level, op_of, SUM};

/// Bytes that edits put into a text.
pub const TEXT_BYTES: [u8; 28] = *b"|:+- (();.=<&!*/%^^09aZ\n\n\x7F\t\r";
/// Bytes that edits put into a table or a packet.
pub const TABLE_BYTES: [u8; 28] = [
    0, 1, 2, 3, 4, 5, 8, 16, 17, 18, 19, 20, 21, 22, 31, 32, 33, 37, 38, 48, 49, 50, 64, 65, 127, 128, 129,
    255,
];

/// One to three bytes changed, added or taken out.
pub fn edit_bytes(mut bytes: Vec<u8>, rng: &mut Rng, likely: &[u8; 28]) -> Vec<u8> {
    for _ in 0..rng.between(1, 3) {
        let byte = if rng.one_in(6) { rng.byte() } else { rng.pick(*likely) };
        let place = rng.below(bytes.len());
        match rng.below(4) {
            0 => bytes.insert(place, byte),
            _ if bytes.is_empty() => bytes.push(byte),
            1 => {
                bytes.remove(place);
            }
            2 => bytes[place] = byte,
            _ => bytes[place] ^= 1 << rng.below(8),
        }
    }
    bytes
}

/// A table with another byte where the code of an operator of arithmetic may stand: such a code, or one beside them.
pub fn recode(mut table: Vec<u8>, rng: &mut Rng) -> Vec<u8> {
    let is_code = |place: &usize| op_of(table[*place]).is_some_and(|op| level(op) >= SUM);
    let places: Vec<usize> = (0..table.len()).filter(is_code).collect();
    if let Some(place) = places.get(rng.below(places.len())) {
        table[*place] = rng.pick([0x0F, 0x12, 0x13, 0x14, 0x15, 0x16, 0x1F]);
    }
    table
}

/// One or two lines dropped, doubled or swapped, or the text cut.
pub fn edit_lines(text: Vec<u8>, rng: &mut Rng) -> Vec<u8> {
    if rng.one_in(8) {
        return cut(text, rng);
    }
    let mut lines: Vec<&[u8]> = text.split_inclusive(|byte| *byte == b'\n').collect();
    for _ in 0..rng.between(1, 2) {
        let (place, other) = (rng.below(lines.len()), rng.below(lines.len()));
        match rng.below(3) {
            _ if lines.is_empty() => {}
            0 => {
                lines.remove(place);
            }
            1 => lines.insert(place, lines[place]),
            _ => lines.swap(place, other),
        }
    }
    lines.concat()
}

/// The first bytes of some.
pub fn cut(mut bytes: Vec<u8>, rng: &mut Rng) -> Vec<u8> {
    let least = if rng.one_in(2) { bytes.len().saturating_sub(3) } else { 0 };
    let length = rng.between(least, bytes.len().saturating_sub(1));
    bytes.truncate(length);
    bytes
}

/// Some bytes more.
pub fn extended(mut bytes: Vec<u8>, rng: &mut Rng) -> Vec<u8> {
    for _ in 0..rng.between(1, 3) {
        bytes.push(rng.byte());
    }
    bytes
}
