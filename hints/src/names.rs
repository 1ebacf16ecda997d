//! Which rule of labels or short names is broken.

use crate::faults::Fault;
use crate::limits::{LABEL_MOST, SHORT_MOST};
use crate::shown::{counted, quoted};

const RESERVED: [&[u8]; 6] = [b"bit", b"bits", b"byte", b"bytes", b"variable", b"present"];
const OF_LABELS: &str =
    "a label has 1 to 40 letters, digits, single spaces and hyphens, and a letter or digit at \
                         each end";
pub const OF_SHORTS: &str =
    "a short name is a letter and up to 7 letters or digits, and none of `bit`, `bits`, \
                             `byte`, `bytes`, `variable`, `present`";

pub fn is_reserved(word: &[u8]) -> bool {
    RESERVED.contains(&word)
}

pub fn is_short(word: &[u8]) -> bool {
    word.first().is_some_and(u8::is_ascii_alphabetic)
        && word.len() <= SHORT_MOST
        && word.iter().all(u8::is_ascii_alphanumeric)
        && !is_reserved(word)
}

pub fn is_label_byte(byte: u8) -> bool {
    byte.is_ascii_alphanumeric() || byte == b' ' || byte == b'-'
}

/// What is wrong with a label that stands at this byte of its line; `what` is how it is called.
pub fn label_fault(label: &[u8], at: usize, what: &str) -> Option<Fault> {
    let spot = |from: usize, length: usize| at + from..at + from + length;
    let shown = quoted(label);
    let (spot, broken) = if label.is_empty() {
        return Some(Fault::new(spot(0, 1), format!("{what} has no label"), "no label").note(OF_LABELS));
    } else if let Some(odd) = label.iter().position(|byte| !is_label_byte(*byte)) {
        (spot(odd, 1), format!("{} is not allowed in a label", quoted(&label[odd..=odd])))
    } else if !label[0].is_ascii_alphanumeric() {
        (spot(0, 1), "a label begins with a letter or digit".to_string())
    } else if !label[label.len() - 1].is_ascii_alphanumeric() {
        (spot(label.len() - 1, 1), "a label ends with a letter or digit".to_string())
    } else if let Some(double) = label.windows(2).position(|two| two == b"  ") {
        (spot(double, 2), "two spaces together in a label".to_string())
    } else if label.len() > LABEL_MOST {
        (spot(0, label.len()), format!("{}, at most 40", counted(label.len() as u64, "character")))
    } else {
        return None;
    };
    Some(Fault::new(spot, format!("{what} {shown} is no label: {broken}"), broken).note(OF_LABELS))
}

/// What is wrong with a short name that stands at this byte of its line.
pub fn short_fault(short: &[u8], at: usize) -> Option<Fault> {
    let spot = |from: usize, length: usize| at + from..at + from + length;
    if short.is_empty() {
        return Some(Fault::new(spot(0, 1), "the short name is empty", "no short name").note(OF_SHORTS));
    }
    let (spot, broken) = if let Some(odd) = short.iter().position(|byte| !byte.is_ascii_alphanumeric()) {
        (spot(odd, 1), format!("{} is not allowed in a short name", quoted(&short[odd..=odd])))
    } else if !short[0].is_ascii_alphabetic() {
        (spot(0, 1), "a short name begins with a letter".to_string())
    } else if short.len() > SHORT_MOST {
        (spot(0, short.len()), format!("{}, at most 8", counted(short.len() as u64, "character")))
    } else if is_reserved(short) {
        (spot(0, short.len()), "this word is reserved".to_string())
    } else {
        return None;
    };
    let message = format!("{} is no short name: {broken}", quoted(short));
    Some(Fault::new(spot, message, broken).note(OF_SHORTS))
}
