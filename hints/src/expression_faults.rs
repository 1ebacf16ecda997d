//! What is wrong with an expression, by what stands there.

use crate::faults::Fault;
use crate::names::{is_reserved, OF_SHORTS};
use crate::operators::{operator_at, COMPARISON};
use crate::shown::{found, quoted, shown, word_length};

pub fn is_sign(byte: u8) -> bool {
    matches!(byte, b'=' | b'<' | b'>' | b'&' | b'|' | b'!' | b'*' | b'/' | b'%' | b'^')
}

/// Signs round this place that make no operator together.
pub fn signs(line: &[u8], at: usize) -> Fault {
    let from = at - line[..at].iter().rev().take_while(|byte| is_sign(**byte)).count();
    let end = at + line[at..].iter().take_while(|byte| is_sign(**byte)).count();
    let mend = match &line[from..end] {
        b"<>" => Some("!="),
        b"===" => Some("=="),
        b"!==" => Some("!="),
        b"**" | b"^^" => Some("^"),
        b"//" => Some("/"),
        b"%%" => Some("%"),
        _ => None,
    };
    Fault::new(from..end, format!("{} is no operator", quoted(&line[from..end])), "no such operator")
        .note_if(mend.map(|mend| format!("did you mean `{mend}`?")))
}

/// A number with commas, underscores or a point in it.
pub fn broken_number(bytes: &[u8], at: usize) -> Fault {
    let part = |byte: &&u8| byte.is_ascii_digit() || matches!(byte, b',' | b'_' | b'.');
    let length = bytes.iter().take_while(part).count();
    let length = length - usize::from(bytes[..length].ends_with(b"."));
    let message = format!("{} is no number: a number is digits alone", quoted(&bytes[..length]));
    Fault::new(at..at + length, message, "digits alone")
}

/// A word that begins with digits and goes on with letters.
pub fn no_number(word: &[u8], digits: usize, at: usize) -> Fault {
    let spot = at..at + word.len();
    let message = format!("{} is no number", quoted(word));
    if word.starts_with(b"0x") || word.starts_with(b"0X") {
        let value = std::str::from_utf8(&word[2..]).ok().and_then(|hex| u32::from_str_radix(hex, 16).ok());
        let mend = value.map(|value| format!("did you mean `{value}`?"));
        return Fault::new(spot, format!("{message}: numbers are decimal"), "numbers are decimal")
            .note_if(mend);
    }
    let mend = format!("did you mean `{} {}`?", shown(&word[..digits]), shown(&word[digits..]));
    let unit = is_reserved(&word[digits..]);
    let why = if unit { "a space is missing before the unit" } else { "a letter follows its digits" };
    Fault::new(spot, format!("{message}: {why}"), why).note_if(unit.then_some(mend))
}

/// What is wrong behind an operand, where an operator or `due` has to follow.
pub fn behind(line: &[u8], at: usize, due: &str) -> Fault {
    let sign = at + usize::from(line.get(at) == Some(&b' '));
    let rest = line.get(sign..).unwrap_or_default();
    let unknown = |length: usize, mend: &str| {
        let symbol = quoted(&rest[..length]);
        Fault::new(sign..sign + length, format!("{symbol} is no operator"), "no such operator").note(mend)
    };
    match rest {
        _ if operator_at(rest).is_some_and(|operator| operator.level == COMPARISON) => {
            let length = operator_at(rest).map_or(1, |operator| operator.symbol.len());
            let message = "a second comparison: only one stands between `&&`, `||` and parentheses";
            Fault::new(sign..sign + length, message, "the second comparison")
                .note("join two comparisons with `&&`, as in `1 <= N && N <= 20`")
        }
        [b'=', b'<' | b'>', ..] => unknown(2, &format!("did you mean `{}=`?", char::from(rest[1]))),
        [b'=', ..] => unknown(1, "did you mean `==`?"),
        [b'&', ..] => unknown(1, "did you mean `&&`?"),
        [b'|', ..] => unknown(1, "did you mean `||`?"),
        [b'!', ..] => unknown(1, "did you mean `!=`?"),
        [b'_', ..] => {
            Fault::new(sign..sign + 1, "`_` is not allowed in a name", "not allowed").note(OF_SHORTS)
        }
        [b')', ..] if sign == at => expected(line, at, due).note("no `(` is open here"),
        [b'(', ..] if line[..at].ends_with(b"not") => {
            Fault::new(at - 3..at + 1, "`not(` is no operator", "no such operator").note("did you mean `!(`?")
        }
        [letter, ..] if letter.is_ascii_alphabetic() && sign > at => word(line, sign, due),
        [b' ', ..] if sign > at => Fault::new(sign..sign + 1, "a space too many", "a space too many")
            .note("one space at most stands on each side of an operator"),
        _ => expected(line, at, due),
    }
}

/// A word stands where an operator or `due` has to.
fn word(line: &[u8], at: usize, due: &str) -> Fault {
    let length = word_length(&line[at..]);
    let mend = match line[at..at + length].to_ascii_lowercase().as_slice() {
        b"and" => Some("&&"),
        b"or" => Some("||"),
        b"is" | b"eq" | b"equals" => Some("=="),
        b"div" => Some("/"),
        b"mod" => Some("%"),
        _ => None,
    };
    let message = format!("expected an operator, {due}, found {}", quoted(&line[at..at + length]));
    Fault::new(at..at + length, message, "no operator")
        .note_if(mend.map(|mend| format!("did you mean `{mend}`?")))
}

/// Something else stands where `due` has to.
pub fn expected(line: &[u8], at: usize, due: &str) -> Fault {
    Fault::new(at..at + 1, format!("expected {due}, found {}", found(line, at)), format!("expected {due}"))
}
