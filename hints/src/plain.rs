//! A hint as plain text, without colour.

use crate::hint::Hint;
use crate::shown::shown_name;
use std::fmt::Write;

/// The hint for a page, as lines of text that end in LF; `name` is how the page's file is called. What the page holds
/// besides the characters 0x20 to 0x7E is shown as question marks, and what the name holds besides those, letters and
/// digits.
pub fn plain(hint: &Hint, name: &str, text: &[u8]) -> String {
    let name = shown_name(name);
    let mut out = format!("error[{}]: {}\n", hint.number, hint.message);
    let mut margin = String::new();
    if let (part, Some(meant)) = hint.shown_line(text) {
        margin = " ".repeat(hint.line.to_string().len());
        let (before, carets) = (" ".repeat(meant.start), "^".repeat(meant.len().max(1)));
        let mark = format!("{before}{carets} {}", hint.label);
        _ = writeln!(out, "{margin} --> {name}:{}:{}\n{margin} |", hint.line, hint.column);
        _ = writeln!(out, "{}", format!("{} | {part}", hint.line).trim_end());
        _ = writeln!(out, "{}", format!("{margin} | {mark}").trim_end());
        if !hint.notes.is_empty() {
            _ = writeln!(out, "{margin} |");
        }
    } else if hint.line > 0 {
        _ = writeln!(out, " --> {name}:{}", hint.line);
    } else {
        _ = writeln!(out, " --> {name}");
    }
    for note in &hint.notes {
        _ = writeln!(out, "{margin} = note: {note}");
    }
    for also in &hint.also {
        _ = writeln!(
            out,
            "also: {name}:{}:{}: error[{}]: {}",
            also.line, also.column, also.number, also.message
        );
    }
    out
}
