//! Number 2: characters that a page may not hold, by their names.

use crate::faults::{Fault, Mistake};
use crate::shown::{counted, is_plain};

const MARK: &[u8] = b"\xEF\xBB\xBF";
const ALLOWED: &str = "a page has the characters from space to `~` and LF line ends, no others";

/// A character's name, and what to write instead.
type Name = (char, &'static str, &'static str);

const NAMES: [Name; 32] = [
    ('\0', "NUL", "take it out; if every second character is one, save the page as plain ASCII"),
    ('\t', "tab", "write spaces"),
    ('\r', "CR", "let lines end in LF alone"),
    ('\x0B', "vertical tab", "take it out"),
    ('\x0C', "form feed", "take it out"),
    ('\x1B', "escape", "take it out"),
    ('\x7F', "delete", "take it out"),
    ('\u{A0}', "no-break space", "write a space"),
    ('\u{AD}', "soft hyphen", "take it out, or write `-`"),
    ('\u{B7}', "middle dot", "write `*`"),
    ('\u{D7}', "multiplication sign", "write `*`"),
    ('\u{F7}', "division sign", "write `/`"),
    ('\u{2007}', "figure space", "write a space"),
    ('\u{200B}', "zero width space", "take it out"),
    ('\u{2010}', "hyphen", "write `-`"),
    ('\u{2011}', "no-break hyphen", "write `-`"),
    ('\u{2013}', "en dash", "write `-`"),
    ('\u{2014}', "em dash", "write `-`"),
    ('\u{2018}', "left single quotation mark", "write `'`"),
    ('\u{2019}', "right single quotation mark", "write `'`"),
    ('\u{201C}', "left double quotation mark", "write `\"`"),
    ('\u{201D}', "right double quotation mark", "write `\"`"),
    ('\u{2026}', "ellipsis", "write `..`"),
    ('\u{202F}', "narrow no-break space", "write a space"),
    ('\u{2212}', "minus sign", "write `-`"),
    ('\u{2260}', "not equal sign", "write `!=`"),
    ('\u{2264}', "less or equal sign", "write `<=`"),
    ('\u{2265}', "greater or equal sign", "write `>=`"),
    ('\u{2500}', "line of a box", "write `-`"),
    ('\u{2502}', "bar of a box", "write `|`"),
    ('\u{253C}', "cross of a box", "write `+`"),
    ('\u{FEFF}', "byte order mark", "save the page without a byte order mark"),
];

/// The characters that are not allowed, the first of each line, in order; CR line ends once.
pub fn mistakes(text: &[u8]) -> Vec<Mistake> {
    let lines: Vec<&[u8]> = text.split(|byte| *byte == b'\n').collect();
    let ended = lines.len() - 1;
    let mut found = Vec::new();
    let mut line_ends = line_ends(&lines[..ended]);
    for (index, line) in lines.iter().enumerate() {
        let line = line.strip_suffix(b"\r").filter(|_| index < ended).unwrap_or(line);
        if let Some(at) = line.iter().position(|byte| !is_plain(*byte)) {
            found.push(character(line, at, text).at(2, index + 1).without_place());
        }
        found.extend(line_ends.take_if(|ends| ends.line == index + 1));
    }
    found
}

/// The page with neither CRs before LFs nor a byte order mark at its start, if nothing else is not allowed, and the
/// length of that mark.
pub fn mended(text: &[u8]) -> Option<(Vec<u8>, usize)> {
    let marked = if text.starts_with(MARK) { MARK.len() } else { 0 };
    let mut mended = Vec::with_capacity(text.len());
    for (index, byte) in text.iter().enumerate().skip(marked) {
        if *byte == b'\r' && text.get(index + 1) == Some(&b'\n') {
            continue;
        }
        mended.push(*byte);
    }
    let allowed = mended.iter().all(|byte| is_plain(*byte) || *byte == b'\n');
    allowed.then_some((mended, marked))
}

/// The lines that end in CR LF, as one mistake.
fn line_ends(lines: &[&[u8]]) -> Option<Mistake> {
    let ends_so = |line: &&[u8]| line.ends_with(b"\r");
    let first = lines.iter().position(ends_so)?;
    let many = lines.iter().filter(|line| ends_so(line)).count();
    let message = if many == lines.len() {
        "every line ends in CR LF".to_string()
    } else {
        let verb = if many == 1 { "ends" } else { "end" };
        format!("{} of {} {verb} in CR LF", many, counted(lines.len() as u64, "line"))
    };
    let end = lines[first].len();
    let fault = Fault::new(end - 1..end, message, "CR")
        .note("let lines end in LF alone: save the page with Unix line ends")
        .note(ALLOWED);
    Some(fault.at(2, first + 1).without_place())
}

/// The character of a line that begins at this byte and is not allowed.
fn character(line: &[u8], at: usize, text: &[u8]) -> Fault {
    let bytes = &line[at..];
    if at == 0
        && text.starts_with(bytes)
        && (bytes.starts_with(b"\xFF\xFE") || bytes.starts_with(b"\xFE\xFF"))
    {
        return Fault::new(0..2, "the page begins with the byte order mark of UTF-16", "byte order mark")
            .note("save the page as plain ASCII")
            .note(ALLOWED);
    }
    let Some(character) = decoded(bytes) else {
        let name = format!("the byte 0x{:02X}", bytes[0]);
        return Fault::new(at..at + 1, format!("{name} is not allowed"), name).note(ALLOWED);
    };
    let code = u32::from(character);
    let known = NAMES.iter().find(|(known, ..)| *known == character);
    let name = match known {
        Some((_, name, _)) if code < 0x80 => format!("{name} (0x{code:02X})"),
        Some((_, name, _)) => format!("{name} (U+{code:04X})"),
        None if code < 0x80 => format!("control character 0x{code:02X}"),
        None => format!("character U+{code:04X}"),
    };
    let mend = known.map(|(_, _, mend)| mend.to_string());
    let label = known.map_or(name.clone(), |(_, name, _)| name.to_string());
    let spot = at..at + character.len_utf8();
    Fault::new(spot, format!("this character is not allowed: {name}"), label).note_if(mend).note(ALLOWED)
}

/// The character at the start of bytes, if they are UTF-8.
fn decoded(bytes: &[u8]) -> Option<char> {
    let start = &bytes[..bytes.len().min(4)];
    let valid = match std::str::from_utf8(start) {
        Ok(valid) => valid,
        Err(error) => std::str::from_utf8(&start[..error.valid_up_to()]).ok()?,
    };
    valid.chars().next()
}
