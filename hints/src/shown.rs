//! Bytes of a page or a table as they may be shown: nothing but the characters 0x20 to 0x7E goes out.

/// So many bytes are quoted within a message.
const QUOTED: usize = 48;

pub fn is_plain(byte: u8) -> bool {
    (b' '..=b'~').contains(&byte)
}

/// Bytes with a character for each: what cannot be shown is a question mark.
pub fn shown(bytes: &[u8]) -> String {
    bytes.iter().map(|byte| if is_plain(*byte) { char::from(*byte) } else { '?' }).collect()
}

/// The name of a file as it may be shown: letters and digits of any alphabet too.
pub fn shown_name(name: &str) -> String {
    let is_shown = |letter: char| (' '..='~').contains(&letter) || letter.is_alphanumeric();
    name.chars().map(|letter| if is_shown(letter) { letter } else { '?' }).collect()
}

/// Bytes between grave accents, cut where they are many.
pub fn quoted(bytes: &[u8]) -> String {
    match bytes.get(..QUOTED) {
        Some(start) if bytes.len() > QUOTED + 2 => format!("`{}..`", shown(start)),
        _ => format!("`{}`", shown(bytes)),
    }
}

/// A word between grave accents.
pub fn tick(word: &str) -> String {
    format!("`{word}`")
}

/// What stands in a line from here on: a word, a character, or the end.
pub fn found(line: &[u8], at: usize) -> String {
    let rest = line.get(at..).unwrap_or_default();
    let word = word_length(rest);
    match rest.first() {
        None => "the end of the line".to_string(),
        Some(b' ') => match rest.get(1) {
            None | Some(b' ') => "a space".to_string(),
            Some(_) => format!("a space and {}", found(line, at + 1)),
        },
        Some(_) => quoted(&rest[..word.max(1)]),
    }
}

/// The length of the letters and digits at the start.
pub fn word_length(bytes: &[u8]) -> usize {
    bytes.iter().take_while(|byte| byte.is_ascii_alphanumeric()).count()
}

/// A number with commas between its thousands.
pub fn spelled(number: u64) -> String {
    match (number / 1000, number % 1000) {
        (0, number) => number.to_string(),
        (thousands, rest) => format!("{},{rest:03}", spelled(thousands)),
    }
}

/// A number of things: `1 bit`, `5 bits`.
pub fn counted(number: u64, thing: &str) -> String {
    let end = if number == 1 { "" } else { "s" };
    format!("{} {thing}{end}", spelled(number))
}

/// Things in a row: `a, b or c`.
pub fn listed(things: &[String], last: &str) -> String {
    match things {
        [] => String::new(),
        [one] => one.clone(),
        [start @ .., end] => format!("{} {last} {end}", start.join(", ")),
    }
}
