//! The lines of a frame that are no rows: the opening line, the rulers, the border, `where:` and empty lines.

use crate::faults::Fault;
use crate::names::label_fault;
use crate::shown::{counted, found, quoted, shown, tick};

pub const ROW_BITS: [usize; 3] = [8, 16, 32];
pub const OPENING: &str = "`A NAME is formatted as follows:`";
const ENDING: &[u8] = b" is formatted as follows:";
const WIDTHS: &str = "a row is 8, 16 or 32 bits";

pub fn tens_ruler(row_bits: usize) -> Vec<u8> {
    let mut ruler = vec![b' '];
    for bit in (0..row_bits).step_by(10) {
        ruler.resize(2 * bit + 1, b' ');
        ruler.push(b'0' + (bit / 10 % 10) as u8);
    }
    ruler
}

pub fn units_ruler(row_bits: usize) -> Vec<u8> {
    (0..row_bits).flat_map(|bit| [b' ', b'0' + (bit % 10) as u8]).collect()
}

pub fn border(row_bits: usize) -> Vec<u8> {
    let mut border = b"+-".repeat(row_bits);
    border.push(b'+');
    border
}

/// How the line is called that stands here instead.
pub fn kind_found(line: &[u8]) -> String {
    match line {
        [] => "an empty line".to_string(),
        b"where:" => "`where:`".to_string(),
        [b'|', .., b'|'] | [b':', .., b':'] => "a row".to_string(),
        [b'+', b'-', ..] => "a border".to_string(),
        [b' ', b'0', b' ', b'1', ..] => "a units ruler".to_string(),
        [b' ', b'0', b' ', b' ', ..] => "a tens ruler".to_string(),
        _ => quoted(line),
    }
}

/// How far two lines are the same.
fn common(line: &[u8], due: &[u8]) -> usize {
    line.iter().zip(due).take_while(|(byte, due)| byte == due).count()
}

/// The opening line.
pub fn opening(line: &[u8]) -> Result<(), Fault> {
    let wrong = |at: usize, due: &str| {
        let begun = line.get(at).is_some_and(u8::is_ascii_alphanumeric) || at > 0;
        let there = if begun { found(line, at) } else { kind_found(line) };
        let message = format!("expected {OPENING}, found {there}");
        Err(Fault::new(at..at + 1, message, format!("expected {due}"))
            .note("NAME is what the page describes"))
    };
    let start = match line {
        [b'A', b' ', ..] => 2,
        [b'A', b'n', b' ', ..] => 3,
        _ => return wrong(0, "`A ` or `An `"),
    };
    let Some(name) = line[start..].strip_suffix(ENDING) else {
        if &line[start..] == ENDING.trim_ascii_start() {
            return wrong(start, "NAME");
        }
        let (at, mut same) = ending_begun(line, start);
        if line.get(at + same).is_some_and(u8::is_ascii_alphanumeric) {
            same = ENDING[..same].iter().rposition(|byte| *byte == b' ').map_or(0, |space| space + 1);
        }
        return wrong(at + same, &quoted(&ENDING[same..]));
    };
    label_fault(name, start, "NAME").map_or(Ok(()), Err)
}

/// Where the opening line's ending begins, and for how many bytes it is right; at the line's end if nowhere.
fn ending_begun(line: &[u8], start: usize) -> (usize, usize) {
    let starts = (start..line.len()).map(|at| (at, common(&line[at..], ENDING)));
    let best = starts.max_by_key(|(_, same)| *same).filter(|(_, same)| *same > 1);
    best.unwrap_or((line.len(), 0))
}

/// A line that has to be empty.
pub fn gap(line: &[u8]) -> Result<(), Fault> {
    if line.is_empty() {
        return Ok(());
    }
    let message = format!("expected an empty line, found {}", kind_found(line));
    Err(Fault::new(0..line.len(), message, "an empty line is missing before this one"))
}

/// The width that the tens ruler tells, of these.
pub fn tens(line: &[u8], widths: &[usize]) -> Result<usize, Fault> {
    if let Some(bits) = widths.iter().find(|bits| tens_ruler(**bits) == line) {
        return Ok(*bits);
    }
    let other = (1..100).step_by(10).any(|bits| tens_ruler(bits) == line);
    let rulers: Vec<_> = widths.iter().map(|bits| (*bits, tens_ruler(*bits))).collect();
    Err(ruler_fault(line, "the tens ruler", &rulers, other))
}

/// The width that the units ruler tells, of these.
pub fn units(line: &[u8], widths: &[usize]) -> Result<usize, Fault> {
    if let Some(bits) = widths.iter().find(|bits| units_ruler(**bits) == line) {
        return Ok(*bits);
    }
    let bits = line.len() / 2;
    let other = bits > 0 && bits < 100 && units_ruler(bits) == line;
    let rulers: Vec<_> = widths.iter().map(|bits| (*bits, units_ruler(*bits))).collect();
    let fault = ruler_fault(line, "the units ruler", &rulers, other && !ROW_BITS.contains(&bits));
    match widths {
        [due] if other && ROW_BITS.contains(&bits) => {
            let message =
                format!("this ruler has {bits} bits, the line above is the tens ruler of {due} bits");
            let tens = quoted(&tens_ruler(bits));
            Err(Fault::new(0..line.len(), message, format!("{bits} bits"))
                .note(format!("for {bits} bits the line above is {tens}")))
        }
        _ => Err(fault),
    }
}

/// Whether a line is a right ruler, of whichever kind.
fn is_ruler(line: &[u8]) -> bool {
    ROW_BITS.iter().any(|bits| tens_ruler(*bits) == line || units_ruler(*bits) == line)
}

/// What is wrong with a ruler: it is of another width, or differs at some byte.
fn ruler_fault(line: &[u8], what: &str, rulers: &[(usize, Vec<u8>)], other: bool) -> Fault {
    if other {
        let message = format!("a ruler of another width: {WIDTHS}");
        return Fault::new(0..line.len(), message, WIDTHS);
    }
    let ruler = rulers.iter().rev().map(|(_, ruler)| &ruler[..]);
    let nearest = ruler.max_by_key(|ruler| common(line, ruler)).unwrap_or_default();
    let at = common(line, nearest);
    if at < 2 || is_ruler(line) {
        let message = format!("expected {what}, found {}", kind_found(line));
        return Fault::new(0..line.len(), message, format!("expected {what}")).note(WIDTHS);
    }
    let message = format!("expected {what}, found {}", found(line, at));
    let label = nearest.get(at).map_or("expected the line's end".to_string(), |due| {
        format!("expected {}", if *due == b' ' { "a space".to_string() } else { quoted(&[*due]) })
    });
    let fault = Fault::new(at..at + 1, message, label);
    match rulers {
        [(bits, ruler)] => fault.note(format!("{what} of {bits} bits is {}", tick(&shown(ruler)))),
        _ => fault.note(WIDTHS),
    }
}

/// The width of a border, of these.
pub fn border_of(line: &[u8], widths: &[usize]) -> Result<usize, Fault> {
    if let Some(bits) = widths.iter().find(|bits| border(**bits) == line) {
        return Ok(*bits);
    }
    let due = border(widths.last().copied().unwrap_or_default());
    let at = common(line, &due);
    if at == 0 || matches!(line[0], b'|' | b':') {
        let message = format!("expected the border, found {}", kind_found(line));
        return Err(Fault::new(0..line.len(), message, "the border is missing before this line")
            .note("a border stands above and below each row"));
    }
    if at == line.len() || at == due.len() {
        let length = format!("{}, needs {}", counted(line.len() as u64, "character"), due.len());
        let spot = if at == line.len() { at..at + 1 } else { at..line.len() };
        return Err(Fault::new(spot, format!("this border has {length}"), length));
    }
    let message = format!("expected the border, found {} in it", found(line, at));
    Err(Fault::new(at..at + 1, message, format!("expected {}", quoted(&due[at..=at]))))
}

/// The line `where:`.
pub fn where_line(line: &[u8]) -> Result<(), Fault> {
    if line == b"where:" {
        return Ok(());
    }
    let message = format!("expected `where:`, found {}", kind_found(line));
    let fault = Fault::new(0..line.len(), message, "expected `where:`");
    match line {
        _ if line.eq_ignore_ascii_case(b"where:") => Err(fault.note("it is written in small letters")),
        [b'|' | b':' | b'+', ..] => {
            Err(fault.note("take the empty line above out: none stands between a diagram's rows"))
        }
        _ => Err(fault),
    }
}
