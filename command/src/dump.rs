//! Bytes as `xxd` prints them. A line has three columns: the offset with `: `, groups of hexadecimal digits with a
//! space between them, and behind two spaces or more the bytes as text, a dot for each that is no printable one.

use crate::hex::{group, Wrong};

/// Whether this is a dump: its first line begins with an offset of 8 digits or more and `: `.
pub fn is_dump(written: &[u8]) -> bool {
    let line = written.split(|byte| *byte == b'\n').next().unwrap_or_default();
    offset(line).is_some()
}

/// The bytes, or the first thing that is wrong.
pub fn bytes_of(written: &[u8]) -> Result<Vec<u8>, Wrong> {
    let mut bytes = Vec::new();
    let mut start = None;
    for (line, text) in (1..).zip(written.strip_suffix(b"\n").unwrap_or(written).split(|byte| *byte == b'\n'))
    {
        let text = text.strip_suffix(b"\r").unwrap_or(text);
        let wrong = |(at, what): (usize, String)| Wrong { line, column: at + 1, what };
        let (place, digits) = offset(text)
            .ok_or_else(|| wrong((0, "a line of a dump begins with its offset and `: `".to_string())))?;
        let due = *start.get_or_insert(place) + bytes.len() as u64;
        if place != due {
            return Err(wrong((
                0,
                format!("the offset is {place:x}, and {due:x} is due: lines are missing"),
            )));
        }
        row(text, digits + 2, &mut bytes).map_err(wrong)?;
    }
    Ok(bytes)
}

/// The offset that a line begins with, and how many digits it has.
fn offset(line: &[u8]) -> Option<(u64, usize)> {
    let digits = line.iter().take_while(|byte| byte.is_ascii_hexdigit()).count();
    if !(8..=16).contains(&digits) || !line[digits..].starts_with(b": ") {
        return None;
    }
    let number = std::str::from_utf8(&line[..digits]).ok()?;
    u64::from_str_radix(number, 16).ok().map(|offset| (offset, digits))
}

/// Takes the bytes of a line behind its offset, and holds its text against them.
fn row(line: &[u8], mut at: usize, bytes: &mut Vec<u8>) -> Result<(), (usize, String)> {
    let before = bytes.len();
    loop {
        at += group(&line[at..], bytes).map_err(|(ahead, what)| (at + ahead, what))?;
        match &line[at..] {
            [b' ', b' ', ..] => break,
            [b' ', _, ..] => at += 1,
            _ => return Err((at, "two spaces and the bytes as text are due behind the digits".to_string())),
        }
    }
    let text: Vec<u8> = bytes[before..].iter().map(|byte| printed(*byte)).collect();
    let found = line.len() - line[at..].len().min(text.len());
    if line[found..] != text || line[at..found].iter().any(|byte| *byte != b' ') {
        return Err((
            at,
            "the text does not show these bytes: a dump as plain `xxd` prints it is due".to_string(),
        ));
    }
    Ok(())
}

fn printed(byte: u8) -> u8 {
    match byte {
        b' '..=b'~' => byte,
        _ => b'.',
    }
}

#[cfg(test)]
mod tests {
    use super::{bytes_of, is_dump};

    #[test]
    fn dumps() {
        let dump = b"00000000: 6207 012c aabb 0009                      b..,....\n";
        assert!(is_dump(dump));
        assert_eq!(bytes_of(dump).unwrap(), [0x62, 7, 1, 0x2C, 0xAA, 0xBB, 0, 9]);
        let rows = b"00000010: 41 42 20 20  AB  \r\n00000014: 43           C\r\n";
        assert_eq!(bytes_of(rows).unwrap(), *b"AB  C");
        assert!(!is_dump(b"62070102:aabb"));
        assert!(!is_dump(b"62:07"));
    }

    #[test]
    fn wrong_dumps() {
        let cases: [(&[u8], &str); 6] = [
            (b"00000000: 6207  b.\n*\n", "line 2, column 1: a line of a dump begins with its offset and `: `"),
            (
                b"00000000: 6207  b.\n00000004: 01  .",
                "line 2, column 1: the offset is 4, and 2 is due: lines are missing",
            ),
            (b"00000000: 6207", "line 1, column 15: two spaces and the bytes as text are due behind the digits"),
            (b"00000000: 620  b.", "line 1, column 11: an odd number of digits, 3: they come in pairs"),
            (b"00000000: 62g7  b.", "line 1, column 13: `g` is no hexadecimal digit"),
            (
                b"00000000: 0762                b.",
                "line 1, column 15: the text does not show these bytes: a dump as plain `xxd` prints it is due",
            ),
        ];
        for (written, wrong) in cases {
            assert_eq!(bytes_of(written).unwrap_err().to_string(), wrong);
        }
    }
}
