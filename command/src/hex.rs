//! Bytes written in hexadecimal: groups of digit pairs between blanks, each with `0x` before it or not, and `:` or `,`
//! between bytes.

use std::fmt;

/// What is wrong, and where: line and column from 1.
#[derive(Debug, PartialEq, Eq)]
pub struct Wrong {
    pub line: usize,
    pub column: usize,
    pub what: String,
}

impl fmt::Display for Wrong {
    fn fmt(&self, to: &mut fmt::Formatter<'_>) -> fmt::Result {
        write!(to, "line {}, column {}: {}", self.line, self.column, self.what)
    }
}

impl Wrong {
    /// The same, where the line is known already.
    pub fn in_line(&self) -> String {
        format!("column {}: {}", self.column, self.what)
    }
}

/// The bytes, or the first thing that is wrong.
pub fn bytes_of(written: &[u8]) -> Result<Vec<u8>, Wrong> {
    let mut bytes = Vec::new();
    // Where the last separator stands that no byte has followed yet.
    let mut open = None;
    for (line, text) in (1..).zip(written.split(|byte| *byte == b'\n')) {
        let mut at = 0;
        while let Some(byte) = text.get(at) {
            let wrong = |what: String| Wrong { line, column: at + 1, what };
            match byte {
                b' ' | b'\t' | b'\r' => at += 1,
                b':' | b',' if bytes.is_empty() || open.is_some() => {
                    return Err(wrong(format!("{} stands between bytes only", shown(*byte))));
                }
                b':' | b',' => {
                    open = Some(wrong(format!("no byte follows {}", shown(*byte))));
                    at += 1;
                }
                _ => {
                    at += group(&text[at..], &mut bytes).map_err(|(ahead, what)| {
                        let column = at + ahead + 1;
                        Wrong { line, column, what }
                    })?;
                    open = None;
                }
            }
        }
    }
    open.map_or(Ok(bytes), Err)
}

/// Takes a group of pairs of digits and answers its length; or what is wrong, and how far into it.
pub fn group(text: &[u8], bytes: &mut Vec<u8>) -> Result<usize, (usize, String)> {
    let prefix = if text.starts_with(b"0x") || text.starts_with(b"0X") { 2 } else { 0 };
    let digits: Vec<u32> = text[prefix..].iter().map_while(|byte| char::from(*byte).to_digit(16)).collect();
    let length = prefix + digits.len();
    match text.get(length) {
        Some(byte) if digits.is_empty() || !b" \t\r:,".contains(byte) => {
            Err((length, format!("{} is no hexadecimal digit", shown(*byte))))
        }
        None if digits.is_empty() => Err((0, "hexadecimal digits are due".to_string())),
        _ if digits.len() % 2 == 1 => {
            Err((0, format!("an odd number of digits, {}: they come in pairs", digits.len())))
        }
        _ => {
            bytes.extend(digits.chunks_exact(2).map(|pair| (16 * pair[0] + pair[1]) as u8));
            Ok(length)
        }
    }
}

/// A byte as it can be shown.
pub fn shown(byte: u8) -> String {
    match byte {
        b'!'..=b'~' => format!("`{}`", char::from(byte)),
        _ => format!("the byte {byte:02X}"),
    }
}

/// Bytes in hexadecimal.
pub fn written(bytes: &[u8]) -> String {
    bytes.iter().map(|byte| format!("{byte:02x}")).collect()
}

#[cfg(test)]
mod tests {
    use super::bytes_of;

    const M1: [u8; 8] = [0x62, 7, 1, 0x2C, 0xAA, 0xBB, 0, 9];

    #[test]
    fn groups_and_separators() {
        for right in [
            &b"62 07\r\n\t012cAABB 0009\n"[..],
            b"6207012caabb0009",
            b"62:07:01:2C:AA:BB:00:09",
            b"0x62, 0x07, 0X01, 0x2c,\n0xaa, 0xBB, 0x00, 0x09\n",
            b"0x6207012c : aabb,0009",
        ] {
            assert_eq!(bytes_of(right).unwrap(), M1);
        }
        assert!(bytes_of(b"").unwrap().is_empty());
        assert!(bytes_of(b" \n").unwrap().is_empty());
    }

    #[test]
    fn wrong_ones() {
        let cases: [(&[u8], &str); 12] = [
            (b"62 7 1", "line 1, column 4: an odd number of digits, 1: they come in pairs"),
            (b"620", "line 1, column 1: an odd number of digits, 3: they come in pairs"),
            (b"62 0g", "line 1, column 5: `g` is no hexadecimal digit"),
            (b"62\n0\xFF", "line 2, column 2: the byte FF is no hexadecimal digit"),
            (b"62 0x", "line 1, column 4: hexadecimal digits are due"),
            (b"62 0x 07", "line 1, column 6: the byte 20 is no hexadecimal digit"),
            (b"620x07", "line 1, column 4: `x` is no hexadecimal digit"),
            (b":62", "line 1, column 1: `:` stands between bytes only"),
            (b"62::07", "line 1, column 4: `:` stands between bytes only"),
            (b"62, ,07", "line 1, column 5: `,` stands between bytes only"),
            (b"62,\n", "line 1, column 3: no byte follows `,`"),
            (b"62-07", "line 1, column 3: `-` is no hexadecimal digit"),
        ];
        for (written, wrong) in cases {
            assert_eq!(bytes_of(written).unwrap_err().to_string(), wrong);
        }
    }
}
