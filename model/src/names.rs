//! Labels and short names [01, The lines of a text].

pub const LONGEST_LABEL: usize = 40;
pub const LONGEST_SHORT_NAME: usize = 8;
const RESERVED: [&[u8]; 6] = [b"bit", b"bits", b"byte", b"bytes", b"variable", b"present"];

/// 1 to 40 letters, digits, spaces and hyphens, a letter or digit at each end, no two spaces together.
pub fn is_label(text: &[u8]) -> bool {
    let (Some(first), Some(last)) = (text.first(), text.last()) else { return false };
    text.len() <= LONGEST_LABEL
        && first.is_ascii_alphanumeric()
        && last.is_ascii_alphanumeric()
        && text.iter().all(|byte| byte.is_ascii_alphanumeric() || matches!(byte, b' ' | b'-'))
        && !text.windows(2).any(|pair| pair == b"  ")
}

/// A letter and up to 7 letters or digits, and no reserved word.
pub fn is_short_name(text: &[u8]) -> bool {
    text.len() <= LONGEST_SHORT_NAME
        && text.first().is_some_and(u8::is_ascii_alphabetic)
        && text.iter().all(u8::is_ascii_alphanumeric)
        && !RESERVED.contains(&text)
}

#[cfg(test)]
mod tests {
    use super::*;

    #[test]
    fn labels() {
        assert!(["A", "7", "On Loan", "a--b", "a -b"].into_iter().all(|label| is_label(label.as_bytes())));
        assert!(is_label(&[b'x'; 40]) && !is_label(&[b'x'; 41]));
        assert!(!is_label(b"") && !is_label(b"a  b") && !is_label(b" a") && !is_label(b"a-"));
        assert!(is_label(b"variable") && !is_label(b"a_b"));
    }

    #[test]
    fn short_names() {
        assert!(is_short_name(b"A") && is_short_name(b"a1234567") && is_short_name(b"Bit"));
        assert!(!is_short_name(b"") && !is_short_name(b"1a") && !is_short_name(b"a12345678"));
        assert!(!is_short_name(b"bytes") && !is_short_name(b"present") && !is_short_name(b"a-b"));
    }
}
