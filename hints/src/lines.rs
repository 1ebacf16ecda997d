//! The lines of a page.

/// Lines without their LFs, and what stands behind the last LF.
pub struct Lines<'a> {
    pub ended: Vec<&'a [u8]>,
    pub tail: &'a [u8],
}

pub fn split(text: &[u8]) -> Lines<'_> {
    let mut ended: Vec<&[u8]> = text.split(|byte| *byte == b'\n').collect();
    let tail = ended.pop().unwrap_or_default();
    Lines { ended, tail }
}

/// The line of this number from 1, ended or not; empty if there is none.
pub fn line_of(text: &[u8], number: usize) -> &[u8] {
    text.split(|byte| *byte == b'\n').nth(number.saturating_sub(1)).unwrap_or_default()
}
