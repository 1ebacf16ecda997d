//! Number 3: lines that are too long.

use crate::faults::{Fault, Mistake};
use crate::limits::LINE_MOST;
use crate::lines::Lines;
use crate::shown::{counted, spelled};

/// The lines that are too long, but for those that are told to be wrong in another way.
pub fn long_lines(lines: &Lines, told: &[Mistake]) -> Vec<Mistake> {
    let is_told = |number: usize| told.iter().any(|mistake| mistake.line == number);
    let long =
        lines.ended.iter().zip(1..).filter(|(line, number)| line.len() > LINE_MOST && !is_told(*number));
    long.map(|(line, number)| too_long(line.len()).at(3, number)).collect()
}

fn too_long(length: usize) -> Fault {
    let (has, most) = (spelled(length as u64), spelled(LINE_MOST as u64));
    let over = format!("{} too many", counted((length - LINE_MOST) as u64, "byte"));
    Fault::new(LINE_MOST..length, format!("the line has {has} bytes, at most {most}"), over)
        .note("a remark counts too: shorten it")
}
