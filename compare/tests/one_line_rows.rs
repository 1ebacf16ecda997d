//! A text without rows of several lines keeps its answer [02, R-1]: the library answers it as the model does by
//! document 01's rule that a row is one line, and all else as it is in force.

use umarekoza::{write_table, TABLE_MOST};
use umarekoza_model::generate::{text, Rng};
use umarekoza_model::{write_table_by, Limits, Refusal};

const TEXTS: usize = 20_000;

/// The columns of the bars of a line that begins and ends with one.
fn bars(line: &[u8]) -> Option<(usize, Vec<usize>)> {
    let is_row = line.len() > 1 && line.starts_with(b"|") && line.ends_with(b"|");
    is_row.then(|| (line.len(), (0..line.len()).filter(|column| line[*column] == b'|').collect()))
}

/// Whether two lines with the same bars stand one above the other.
fn has_lines_with_same_bars(text: &[u8]) -> bool {
    let lines: Vec<&[u8]> = text.split(|byte| *byte == b'\n').collect();
    lines.windows(2).any(|two| bars(two[0]).is_some_and(|above| bars(two[1]) == Some(above)))
}

#[test]
fn texts_of_one_line_to_a_row_keep_their_answers() {
    let (mut rng, mut kept) = (Rng::new(1), 0);
    let mut out = vec![0; TABLE_MOST];
    for _ in 0..TEXTS {
        let text = text(&mut rng);
        let before = write_table_by(Limits { row_lines: 1, ..Limits::CURRENT }, &text, TABLE_MOST);
        if matches!(before, Err(Refusal { number: 3, .. })) && has_lines_with_same_bars(&text) {
            continue;
        }
        kept += 1;
        let now = write_table(&text, &mut out).map(|length| out[..length].to_vec());
        let same = match (&before, &now) {
            (Ok(before), Ok(now)) => before == now,
            (Err(before), Err(now)) => (before.number, before.place) == (now.number, now.place),
            _ => false,
        };
        assert!(same, "{now:?}, before {before:?}\n{}", String::from_utf8_lossy(&text));
    }
    assert!(kept > TEXTS / 2, "{kept}");
}
