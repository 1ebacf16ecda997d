//! The length of a line [02, R-9], and texts that come in pieces.

use umarekoza_model::{write_pieces, write_table, write_table_by, Limits, Refusal};

const FRAME: [&str; 10] = [
    "A Tag is formatted as follows:",
    "",
    " 0",
    " 0 1 2 3 4 5 6 7",
    "+-+-+-+-+-+-+-+-+",
    "|       K       |",
    "+-+-+-+-+-+-+-+-+",
    "",
    "where:",
    "",
];
const KIND: &str = "Kind (K): 1 byte; K == 7.";

/// The text with these field lines.
fn page(fields: &[&str]) -> Vec<String> {
    FRAME.into_iter().chain(fields.iter().copied()).map(str::to_string).collect()
}

/// A line made so long by what is put behind it.
fn long(line: &str, bytes: usize) -> String {
    let more = bytes - line.len() - 1;
    format!("{line} {}", "x".repeat(more))
}

fn joined(lines: &[String]) -> Vec<u8> {
    lines.iter().flat_map(|line| [line.as_bytes(), b"\n"].concat()).collect()
}

/// The number and place by which a text is refused; none if it is accepted.
fn refused(text: &[u8]) -> Option<(u32, u32)> {
    write_table(text, 4096).err().map(|Refusal { number, place }| (number, place))
}

#[test]
fn a_line_has_1024_bytes_at_most_without_its_lf() {
    for (bytes, due) in [(1_023, None), (1_024, None), (1_025, Some((3, 11))), (1_026, Some((3, 11)))] {
        assert_eq!(refused(&joined(&page(&[&long(KIND, bytes)]))), due, "{bytes}");
    }
    let any_length = Limits { line_bytes: usize::MAX, ..Limits::CURRENT };
    let text = joined(&page(&[&long(KIND, 1_025)]));
    assert_eq!(write_table_by(any_length, &text, 4096), write_table(&joined(&page(&[KIND])), 4096));
}

#[test]
fn every_line_is_held_to_it() {
    for at in 0..11 {
        let mut lines = page(&[KIND]);
        lines[at] = long(&lines[at], 1_025);
        assert_eq!(refused(&joined(&lines)), Some((3, at as u32 + 1)));
    }
}

#[test]
fn the_first_3_wins_and_1_and_2_win_over_it() {
    let mut lines = page(&[&long(KIND, 1_025)]);
    lines[3] = " 0 1 2 3 4 5 6 8".to_string();
    assert_eq!(refused(&joined(&lines)), Some((3, 4)));
    let lines = page(&["Kind (K): 1 byte", &long(KIND, 1_025), "Kind (K): 1 byte"]);
    assert_eq!(refused(&joined(&lines)), Some((3, 12)));
    let lines = page(&[&long("Kind: 01 byte", 1_025), &long(KIND, 2_000)]);
    assert_eq!(refused(&joined(&lines)), Some((3, 11)));
    let lines = page(&[&format!("{}\t", long(KIND, 1_025))]);
    assert_eq!(refused(&joined(&lines)), Some((2, 0)));
    assert_eq!(refused(&joined(&page(&[&long(KIND, 16_384)]))), Some((1, 0)));
    // 129 field lines are a 4, which a 3 wins over.
    let crowded = [KIND; 129];
    assert_eq!(refused(&joined(&page(&crowded))), Some((4, 0)));
    assert_eq!(refused(&joined(&page(&[&crowded[..], &[&long(KIND, 1_025)]].concat()))), Some((3, 140)));
}

#[test]
fn bytes_behind_the_last_lf_are_wrong_at_any_length() {
    for bytes in [30, 1_024, 1_025, 5_000] {
        let mut text = joined(&page(&[KIND]));
        text.extend(long(KIND, bytes).bytes());
        assert_eq!(refused(&text), Some((3, 12)), "{bytes}");
    }
}

#[test]
fn a_text_in_pieces_is_the_joined_text() {
    let text = joined(&page(&[&long(KIND, 1_025)]));
    let bytes: Vec<&[u8]> = text.chunks(1).collect();
    assert_eq!(write_pieces(&bytes, 4096), Err(Refusal { number: 3, place: 11 }));
    assert_eq!(write_pieces(&[], 4096), Err(Refusal { number: 3, place: 1 }));
    assert_eq!(write_pieces(&[b"", b""], 4096), Err(Refusal { number: 3, place: 1 }));
    let text = joined(&page(&[KIND]));
    for cut in 0..=text.len() {
        let pieces = [b"", &text[..cut], b"", &text[cut..], b""];
        assert_eq!(write_pieces(&pieces, 4096), write_table(&text, 4096));
    }
}
