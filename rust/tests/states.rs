//! What is kept of a text between its pieces stands where the C header says: each number and each part is looked for
//! by the header's own words, and holds what belongs there of the text.

use std::fs;
use std::ops::Range;
use std::path::Path;
use umarekoza::*;

const BLADE: &[u8] = include_bytes!("../../examples/pages/blade-report.txt");
/// The fields of the blade report: label, short name, label that may be read as a name, whether it is fixed.
const FIELDS: [(&str, &str, &str, u8); 7] = [
    ("Version", "V", "Version", 1),
    ("On Loan", "L", "", 1),
    ("Cells", "N", "Cells", 1),
    ("Blade", "", "Blade", 1),
    ("Borrower", "Bor", "Borrower", 1),
    ("Readings", "", "Readings", 0),
    ("Sum", "", "Sum", 1),
];
/// The row has four lines.
const TALL_ROW: &str = "A Tall Row is formatted as follows:\n\n 0\n 0 1 2 3 4 5 6 7\n+-+-+-+-+-+-+-+-+\n\
                        | Flag  | Long  |\n| ends  | lines |\n|       | are   |\n| here  | four  |\n";
const BORDER: &str = "+-+-+-+-+-+-+-+-+\n";

/// The place that the header gives in front of these words.
fn place(words: &str) -> String {
    let header = Path::new(env!("CARGO_MANIFEST_DIR")).join("../include/umarekoza.h");
    let header = fs::read_to_string(header).unwrap();
    let entries = header.lines().filter_map(|line| line.trim_start().split_once("  "));
    let told: Vec<_> = entries.filter(|(_, what)| what.trim_start().starts_with(words)).collect();
    let [(place, _)] = told[..] else { panic!("{words}: {told:?}") };
    place.to_string()
}

/// Where the bytes of the number of these words stand, the lesser first.
fn digits(words: &str) -> Vec<usize> {
    place(words).split('-').map(|place| place.parse().unwrap()).collect()
}

fn value(state: &[u8], digits: &[usize]) -> usize {
    digits.iter().rev().fold(0, |value, at| 256 * value + usize::from(state[*at]))
}

/// The number of these words, of one byte or of two.
fn number(state: &[u8], words: &str) -> usize {
    value(state, &digits(words))
}

/// Where the part of these words stands, `from START (LENGTH)`.
fn range(words: &str) -> Range<usize> {
    let place = place(words);
    let (start, length) = place.strip_prefix("from ").and_then(|part| part.split_once(" (")).unwrap();
    let start: usize = start.parse().unwrap();
    start..start + length.trim_end_matches(')').parse::<usize>().unwrap()
}

fn part<'a>(state: &'a [u8], words: &str) -> &'a [u8] {
    &state[range(words)]
}

/// What is kept of a text.
fn left(text: &[u8]) -> Vec<u8> {
    let mut state = vec![0xEE; STATE_BYTES];
    text_start(&mut state);
    text_piece(&mut state, text);
    state
}

/// Bytes with zeros behind them.
fn padded(bytes: &str, length: usize) -> Vec<u8> {
    let mut padded = bytes.as_bytes().to_vec();
    padded.resize(length, 0);
    padded
}

/// The lines of the blade report up to this one.
fn blade_lines(count: usize) -> Vec<u8> {
    BLADE.split_inclusive(|byte| *byte == b'\n').take(count).collect::<Vec<_>>().concat()
}

/// The first field line, then two that are wrong, then the start of another.
#[test]
fn numbers() {
    let text = [&blade_lines(17), &b"x\nx\nOn Loa"[..]].concat();
    let state = left(&text);
    let due = [
        ("bytes of the text so far", text.len()),
        ("bytes of the unfinished line", 6),
        ("whole lines", 19),
        ("the stage", 11),
        ("W", 16),
        ("length of NAME", "Blade Report".len()),
        ("lines of the open row", 0),
        ("cells", 7),
        ("field lines", 3),
        ("fields that are kept", 1),
        ("whether the rest field is one of them", 0),
        // Each cell has three bytes and its text.
        ("where the cells end", 7 * 3 + "VLCellsBladeBorrowerReadingsSum".len()),
        ("where the cell of the next field stands", 3 + "V".len()),
        // The record of Version has 32 bytes.
        ("where NAME and the records end", "Blade Report".len() + 32),
        ("number of the lowest refusal so far", 5),
        ("its place", 18),
    ];
    for (words, due) in due {
        assert_eq!(number(&state, words), due, "{words}");
    }
    assert_eq!(part(&state, "the unfinished line")[..6], *b"On Loa");
}

#[test]
fn numbers_of_a_rest_field_and_of_a_text_too_long() {
    let page = String::from_utf8_lossy(BLADE).replace("N bytes", "variable");
    assert_eq!(number(&left(page.as_bytes()), "whether the rest field is one of them"), 1);
    assert_eq!(number(&left(&[b'x'; TEXT_MOST]), "bytes of the text so far"), TEXT_MOST);
    assert_eq!(number(&left(&[b'x'; TEXT_MOST + 9]), "bytes of the text so far"), 16_385);
}

/// The stage behind each line of the blade report, and behind what is refused by 2 and by 3.
#[test]
fn stages() {
    let due = [0, 1, 2, 3, 4, 5, 6, 7, 6, 7, 6, 7, 6, 7, 8, 9, 10, 11, 11, 11, 11, 11, 11, 11];
    for (lines, due) in due.into_iter().enumerate() {
        let text = blade_lines(lines);
        assert_eq!(number(&left(&text), "the stage"), due, "{lines}");
        assert_eq!(number(&left(&[&text[..], b"\t"].concat()), "the stage"), 12, "{lines}");
    }
    assert_eq!(number(&left(b"A Blade Report\n"), "the stage"), 12);
}

#[test]
fn lines_of_the_open_row_and_its_cells() {
    let state = left(TALL_ROW.as_bytes());
    assert_eq!((number(&state, "lines of the open row"), number(&state, "the stage")), (4, 6));
    let lines = part(&state, "the lines of the open row").chunks(65);
    for (line, due) in lines.zip(TALL_ROW.lines().skip(5)) {
        assert_eq!(line[..due.len()], *due.as_bytes());
    }
    let state = left([TALL_ROW, BORDER].concat().as_bytes());
    assert_eq!((number(&state, "lines of the open row"), number(&state, "cells")), (0, 2));
    let due = b"\x00\x04\x0EFlag ends here\x00\x04\x13Long lines are four";
    assert_eq!(number(&state, "where the cells end"), due.len());
    assert_eq!(part(&state, "the cells")[..due.len()], *due);
}

#[test]
fn cells_of_the_blade_report() {
    let state = left(&blade_lines(16));
    let due = b"\x00\x02\x01V\x00\x01\x01L\x00\x05\x05Cells\x00\x08\x05Blade\x00\x10\x08Borrower\
                \x01\x10\x08Readings\x00\x10\x03Sum";
    assert_eq!(number(&state, "where the cells end"), due.len());
    assert_eq!(part(&state, "the cells")[..due.len()], *due);
}

#[test]
fn names_and_labels() {
    let state = left(BLADE);
    let (found_by, names) = part(&state, "the names of the fields").split_at(1_024);
    let (shorts, names) = names.split_at(128 * 8);
    let (readable, marks) = names.split_at(128 * 8);
    assert_eq!((found_by.len(), marks.len()), (1_024, 128));
    let labels = part(&state, "their labels");
    assert_eq!(labels.len(), 128 * 40);
    for (index, (label, short, name, mark)) in FIELDS.into_iter().enumerate() {
        assert_eq!(shorts[8 * index..][..8], padded(short, 8), "{label}");
        assert_eq!(readable[8 * index..][..8], padded(name, 8), "{label}");
        assert_eq!(marks[index], mark, "{label}");
        assert_eq!(labels[40 * index..][..40], padded(label, 40), "{label}");
    }
}

/// The records of the table have 22, 32, 24, 30, 21, 35, 28, 19 and 4 bytes; a number of readers is behind a record's
/// length and kind. On Loan and Cells are read once.
#[test]
fn name_records_and_readers() {
    let state = left(BLADE);
    let mut due = table_of(BLADE).unwrap()[10..211].to_vec();
    for record in [54, 78] {
        assert_eq!(due[record + 4 - 10..][..2], [1, 0]);
        due[record + 4 - 10..][..2].fill(0);
    }
    assert_eq!(due[..12], *b"Blade Report");
    assert_eq!(number(&state, "where NAME and the records end"), due.len());
    assert_eq!(part(&state, "NAME and the records")[..due.len()], due);
    let readers = part(&state, "how often each field is read");
    assert_eq!(readers[..14], [0, 0, 1, 0, 1, 0, 0, 0, 0, 0, 0, 0, 0, 0]);
}

/// A field that 13 others read twenty times each: 260 has the bytes 4 and 1.
#[test]
fn a_number_of_readers_over_a_byte() {
    let (letters, ten) = ('A'..='N', "A+A+A+A+A+A+A+A+A == A");
    let rows: String = letters.clone().map(|letter| format!("|{letter:>8}       |\n{BORDER}")).collect();
    let line = |letter| format!("{letter}: 1 byte; {ten}; present only when {ten}.\n");
    let lines: String = letters.skip(1).map(line).collect();
    let (head, opening) =
        ("A Count is formatted as follows:\n\n 0\n 0 1 2 3 4 5 6 7\n", "\nwhere:\n\nA: 1 byte.\n");
    let state = left([head, BORDER, &rows, opening, &lines].concat().as_bytes());
    let read =
        (number(&state, "fields that are kept"), number(&state, "number of the lowest refusal so far"));
    assert_eq!(read, (14, 0));
    assert_eq!(part(&state, "how often each field is read")[..4], [4, 1, 0, 0]);
}

/// Behind the unfinished line and the lines of the open row stand zeros, wherever a text is cut.
#[test]
fn nothing_is_left_of_lines_and_rows_that_have_ended() {
    let (line, row) = (range("the unfinished line"), range("the lines of the open row"));
    let (used, lines) = (digits("bytes of the unfinished line"), digits("lines of the open row"));
    let long = [blade_lines(16), vec![b'x'; 3_000], b"\nx\n".to_vec()].concat();
    let bad = [BLADE, b"\x7F\nx\ny"].concat();
    for text in [BLADE, TALL_ROW.as_bytes(), BORDER.as_bytes(), &long, &bad] {
        for step in [1, 7, 64, 1_000, text.len()] {
            let mut state = left(b"");
            for piece in text.chunks(step) {
                text_piece(&mut state, piece);
                let line = &state[line.clone()][value(&state, &used)..];
                let row = &state[row.clone()][65 * value(&state, &lines)..];
                assert!(line.iter().chain(row).all(|byte| *byte == 0), "pieces of {step}");
            }
        }
    }
}

#[test]
fn a_piece_of_no_bytes_changes_no_state() {
    let states = [0, 1, 0x7F, 0xFF].map(|byte| vec![byte; STATE_BYTES + 3]);
    for before in states.into_iter().chain([left(b""), left(&BLADE[..100]), left(BLADE), vec![9; 10]]) {
        let mut after = before.clone();
        text_piece(&mut after, b"");
        assert_eq!(after, before);
    }
}

/// No pieces leave a place beside no refusal. It stays as far as it can be one, until a field line is kept.
#[test]
fn a_place_beside_no_refusal() {
    let at = digits("its place");
    let number = digits("number of the lowest refusal so far");
    let with = |text: &[u8], refusal: u8, place: u16| {
        let mut state = left(text);
        state[number[0]] = refusal;
        at.iter().zip(place.to_le_bytes()).for_each(|(at, byte)| state[*at] = byte);
        state
    };
    let after = |mut state: Vec<u8>, piece: &[u8]| {
        text_piece(&mut state, piece);
        value(&state, &at)
    };
    let title = blade_lines(1);
    assert_eq!(after(with(b"", 0, 1), &title), 1);
    assert_eq!(after(with(b"", 0, 2), &title), 1);
    assert_eq!(after(with(b"", 0, u16::MAX), &title), 1);
    assert_eq!(after(with(&title, 0, u16::MAX), b"\n 0"), 2);
    assert_eq!(after(with(b"", 0, u16::MAX), &title[..9]), usize::from(u16::MAX));
    let head =
        BLADE.split_inclusive(|byte| *byte == b'\n').position(|line| line.starts_with(b"Version")).unwrap();
    let (head, field) = (blade_lines(head), blade_lines(head + 1));
    assert_eq!(after(with(&head[..head.len() - 1], 0, 3), b"\n"), 3);
    assert_eq!(after(with(&head, 0, 3), &field[head.len()..]), 0);
    // A number that is none has no place beside it.
    for refusal in [1, 11, u8::MAX] {
        assert_eq!(after(with(b"", refusal, 1), &title), 0);
    }
    // A line that gets too long, where no line counts any more.
    let mut lost = with(b"", 0, 200);
    lost[digits("the stage, which line is to come")[0]] = 12;
    assert_eq!(after(lost, &[b'x'; LINE_MOST + 76]), 1);
}
