//! Numbers 31 and 34: which fields still read what is to be cut out, and which rule the fields would break.

use crate::packets::{blade_with, table};
use umarekoza_hints::{cut_hint, put_hint, EditHint, Verdict};

fn blade() -> Vec<u8> {
    blade_with(&[2, 2])
}

fn cut(table: &[u8], first: usize, last: usize, number: u32, place: u32) -> EditHint {
    cut_hint(table, first, last, Verdict { number, place })
}

/// What is said of these fields put into the blade report before its `Readings`.
fn put(fields: &[(u8, &str, &str, &[u8])]) -> EditHint {
    let records = table(fields);
    put_records(&records[14..records.len() - 4])
}

fn put_records(records: &[u8]) -> EditHint {
    let hint = put_hint(&blade(), 5, records, Verdict { number: 34, place: 0 });
    assert_eq!((hint.number, hint.field, hint.label.as_str()), (34, 0, ""));
    hint
}

#[test]
fn still_read_31() {
    let hint = cut(&blade(), 2, 2, 31, 6);
    assert_eq!((hint.number, hint.field, hint.label.as_str()), (31, 6, "Readings"));
    let message = "`Readings` reads `Cells` (N), which is to be cut out: its width is `N bytes`";
    assert_eq!(hint.message, message);
    assert_eq!(hint.notes, ["cut out `Readings` too, or write it on the page without `Cells` (N)"]);
    let hint = cut(&blade(), 1, 3, 31, 5);
    let message = "`Borrower` reads `On Loan` (L), which is to be cut out: its condition is `L == 1`";
    assert_eq!((hint.label.as_str(), hint.message.as_str()), ("Borrower", message));
    assert_eq!(hint.notes[0], "field 6, `Readings`, reads `Cells` (N) too: its width is `N bytes`");
    assert_eq!(hint.notes.len(), 2);
}

/// A field without a short name, read by its label; and a field that reads itself, which does not count.
#[test]
fn read_by_its_label() {
    let fields: [(u8, &str, &str, &[u8]); 3] = [
        (12, "K", "", &[16, 0, 8, 0, 0x20, 2, 0, 1, 7, 0, 0, 0, 0, 0]),
        (12, "L", "", &[16, 0, 5, 0, 0x20, 2, 0, 2, 1, 0, 0]),
        (12, "M", "", &[16, 0, 0, 0, 0, 0]),
    ];
    let hint = cut(&table(&fields), 0, 0, 31, 2);
    assert_eq!(hint.message, "`L` reads `K`, which is to be cut out: its constraint is `K == L`");
}

/// Where the verdict is not what is found here, only the meaning of its number is told.
#[test]
fn no_hint_argues_with_a_verdict() {
    let meaning = "this field is left, and reads one that is to be cut out";
    for (first, last, place) in [(2, 2, 5), (2, 2, 7), (3, 3, 4), (4, 4, 5), (0, 6, 1)] {
        let hint = cut(&blade(), first, last, 31, place);
        assert_eq!((hint.message.as_str(), hint.field), (meaning, place as usize));
    }
    let untold = "which rule that is cannot be told here";
    for hint in [cut(&blade(), 4, 4, 34, 0), put(&[(12, "Q", "", &[16, 0, 0, 0, 0, 0])])] {
        assert_eq!(hint.message, "the fields that there would be make no good table");
        assert_eq!(hint.notes, [untold]);
    }
    assert_eq!(cut(&blade(), 9, 4, 30, 0).message, "no field has this name or index");
    assert_eq!(cut(b"no table", 0, 0, 34, 0).number, 34);
    assert_eq!(put_hint(b"", 0, b"", Verdict { number: 11, place: 0 }).message, "the output is too short");
}

#[test]
fn rows_34() {
    let rows = "fixed fields fill whole rows: 8 bits more are to come, or these 8 to go";
    let hint = cut(&blade(), 3, 3, 34, 0);
    let message = "`Borrower` would cross the end of its row: it has 16 bits, and 8 are left";
    assert_eq!(hint.message, message);
    assert_eq!(hint.notes, ["in that row: `Version`, `On Loan` and `Cells`, 8 of 16 bits", rows]);
    let hint = put(&[(12, "Q", "", &[8, 0, 0, 0, 0, 0])]);
    assert_eq!(hint.message, "the row before `Readings` would have 8 of its 16 bits");
    assert_eq!(hint.notes, ["in that row: `Q`, 8 of 16 bits", rows]);
    let hint = put(&[(12, "Q", "", &[32, 0, 0, 0, 0, 0])]);
    assert_eq!(hint.message, "`Q` would cross the end of its row: it has 32 bits, and 16 are left");
    assert_eq!(hint.notes, ["a row has 16 bits, and no field is wider"]);
    let records = table(&[(12, "Q", "", &[1, 0, 0, 0, 0, 0])]);
    let last = put_hint(&blade(), 7, &records[14..31], Verdict { number: 34, place: 0 });
    assert_eq!(last.message, "the row at the end would have 1 of its 16 bits");
    assert_eq!(cut(&blade(), 0, 6, 34, 0).message, "no field would be left");
}

#[test]
fn names_and_the_rest_field_34() {
    let hint = put(&[(12, "Q", "Sum", &[16, 0, 0, 0, 0, 0])]);
    assert_eq!(hint.message, "two fields would have the name `Sum`");
    assert_eq!(hint.notes[0], "they would be field 6, `Q`, and field 8, `Sum`");
    let hint = put(&[(14, "Q", "", &[0, 0, 0, 0])]);
    let message = "`Readings` would stand behind `Q`, which takes the rest: its width is measured";
    assert_eq!(hint.message, message);
    let hint = put(&[(14, "Q", "", &[0, 0, 0, 0]), (14, "R", "", &[0, 0, 0, 0])]);
    assert_eq!(hint.message, "`R` would stand behind `Q`, which takes the rest: it takes the rest too");
    let present: &[u8] = &[16, 0, 0, 0, 8, 0, 0x20, 2, 1, 1, 1, 0, 0, 0];
    let hint = put(&[(14, "Q", "", &[0, 0, 0, 0]), (12, "R", "", present)]);
    assert_eq!(hint.message, "`R` would stand behind `Q`, which takes the rest: it has a condition");
}

/// References in records are by the new numbering: `Q` is field 6 of the blade report with it, from 1.
#[test]
fn references_34() {
    let reading = |index: u8| put(&[(13, "Q", "", &[8, 0, 2, 0, 2, index, 0, 0, 0, 0])]).message;
    assert_eq!(reading(5), "the width of `Q` would read field 6, `Q`, which is not an earlier one");
    assert_eq!(reading(6), "the width of `Q` would read field 7, `Readings`, which is not an earlier one");
    assert_eq!(reading(9), "the width of `Q` would read field 10, which is not there");
    assert_eq!(
        put(&[(13, "Q", "", &[8, 0, 2, 0, 2, 2, 0, 0, 0, 0])]).notes,
        ["which rule that is cannot be told here"]
    );
    let own: &[u8] = &[16, 0, 8, 0, 0x20, 2, 5, 1, 1, 0, 0, 0, 0, 0];
    assert_eq!(
        put(&[(12, "Q R", "", own)]).message,
        "the constraint of `Q R` would read field 6, `Q R`, which has no name to be read by"
    );
    let long: &[u8] = &[8, 0, 2, 0, 2, 2, 0, 0, 0, 0];
    let reader: &[u8] = &[8, 0, 2, 0, 2, 5, 0, 0, 0, 0];
    let hint = put(&[(13, "Q", "", long), (13, "R", "", reader)]);
    assert_eq!(hint.message, "the width of `R` would read field 6, `Q`, which is not fixed");
}

#[test]
fn fields_that_are_wrong_by_themselves_34() {
    let cases: [(u8, &str, &str, &[u8], &str); 8] = [
        (12, "Q_", "", &[16, 0, 0, 0, 0, 0], "its label `Q_` is no label: `_` is not allowed in a label"),
        (12, "Q", "bit", &[16, 0, 0, 0, 0, 0], "`bit` is no short name"),
        (12, "Q", "", &[0, 0, 0, 0, 0, 0], "it has 0 bits, not 1 to 32"),
        (13, "Q", "", &[2, 0, 2, 0, 2, 2, 0, 0, 0, 0], "its unit is 2, not 1 or 8"),
        (
            13,
            "Q",
            "",
            &[8, 0, 5, 0, 1, 9, 0, 0, 0, 0, 0, 0, 0],
            "its width is a single number and it is not fixed",
        ),
        (12, "Q", "", &[16, 0, 2, 0, 2, 2, 0, 0], "its constraint is a number, not yes or no"),
        (13, "Q", "", &[8, 0, 5, 0, 0x20, 2, 2, 2, 2, 0, 0, 0, 0], "its width is yes or no, not a number"),
        (12, "Q", "", &[16, 0, 5, 0, 0x30, 2, 2, 2, 2, 0, 0], "its constraint mixes numbers with yes and no"),
    ];
    for (kind, label, short, rest, why) in cases {
        let hint = put(&[(kind, label, short, rest)]);
        assert_eq!(hint.message, format!("field 6, `{label}`, is wrong by itself: {why}"));
    }
}

#[test]
fn bytes_that_are_no_records_34() {
    let whole = table(&[(12, "Q", "", &[16, 0, 0, 0, 0, 0])]);
    let record = &whole[14..whole.len() - 4];
    let length = record.len();
    let changed = |at: usize, byte: u8| {
        let mut other = record.to_vec();
        other[at] = byte;
        other
    };
    let behind = [record, &[9, 0, 12][..]].concat();
    let cases = [
        (
            record[..length - 1].to_vec(),
            0,
            format!("it has {length} bytes by its length, and {} are there", length - 1),
        ),
        (changed(2, 2), 0, "its kind is 2, that of an old table".to_string()),
        (changed(2, 5), 0, "its kind is 5, where 12, 13 and 14 are fields".to_string()),
        (
            changed(2, 13),
            0,
            "its parts do not fill it, or an expression in it has not the stored form".to_string(),
        ),
        (behind, length, "it has 9 bytes by its length, and 3 are there".to_string()),
    ];
    for (records, at, why) in cases {
        let hint = put_records(&records);
        assert_eq!(hint.message, "the bytes to be put in are not whole records of fields");
        assert_eq!(hint.notes, [format!("the record at byte {at} is none: {why}")]);
    }
}

/// Several rules that are broken are all told.
#[test]
fn several_rules_34() {
    let hint = put(&[(12, "Sum", "", &[9, 0, 0, 0, 0, 0])]);
    assert_eq!(hint.message, "two fields would have the name `Sum`");
    assert_eq!(hint.notes[2], "also, the row before `Readings` would have 9 of its 16 bits");
    assert_eq!(hint.notes.len(), 3);
}
