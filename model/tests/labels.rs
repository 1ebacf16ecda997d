//! Labels are names too [02, R-2]: which names are read, and which clash, in texts and in tables.

mod pages;

use pages::{counted, fixed, page, read_fixed, record, refusal, table};
use umarekoza_model::{check_table, find_field, write_table, Refusal};

/// `i == 0`, stored.
fn is_zero(index: u8) -> [u8; 8] {
    [0x20, 0x02, index, 0x01, 0, 0, 0, 0]
}

const NOT_GOOD: Result<(), Refusal> = Err(Refusal { number: 21, place: 0 });

#[test]
fn a_readable_label_is_read() {
    let read_by_label = page(&["SYN: 1 byte.", "FIN: 1 byte; (FIN == 0) || (SYN == 0)."]);
    let constraint = [&[0x31], &is_zero(1)[..], &is_zero(0)[..]].concat();
    let due = table(&[read_fixed(1, "SYN", "", &[]), fixed("FIN", "", &constraint)]);
    assert_eq!(write_table(read_by_label.as_bytes(), 4096), Ok(due));
    for reader in ["Sum: Count bytes.", "Sum: N bytes.", "Sum: N + Count bytes."] {
        assert_eq!(refusal(&["Count (N): 1 byte; Count == 1 || N == 2.", reader]), None, "{reader}");
    }
    assert_eq!(refusal(&["Count: 1 byte.", "Sum: 1 byte; present only when Count == 1."]), None);
    assert_eq!(refusal(&["A2345678: 1 byte; A2345678 == 1."]), None);
    assert_eq!(refusal(&["Bits: 1 byte; Bits == 1."]), None);
}

#[test]
fn other_labels_are_no_names_in_an_expression() {
    for label in ["On Loan", "a-b", "7a", "bits", "byte", "variable", "present", "A23456789"] {
        let line = format!("{label}: 1 byte; {label} == 1.");
        // `a-b` is a difference of names that no field has.
        let due = if label == "a-b" { 9 } else { 5 };
        assert_eq!(refusal(&[&line]), Some((due, 1)), "{label}");
        assert_eq!(refusal(&[&format!("{label} (N): 1 byte; N == 1.")]), None, "{label}");
    }
}

#[test]
fn a_readable_label_that_may_not_be_read_there() {
    assert_eq!(refusal(&["One: 1 byte; Two == 1.", "Two: 1 byte."]), Some((9, 1)));
    assert_eq!(refusal(&["One: 1 byte; present only when One == 1."]), Some((9, 1)));
    assert_eq!(refusal(&["One: 1 byte.", "Data: One bytes.", "Two: 1 byte; Data == 1."]), Some((9, 3)));
    assert_eq!(refusal(&["One: 1 byte.", "Data: variable.", "Two: 1 byte; Data == 1."]), Some((9, 3)));
    assert_eq!(refusal(&["One: 1 byte.", "Data: One bytes; Data == 1."]), Some((9, 2)));
    assert_eq!(refusal(&["One: 1 byte; one == 1."]), Some((9, 1)));
}

#[test]
fn no_name_is_that_of_two_fields() {
    let clash = |first: &str, second: &str| refusal(&["Zero: 1 byte.", first, second, second]);
    for (first, second) in [
        ("One: 1 byte.", "One: 1 byte."),
        ("One (N): 1 byte.", "Two (N): 1 byte."),
        ("One (N): 1 byte.", "N: 1 byte."),
        ("N: 1 byte.", "One (N): 1 byte."),
        ("N (N): 1 byte.", "One (N): 1 byte."),
        ("One (N): 1 byte.", "N (N): 1 byte."),
        ("One (N): 1 byte.", "N: variable."),
    ] {
        assert_eq!(clash(first, second), Some((8, 3)), "{first} {second}");
    }
    assert_eq!(refusal(&["N (N): 1 byte; N == 1.", "n (M): N bytes."]), None);
    assert_eq!(refusal(&["bits: 1 byte.", "bits: 1 byte."]), Some((8, 2)));
}

#[test]
fn of_several_clashes_the_first_line_is_refused() {
    for names in [
        ["A", "B", "C (B)", "D (A)"],
        ["A (x)", "B", "C (B)", "D (x)"],
        ["A", "B (y)", "C (y)", "A"],
        ["A", "B (y)", "C (y)", "D (A)"],
    ] {
        let lines = names.map(|names| format!("{names}: 1 byte."));
        assert_eq!(refusal(&lines.each_ref().map(|line| &line[..])), Some((8, 3)), "{names:?}");
    }
}

#[test]
fn tables() {
    let good = |fields: &[Vec<u8>]| check_table(&table(fields));
    let zero = &is_zero(0)[..];
    assert_eq!(good(&[fixed("FIN", "", zero)]), Ok(()));
    assert_eq!(good(&[fixed("F", "F", zero)]), Ok(()));
    assert_eq!(good(&[fixed("On Loan", "L", zero)]), Ok(()));
    for label in ["On Loan", "a-b", "7a", "bits", "A23456789"] {
        assert_eq!(good(&[fixed(label, "", zero)]), NOT_GOOD, "{label}");
        assert_eq!(good(&[fixed(label, "", &[])]), Ok(()), "{label}");
    }
    let rest = |label: &str, short: &str| {
        record(14, &[&[0, 0], &counted(label.as_bytes()), &counted(short.as_bytes()), &[0, 0, 0, 0]])
    };
    assert_eq!(good(&[fixed("One", "N", zero), rest("Data", "D")]), Ok(()));
    assert_eq!(good(&[rest("Data", ""), fixed("One", "", zero)]), NOT_GOOD);
    for (label, short) in [("N", ""), ("Two", "One"), ("One", ""), ("Two", "N"), ("N", "M")] {
        assert_eq!(good(&[fixed("One", "N", &[]), fixed(label, short, &[])]), NOT_GOOD, "{label} {short}");
        assert_eq!(good(&[fixed("One", "N", &[]), rest(label, short)]), NOT_GOOD, "{label} {short}");
    }
}

#[test]
fn a_field_has_either_name() {
    let two = table(&[fixed("One", "N", &[]), fixed("Two", "Two", &[])]);
    let found = |name: &str| find_field(&two, name.as_bytes());
    assert_eq!(["One", "N", "Two"].map(found), [Ok(0), Ok(0), Ok(1)]);
    assert_eq!(found("two"), Err(Refusal { number: 30, place: 0 }));
}
