//! Each refusal that the command can meet: its line on standard output, what stays as it was, and words of what
//! explains it. `hints_*` have the explanations whole.

mod common;

use common::*;

/// The blade report's page with changes, refused by `table` and by `read`.
fn page_refused(test: &str, changes: &[(&str, &str)], line: &str, words: &[&str]) {
    let mut page = BLADE.to_string();
    for (old, new) in changes {
        assert!(page.contains(old));
        page = page.replace(old, new);
    }
    let place = Place::new(test);
    place.put("page", &page);
    place.put("table", "what was there");
    place.run(&["table", "page", "-o", "table"]).refused(line, words);
    place.run(&["read", "page", "m1"]).refused(line, words);
    assert_eq!(place.get("table"), b"what was there");
    assert_eq!(place.names(), ["m1", "page", "table"]);
}

#[test]
fn long_page_1() {
    let remark = format!("Sum: 2 bytes. {}", "x".repeat(umarekoza::TEXT_MOST));
    page_refused("1", &[("Sum: 2 bytes.", &remark)], "refused 1 at 0", &[" --> page\n", "at most 16,384"]);
}

#[test]
fn wrong_byte_2() {
    page_refused("2", &[("Sum: 2", "Sum:\t2")], "refused 2 at 0", &[" --> page:23:5\n", "tab"]);
}

#[test]
fn wrong_line_3() {
    let words = [" --> page:8:33\n", "8 | |          Borrower            |\n"];
    page_refused("3", &[("|           Borrower", "|          Borrower")], "refused 3 at 8", &words);
    page_refused("3-end", &[("Sum: 2 bytes.\n", "Sum: 2 bytes.")], "refused 3 at 23", &["no line end"]);
    let lines = BLADE.split_once("where:").unwrap().1;
    page_refused(
        "3-cut",
        &[(lines, "\n")],
        "refused 3 at 16",
        &[" --> page:16:1\n", "the page ends too early"],
    );
}

#[test]
fn too_many_fields_4() {
    let lines = format!("Sum: 2 bytes.\n{}", "x\n".repeat(122));
    page_refused("4", &[("Sum: 2 bytes.\n", &lines)], "refused 4 at 0", &["129 field lines, at most 128"]);
}

#[test]
fn form_of_a_line_5() {
    page_refused(
        "5",
        &[("Blade: 1 byte.", "Blade: 1 byte")],
        "refused 5 at 20",
        &[" --> page:20:14\n", "20 | Blade: 1 byte\n"],
    );
}

#[test]
fn large_expression_6() {
    let sum = format!("N <= 20{}", " + 1".repeat(12));
    page_refused(
        "6",
        &[("N <= 20", &sum)],
        "refused 6 at 19",
        &[" --> page:19:20\n", "depth 14, at most 12", "a number or name has depth 1"],
    );
}

#[test]
fn cell_and_line_7() {
    page_refused(
        "7",
        &[("Cells (N): 5", "Cells (N): 6")],
        "refused 7 at 19",
        &[" --> page:19:12\n", "19 | Cells (N): 6 bits; N <= 20.\n"],
    );
    page_refused(
        "7-cell",
        &[("Sum: 2 bytes.\n", "")],
        "refused 7 at 23",
        &[" --> page:23:1\n", "no field line for cell 7"],
    );
}

#[test]
fn repeated_label_8() {
    let changes = [("Sum: 2 bytes.", "Blade: 2 bytes."), ("      Sum      ", "     Blade     ")];
    page_refused("8", &changes, "refused 8 at 23", &[" --> page:23:1\n", "23 | Blade: 2 bytes.\n"]);
}

#[test]
fn unknown_name_9() {
    page_refused(
        "9",
        &[("Readings: N", "Readings: X")],
        "refused 9 at 22",
        &[" --> page:22:11\n", "22 | Readings: X bytes.\n"],
    );
}

#[test]
fn behind_the_rest_10() {
    let row = ("|             Sum               |", ":             Sum               :");
    let changes = [row, ("Sum: 2 bytes.", "Sum: N bytes."), ("Readings: N bytes", "Readings: variable")];
    page_refused("10", &changes, "refused 10 at 23", &[" --> page:23:6\n", "`variable`"]);
}

#[test]
fn bad_table_21() {
    let place = Place::new("21");
    place.put("table", "no table");
    place.put("empty", "");
    for table in ["table", "empty"] {
        place.run(&["read", table, "m1"]).refused("refused 21 at 0", &[table, "not a good table"]);
        place.run(&["bytes", table, "m1", "N"]).refused_quietly(&["refused 21 at 0", table]);
    }
    let left = place.run(&["check", "table"]);
    assert_eq!(
        (left.status, left.text().as_str()),
        (1, "table: table refused 21 at 0\n0 accepted, 1 refused\n")
    );
    place.run(&["table", "empty", "-o", "out"]).refused("refused 3 at 1", &[" --> empty:1:1\n"]);
}

#[test]
fn packets_22_to_28() {
    let place = Place::new("packets");
    let cases: [(&[u8], &str, &str); 5] = [
        (&[0; 8192], "refused 22 at 0", "8,191"),
        (&M1[..7], "refused 24 at 7", " --> packet, field 7: Sum\n"),
        (&[0x22, 7, 1, 0x2C, 0xAA, 0xBB, 0, 9], "refused 25 at 1", "field 1: Version\n"),
        (&[0x55, 7], "refused 25 at 3", "field 3: Cells\n"),
        (&[0x62, 7, 1, 0x2C, 0xAA, 0xBB, 0, 9, 0], "refused 28 at 0", "left over"),
    ];
    for (packet, line, words) in cases {
        place.put("packet", packet);
        place.run(&["read", "page", "packet"]).refused(line, &[words, " = note: "]);
        place.run(&["bytes", "page", "packet", "Blade"]).refused_quietly(&[line, words, " = note: "]);
    }
    place.put("packet", "");
    place.run(&["read", "page", "packet"]).refused("refused 24 at 1", &["field 1: Version\n"]);
}

#[test]
fn faults_of_expressions_26_27_and_29() {
    let place = Place::new("faults");
    place.put("m2", M2);
    place.put("absent", BLADE.replace("Sum: 2 bytes.", "Sum: 2 bytes; Bor == 300."));
    place.put("below", BLADE.replace("Readings: N bytes.", "Readings: N - 3 bytes."));
    place.run(&["read", "absent", "m2"]).refused("refused 26 at 7", &[" --> m2, field 7: Sum\n", "absent"]);
    place
        .run(&["read", "below", "m1"])
        .refused("refused 27 at 6", &[" --> m1, field 6: Readings\n", "below 0"]);
    place.put("divided", BLADE.replace("Readings: N bytes.", "Readings: 6 / (N - 2) bytes."));
    place
        .run(&["read", "divided", "m1"])
        .refused("refused 29 at 6", &[" --> m1, field 6: Readings\n", "divides by zero"]);
}

#[test]
fn no_such_field_30() {
    let place = Place::new("30");
    for field in ["Borrowers", "bor", "7", "+4", "99999999999999999999", "-", ""] {
        let words = ["page, field `", "Version, On Loan, Cells, Blade, Borrower, Readings, Sum"];
        place.run(&["bytes", "page", "m1", "--", field]).refused_quietly(&[
            "refused 30 at 0",
            words[0],
            words[1],
        ]);
        place.run(&["read", "page", "m1", "--field", field]).refused("refused 30 at 0", &words);
    }
}

#[test]
fn a_refused_packet_among_others() {
    let place = Place::new("among");
    place.put("short", &M1[..7]);
    let left = place.run(&["read", "page", "m1", "short", "m1"]);
    let lines = format!("==> m1 <==\n{M1_LISTING}==> short <==\nrefused 24 at 7\n==> m1 <==\n{M1_LISTING}");
    assert_eq!((left.status, left.text()), (1, lines));
    left.says(&[" --> short, field 7: Sum\n"]);
}
