//! Each verb on what is right.

mod common;

use common::*;

#[test]
fn table_of_the_tag() {
    let place = Place::new("tag");
    place.put("tag", TAG);
    place.put("tag.table", "what was there");
    place.run(&["table", "tag", "-o", "tag.table"]).accepted("");
    assert_eq!(place.get("tag.table"), TAG_TABLE);
    place.run_on(&["table", "-o", "other", "-"], TAG.as_bytes()).accepted("");
    assert_eq!(place.get("other"), TAG_TABLE);
    assert_eq!(place.names(), ["m1", "other", "page", "tag", "tag.table"]);
}

#[test]
fn read_by_page_and_by_table() {
    let place = Place::new("read");
    place.put("m2", M2);
    place.run(&["read", "page", "m1"]).accepted(M1_LISTING);
    place.run(&["table", "page", "-o", "table"]).accepted("");
    place
        .run(&["read", "table", "m1", "m2"])
        .accepted(format!("==> m1 <==\n{M1_LISTING}==> m2 <==\n{M2_LISTING}"));
}

#[test]
fn read_from_standard_input() {
    let place = Place::new("input");
    place.run_on(&["read", "page", "-"], &M1).accepted(M1_LISTING);
    place.run_on(&["read", "-", "m1"], BLADE.as_bytes()).accepted(M1_LISTING);
    place.run_on(&["read", "--hex", "page", "-"], b"62 07 01 2c\r\n\tAABB 0009\n").accepted(M1_LISTING);
}

#[test]
fn bytes_by_label_short_name_and_index() {
    let place = Place::new("bytes");
    for field in ["Borrower", "Bor", "4"] {
        place.run(&["bytes", "page", "m1", field]).accepted(&M1[2..4]);
    }
    place.put("hex", "62 07 01 2C AA BB 00 09");
    place.run(&["bytes", "--hex", "page", "hex", "Readings"]).accepted([0xAA, 0xBB]);
}

#[test]
fn a_name_goes_before_an_index() {
    let place = Place::new("names");
    place.put("page", BLADE.replace("Blade: 1", "5: 1").replace("    Blade    ", "      5      "));
    place.run(&["bytes", "page", "m1", "5"]).accepted(&M1[1..2]);
    place.run(&["bytes", "page", "m1", "6"]).accepted(&M1[6..8]);
}

#[test]
fn fields_without_bytes_are_refused() {
    let place = Place::new("empty");
    place.put("m2", M2);
    let absent = "umarekoza: m2, field `Borrower`: it is absent\n";
    place.run(&["bytes", "page", "m2", "Borrower"]).left(1, "", absent);
    let unaligned = "umarekoza: m1, field `On Loan`: it does not start on a byte or has not whole bytes; \
                     `read` shows where it is\n";
    place.run(&["bytes", "page", "m1", "L"]).left(1, "", unaligned);
    place.put("none", [0x40, 7, 0, 9]);
    place.run(&["bytes", "page", "none", "Readings"]).accepted("");
}

#[test]
fn bytes_in_hexadecimal() {
    let place = Place::new("to-hex");
    place.run(&["bytes", "--to-hex", "page", "m1", "Readings"]).accepted("aabb\n");
    place.put("none", [0x40, 7, 0, 9]);
    place.run(&["bytes", "--to-hex", "page", "none", "Readings"]).accepted("\n");
}

#[test]
fn check_pages_and_tables() {
    let place = Place::new("check");
    place.run(&["table", "page", "-o", "table"]).accepted("");
    let lines = "page: page accepted\ntable: table accepted\n2 accepted, 0 refused\n";
    place.run(&["check", "page", "table"]).accepted(lines);
    let lines = "standard input: page accepted\n1 accepted, 0 refused\n";
    place.run_on(&["check", "-"], BLADE.as_bytes()).accepted(lines);
}
