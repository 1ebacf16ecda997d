//! The verb `convert`, and old tables that are given to other verbs.

mod common;

use common::*;

const OLD: &str = "error[21]: this is an old table: its records do not keep how often a field is read\n";
const HOW: &str = " = note: `umarekoza convert OLD -o TABLE` makes a new one of it\n";

#[test]
fn to_a_file_and_to_standard_output() {
    let place = Place::new("convert");
    place.put("old", OLD_TAG_TABLE);
    place.put("new", "what was there");
    place.run(&["convert", "old", "-o", "new"]).accepted("");
    assert_eq!(place.get("new"), TAG_TABLE);
    place.run(&["convert", "old", "-o", "-"]).accepted(TAG_TABLE);
    place.run_on(&["convert", "-", "-o", "other"], &OLD_TAG_TABLE).accepted("");
    assert_eq!((place.get("other"), place.get("old")), (TAG_TABLE.to_vec(), OLD_TAG_TABLE.to_vec()));
    place.run(&["check", "new"]).accepted("new: table accepted\n1 accepted, 0 refused\n");
    assert_eq!(place.names(), ["m1", "new", "old", "other", "page"]);
}

#[test]
fn in_the_place_of_the_old_one() {
    let place = Place::new("in-place");
    place.put("table", OLD_TAG_TABLE);
    place.run(&["convert", "table", "-o", "table"]).accepted("");
    assert_eq!(place.get("table"), TAG_TABLE);
    let nothing = ["note: it is a good table as it is: there is nothing to convert\n"];
    place.run(&["convert", "table", "-o", "table"]).refused("refused 21 at 0", &nothing);
    assert_eq!(place.get("table"), TAG_TABLE);
    assert_eq!(place.names(), ["m1", "page", "table"]);
}

#[test]
fn what_is_refused_leaves_what_was_there() {
    let place = Place::new("unconverted");
    place.put("out", "what was there");
    place.put("none", "no table");
    place.put("cut", &OLD_TAG_TABLE[..43]);
    place.put("empty", "");
    let refused = "error[21]: this is not a good old table\n";
    let written_again = "written again from its page with `umarekoza table PAGE -o TABLE`\n";
    for old in ["none", "cut", "empty"] {
        let words = [refused, &format!(" --> {old}\n"), "at most 64 fields", written_again];
        place.run(&["convert", old, "-o", "out"]).refused("refused 21 at 0", &words);
        place.run(&["convert", old, "-o", "-"]).refused_quietly(&["umarekoza: refused 21 at 0\n", refused]);
    }
    let page = "it begins as a page does: `umarekoza table PAGE -o TABLE` writes the table of a page\n";
    place.run(&["convert", "page", "-o", "out"]).refused("refused 21 at 0", &[refused, page]);
    assert_eq!(place.get("out"), b"what was there");
    place.run(&["convert", "nothing", "-o", "out"]).failed(&["nothing: there is no such file or folder"]);
    place.run(&["convert", "none"]).failed(&["--output <TABLE>"]);
    assert_eq!(place.names(), ["cut", "empty", "m1", "none", "out", "page"]);
}

/// The code of `==` made that of `^` is not good by the old rules, whatever its type.
#[test]
fn operators_of_later_rules() {
    let place = Place::new("later");
    let mut table = OLD_TAG_TABLE;
    table[30] = 0x15;
    place.put("old", table);
    place.run(&["convert", "old", "-o", "out"]).refused("refused 21 at 0", &["nor `^`"]);
}

#[test]
fn an_old_table_is_told_by_each_verb() {
    let place = Place::new("old");
    place.put("old", OLD_TAG_TABLE);
    let explained = format!("{OLD} --> old\n{HOW}");
    place.run(&["check", "old"]).left(1, "old: table refused 21 at 0\n0 accepted, 1 refused\n", &explained);
    place.run(&["read", "old", "m1"]).left(1, "refused 21 at 0\n", &explained);
    place.run(&["readers", "old"]).left(1, "refused 21 at 0\n", &explained);
    let quiet = format!("umarekoza: refused 21 at 0\n{explained}");
    place.run(&["bytes", "old", "m1", "Kind"]).left(1, "", &quiet);
    place.run(&["check", "--table", "old"]).says(&[OLD, HOW]);
    for verb in [&["check", "--json", "old"][..], &["read", "--json", "old", "m1"]] {
        let object = place.run(verb);
        assert_eq!((object.status, object.err.as_str()), (1, ""));
        assert!(object.text().contains("\"meaning\":\"this is an old table: "), "{}", object.text());
    }
}
