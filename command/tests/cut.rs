//! The verb `cut`: fields cut out of a page's table or of a table.

mod common;

use common::*;

const PAGES: &str = include_str!("../../docs/PAGES.md");
const BORDER: &str = "+-+-+-+-+-+-+-+-+-+-+-+-+-+-+-+-+\n";

/// The table of the blade report's page with these lines left out, rows with their borders.
fn table_without(rows: &[&str], lines: &[&str]) -> Vec<u8> {
    let rows = rows.iter().map(|row| format!("{row}\n{BORDER}"));
    let lines = lines.iter().map(|line| format!("{line}\n"));
    let page = rows.chain(lines).fold(BLADE.to_string(), |page, part| {
        assert_eq!(page.matches(&part).count(), 1, "{part}");
        page.replace(&part, "")
    });
    umarekoza::table_of(page.as_bytes()).unwrap()
}

fn without_borrower() -> Vec<u8> {
    let line = "Borrower (Bor): 2 bytes; present only when L == 1.";
    table_without(&["|           Borrower            |"], &[line])
}

fn blade_table() -> Vec<u8> {
    umarekoza::table_of(BLADE.as_bytes()).unwrap()
}

#[test]
fn one_field_by_label_short_name_and_index() {
    let place = Place::new("cut");
    for field in ["Borrower", "Bor", "4"] {
        place.run(&["cut", "page", field, "-o", "new"]).accepted("");
        assert_eq!(place.get("new"), without_borrower(), "{field}");
        place.run(&["cut", "page", field, "-o", "-"]).accepted(without_borrower());
    }
    place.run_on(&["cut", "-", "Bor", "-o", "new"], BLADE.as_bytes()).accepted("");
    assert_eq!((place.get("new"), place.get("page")), (without_borrower(), BLADE.as_bytes().to_vec()));
    let listing = "Version: 0 2 1\nOn Loan: 2 1 1\nCells: 3 5 2\nBlade: 8 8 7\n\
                   Readings: 16 16\nSum: 32 16 9\nbits 48\n";
    place.put("packet", [0x62, 0x07, 0xAA, 0xBB, 0x00, 0x09]);
    place.run(&["read", "new", "packet"]).accepted(listing);
    assert_eq!(place.names(), ["m1", "new", "packet", "page"]);
}

#[test]
fn a_run_from_its_first_field_to_its_last() {
    let place = Place::new("cut-run");
    let rows = [":            Readings           :", "|             Sum               |"];
    let due = table_without(&rows, &["Readings: N bytes.", "Sum: 2 bytes."]);
    for (first, last) in [("Readings", "Sum"), ("5", "6"), ("Readings", "6")] {
        place.run(&["cut", "page", first, last, "-o", "new"]).accepted("");
        assert_eq!(place.get("new"), due, "{first} {last}");
    }
}

#[test]
fn a_table_in_its_own_place_and_a_page_in_another() {
    let place = Place::new("cut-place");
    place.put("table", blade_table());
    place.run(&["cut", "table", "Borrower", "-o", "table"]).accepted("");
    assert_eq!(place.get("table"), without_borrower());
    let page = "page: the table would take the place of its page; choose another name";
    place.run(&["cut", "page", "Borrower", "-o", "./page"]).failed(&[page]);
    place.run(&["cut", "page", "Borrower", "-o", "none/table"]).failed(&["none/table: not written"]);
    place.shell("mkfifo pipe");
    let pipe = "umarekoza: pipe: not written: this is a pipe, no regular file\n";
    place.run_briefly(&["cut", "page", "Borrower", "-o", "pipe"]).left(2, "", pipe);
    assert_eq!(place.get("page"), BLADE.as_bytes());
    assert_eq!(place.names(), ["m1", "page", "pipe", "table"]);
}

#[test]
fn a_field_that_is_read() {
    let place = Place::new("cut-read");
    place.put("my-table", blade_table());
    place.put("new", "what was there");
    let explained = "\
error[31]: `Readings` reads `Cells` (N), which is to be cut out: its width is `N bytes`
 --> my-table, field 6: Readings
 = note: cut out `Readings` too, or write it on the page without `Cells` (N)
";
    place.run(&["cut", "my-table", "N", "-o", "new"]).left(1, "refused 31 at 6\n", explained);
    documented(&format!("refused 31 at 6\n{explained}"));
    let quiet = format!("umarekoza: refused 31 at 6\n{explained}");
    place.run(&["cut", "my-table", "N", "-o", "-"]).left(1, "", &quiet);
    place.run(&["cut", "my-table", "N", "--dry-run"]).left(1, "refused 31 at 6\n", explained);
    assert_eq!(place.get("new"), b"what was there");
}

/// These lines stand in docs/PAGES.md.
#[track_caller]
fn documented(lines: &str) {
    let indented: String = lines.lines().map(|line| format!("    {line}\n")).collect();
    assert!(
        PAGES.contains(&format!("\n\n{indented}\n")) || PAGES.ends_with(&format!("\n\n{indented}")),
        "{lines}"
    );
}

#[test]
fn refusals_are_told_as_documented() {
    let place = Place::new("cut-documented");
    place.put("my-page.txt", BLADE);
    place.put("my-table", blade_table());
    documented(&place.run(&["cut", "my-page.txt", "Sum", "Readings", "-o", "new"]).err);
    documented(&place.run(&["cut", "my-page.txt", "On Loan", "Blade", "-o", "new"]).err);
    documented(&place.run(&["cut", "my-page.txt", "Blade", "-o", "new"]).err);
    documented(&place.run(&["put", "my-table", "my-page.txt", "-o", "new"]).err);
}

/// All fields that are left and read one that is cut out are told, each with what it reads and where.
#[test]
fn all_that_read() {
    let place = Place::new("cut-readers");
    let page = BLADE.replace("Sum: 2 bytes.", "Sum: 2 bytes; Sum > N || V + L == 9.");
    place.put("page", page);
    place.run(&["cut", "page", "Version", "Blade", "-o", "new"]).left(
        1,
        "refused 31 at 5\n",
        "\
error[31]: `Borrower` reads `On Loan` (L), which is to be cut out: its condition is `L == 1`
 --> page, field 5: Borrower
 = note: field 6, `Readings`, reads `Cells` (N) too: its width is `N bytes`
 = note: field 7, `Sum`, reads `Cells` (N), `Version` (V) and `On Loan` (L) too: \
         its constraint is `Sum > N || V + L == 9`
 = note: cut these out too, or write them on the page without what is to be cut out
",
    );
    place.put("page", BLADE.replace("Readings: N bytes.", "Readings: N + V bytes; present only when V < 2."));
    place.run(&["cut", "page", "0", "4", "-o", "new"]).left(
        1,
        "refused 31 at 6\n",
        "\
error[31]: `Readings` reads `Cells` (N) and `Version` (V), which are to be cut out: \
         its width is `N + V bytes` and its condition is `V < 2`
 --> page, field 6: Readings
 = note: cut out `Readings` too, or write it on the page without `Cells` (N) and `Version` (V)
",
    );
    assert_eq!(place.names(), ["m1", "page"]);
}

#[test]
fn what_is_left_makes_no_table() {
    let place = Place::new("cut-limits");
    place.run(&["cut", "page", "Blade", "-o", "new"]).left(
        1,
        "refused 34 at 0\n",
        "\
error[34]: `Borrower` would cross the end of its row: it has 16 bits, and 8 are left
 --> page, without Blade
 = note: in that row: `Version`, `On Loan` and `Cells`, 8 of 16 bits
 = note: fixed fields fill whole rows: 8 bits more are to come, or these 8 to go
",
    );
    place.run(&["cut", "page", "Blade", "Borrower", "-o", "new"]).left(
        1,
        "refused 34 at 0\n",
        "\
error[34]: the row before `Readings` would have 8 of its 16 bits
 --> page, without Blade to Borrower
 = note: in that row: `Version`, `On Loan` and `Cells`, 8 of 16 bits
 = note: fixed fields fill whole rows: 8 bits more are to come, or these 8 to go
",
    );
    place.run(&["cut", "page", "Version", "Sum", "-o", "new"]).left(
        1,
        "refused 34 at 0\n",
        "\
error[34]: no field would be left
 --> page, without Version to Sum
 = note: a table has 1 to 128 fields
",
    );
    assert_eq!(place.names(), ["m1", "page"]);
}

#[test]
fn no_such_field_and_no_run() {
    let place = Place::new("cut-none");
    let labels = "the labels are: Version, On Loan, Cells, Blade, Borrower, Readings, Sum\n";
    for fields in [&["Sun"][..], &["7"], &["Version", "Sun"], &["0", "7"]] {
        let arguments = [&["cut", "page"], fields, &["-o", "new"]].concat();
        place.run(&arguments).refused("refused 30 at 0", &["no field has this name or index", labels]);
    }
    place.run(&["cut", "page", "Version", "Sun", "-o", "new"]).says(&["field `Sun`", "did you mean `Sum`?"]);
    place.run(&["cut", "page", "Sum", "Readings", "-o", "new"]).left(
        1,
        "refused 30 at 0\n",
        "\
error[30]: the run ends before it begins
 --> page, Sum to Readings
 = note: `Sum` has the index 6, `Readings` 5: give the first field, then the last
",
    );
    assert_eq!(place.names(), ["m1", "page"]);
}

#[test]
fn sources_that_are_refused() {
    let place = Place::new("cut-source");
    place.put("table", "no table");
    place.put("old", OLD_TAG_TABLE);
    place.put("wrong", BLADE.replace("Sum: 2", "Sum: 3"));
    place.run(&["cut", "table", "Sum", "-o", "new"]).refused("refused 21 at 0", &["not a good table"]);
    place
        .run(&["cut", "old", "Kind", "-o", "new"])
        .refused("refused 21 at 0", &["an old table", "convert OLD"]);
    place.run(&["cut", "wrong", "Sum", "-o", "new"]).refused("refused 7 at 23", &[" --> wrong:23:6\n"]);
    place.run(&["cut", "wrong", "Sum", "-o", "-"]).refused_quietly(&["umarekoza: refused 7 at 23\n"]);
    place.run(&["cut", "nothing", "Sum", "-o", "new"]).failed(&["nothing: there is no such file or folder"]);
    assert_eq!(place.names(), ["m1", "old", "page", "table", "wrong"]);
}

#[test]
fn what_would_change() {
    let place = Place::new("cut-dry");
    let lines = "\
cut out: Borrower, index 4
Readings: index 5 becomes 4
Sum: index 6 becomes 5
On Loan: read in 1 place, then in 0
fields: 7 become 6
bytes: 215 become 180
";
    place.run(&["cut", "page", "Borrower", "--dry-run"]).accepted(lines);
    documented(lines);
    place.run(&["cut", "page", "Borrower", "--dry-run", "-o", "new"]).accepted(lines);
    place.put("table", blade_table());
    place.run(&["cut", "table", "Borrower", "--dry-run", "-o", "table"]).accepted(lines);
    place.put("page", BLADE.replace("Sum: 2 bytes.", "Sum: 2 bytes; N + N < 5 || L == 1."));
    place.run(&["cut", "page", "Readings", "Sum", "--dry-run"]).accepted(
        "cut out: Readings, index 5\ncut out: Sum, index 6\n\
         On Loan: read in 2 places, then in 1\nCells: read in 3 places, then in 0\n\
         fields: 7 become 5\nbytes: 235 become 168\n",
    );
    assert_eq!(place.names(), ["m1", "page", "table"]);
}

#[test]
fn as_json() {
    let place = Place::new("cut-json");
    let object = "{\"bytes\":{\"from\":215,\"to\":180},\"cut\":[{\"index\":4,\"label\":\"Borrower\"}],\
                  \"fields\":{\"from\":7,\"to\":6},\"moved\":[{\"from\":5,\"label\":\"Readings\",\"to\":4},\
                  {\"from\":6,\"label\":\"Sum\",\"to\":5}],\"name\":\"page\",\
                  \"readers\":[{\"from\":1,\"label\":\"On Loan\",\"to\":0}],\"result\":\"accepted\"}\n";
    place.run(&["cut", "page", "Borrower", "--dry-run", "--json"]).accepted(object);
    let object = "{\"field\":\"Readings\",\"meaning\":\"this field is left, and reads one that is to be cut out\",\
                  \"message\":\"`Readings` reads `Cells` (N), which is to be cut out: its width is `N bytes`\",\
                  \"name\":\"page\",\
                  \"notes\":[\"cut out `Readings` too, or write it on the page without `Cells` (N)\"],\
                  \"number\":31,\"place\":6,\"result\":\"refused\"}\n";
    place.run(&["cut", "page", "Cells", "--dry-run", "--json"]).left(1, object, "");
    place.put("table", "no table");
    let refused = place.run(&["cut", "table", "Cells", "--dry-run", "--json"]);
    assert_eq!((refused.status, refused.err.as_str()), (1, ""));
    assert!(refused.text().contains("\"kind\":\"table\"") && refused.text().contains("\"number\":21"));
    place.run(&["cut", "page", "Cells", "--json", "-o", "new"]).failed(&["--dry-run"]);
}
