//! The verb `put`: the fields of a page or table put into another.

mod common;

use common::*;

const GRADE: &str = "A Grade is formatted as follows:\n\n 0                   1\n \
                     0 1 2 3 4 5 6 7 8 9 0 1 2 3 4 5\n+-+-+-+-+-+-+-+-+-+-+-+-+-+-+-+-+\n\
                     |     Grade     |     Count     |\n+-+-+-+-+-+-+-+-+-+-+-+-+-+-+-+-+\n\
                     :             Marks             :\n+-+-+-+-+-+-+-+-+-+-+-+-+-+-+-+-+\n\n\
                     where:\n\nGrade: 1 byte; Grade < 9.\nCount (C): 1 byte.\nMarks: C bytes.\n";

/// The rows and the field lines of a page of 16 bits a row.
fn parts(page: &str) -> (&str, &str) {
    let border = "+-+-+-+-+-+-+-+-+-+-+-+-+-+-+-+-+\n";
    let (head, lines) = page.split_once("\nwhere:\n\n").unwrap();
    (head.split_once(border).unwrap().1, lines)
}

/// The table of the blade report's page with the rows and lines of another before the row and the line of a field.
fn blade_with(page: &str, row: &str, line: &str) -> Vec<u8> {
    let (rows, lines) = parts(page);
    let longer = BLADE.replace(row, &format!("{rows}{row}")).replace(line, &format!("{lines}{line}"));
    umarekoza::table_of(longer.as_bytes()).unwrap()
}

fn before_sum() -> Vec<u8> {
    blade_with(GRADE, "|             Sum               |", "Sum: 2 bytes.")
}

fn at_the_end() -> Vec<u8> {
    let (rows, lines) = parts(GRADE);
    let longer = BLADE.replace("\nwhere:", &format!("{rows}\nwhere:"));
    umarekoza::table_of(format!("{longer}{lines}").as_bytes()).unwrap()
}

fn place(test: &str) -> Place {
    let place = Place::new(test);
    place.put("grade", GRADE);
    place.put("table", umarekoza::table_of(BLADE.as_bytes()).unwrap());
    place.put("grade.table", umarekoza::table_of(GRADE.as_bytes()).unwrap());
    place
}

#[test]
fn before_a_field_and_at_the_end() {
    let place = place("put");
    for into in ["table", "page"] {
        for from in ["grade", "grade.table"] {
            for field in ["Sum", "6"] {
                place.run(&["put", into, from, "--before", field, "-o", "new"]).accepted("");
                assert_eq!(place.get("new"), before_sum(), "{into} {from} {field}");
            }
            place.run(&["put", into, from, "-o", "new"]).accepted("");
            assert_eq!(place.get("new"), at_the_end(), "{into} {from}");
        }
    }
    place.run(&["put", "table", "grade", "-o", "-"]).accepted(at_the_end());
    place.run_on(&["put", "table", "-", "-o", "new"], GRADE.as_bytes()).accepted("");
    assert_eq!(place.get("new"), at_the_end());
    assert_eq!(place.names(), ["grade", "grade.table", "m1", "new", "page", "table"]);
}

/// What is put in reads its own fields by their new indexes, wherever it is put.
#[test]
fn what_is_put_in_reads_as_before() {
    let place = place("put-reads");
    let first = "| V |L|  Cells  |     Blade     |";
    let start = blade_with(GRADE, first, "Version (V)");
    place.run(&["put", "table", "grade", "--before", "Version", "-o", "new"]).accepted("");
    assert_eq!(place.get("new"), start);
    place.put("packet", [8, 2, 0xAB, 0xCD, 0x62, 0x07, 0x01, 0x2C, 0xAA, 0xBB, 0x00, 0x09]);
    let listing =
        "Grade: 0 8 8\nCount: 8 8 2\nMarks: 16 16\nVersion: 32 2 1\nOn Loan: 34 1 1\nCells: 35 5 2\n\
                   Blade: 40 8 7\nBorrower: 48 16 300\nReadings: 64 16\nSum: 80 16 9\nbits 96\n";
    place.run(&["read", "new", "packet"]).accepted(listing);
    place.run(&["readers", "new"]).accepted(
        "Grade: 0\nCount: 1\nMarks: 0\nVersion: 0\nOn Loan: 1\nCells: 1\nBlade: 0\nBorrower: 0\nReadings: 0\nSum: 0\n",
    );
    place.run(&["cut", "new", "Grade", "Marks", "-o", "back"]).accepted("");
    assert_eq!(place.get("back"), place.get("table"));
}

#[test]
fn tables_in_their_own_place_and_pages_in_others() {
    let place = place("put-place");
    place.run(&["put", "table", "grade", "-o", "table"]).accepted("");
    assert_eq!(place.get("table"), at_the_end());
    place.run(&["cut", "table", "Grade", "Marks", "-o", "table"]).accepted("");
    place.run(&["put", "table", "grade.table", "--before", "Sum", "-o", "grade.table"]).accepted("");
    assert_eq!(place.get("grade.table"), before_sum());
    let taken = "the table would take the place of its page; choose another name";
    place.run(&["put", "table", "grade", "-o", "grade"]).failed(&["grade: ", taken]);
    place.run(&["put", "page", "grade", "-o", "page"]).failed(&["page: ", taken]);
    assert_eq!(
        (place.get("grade"), place.get("page")),
        (GRADE.as_bytes().to_vec(), BLADE.as_bytes().to_vec())
    );
    place.run(&["put", "-", "-", "-o", "new"]).failed(&["standard input `-` can stand there once only"]);
}

#[test]
fn fields_that_make_no_table() {
    let place = place("put-limits");
    place.put("new", "what was there");
    place.run(&["put", "table", "page", "-o", "new"]).left(
        1,
        "refused 34 at 0\n",
        "\
error[34]: two fields would have the name `Version`
 --> table, with the fields of page
 = note: they would be field 1, `Version`, and field 8, `Version`
 = note: no label or short name of a field is either name of another
",
    );
    place.run(&["put", "table", "grade", "--before", "Blade", "-o", "new"]).left(
        1,
        "refused 34 at 0\n",
        "\
error[34]: the row before `Marks` would have 8 of its 16 bits
 --> table, with the fields of grade
 = note: in that row: `Count`, 8 of 16 bits
 = note: fixed fields fill whole rows: 8 bits more are to come, or these 8 to go
",
    );
    assert_eq!(place.get("new"), b"what was there");
}

#[test]
fn rows_of_another_width() {
    let place = place("put-rows");
    place.put("tag", TAG);
    place.run(&["put", "table", "tag", "-o", "new"]).left(
        1,
        "refused 34 at 0\n",
        "\
error[34]: the row at the end would have 8 of its 16 bits
 --> table, with the fields of tag
 = note: in that row: `Kind`, 8 of 16 bits
 = note: fixed fields fill whole rows: 8 bits more are to come, or these 8 to go
 = note: the rows of table have 16 bits, those of tag 8
",
    );
    place.run(&["put", "tag", "table", "-o", "new"]).left(
        1,
        "refused 34 at 0\n",
        "\
error[34]: `Borrower` would cross the end of its row: it has 16 bits, and 8 are left
 --> tag, with the fields of table
 = note: a row has 8 bits, and no field is wider
 = note: the rows of tag have 8 bits, those of table 16
",
    );
}

/// A page of one field that takes the rest, and one of very many.
#[test]
fn behind_the_rest_field_and_too_many() {
    let place = place("put-rest");
    place.put("tag", TAG);
    let rest = TAG
        .replace("|       K       |", ":      End      :")
        .replace("Kind (K): 1 byte; K == 7", "End: variable");
    place.put("rest", &rest);
    place.run(&["put", "tag", "rest", "--before", "Kind", "-o", "new"]).accepted("");
    place.put("other", rest.replace("End", "All"));
    place.run(&["put", "rest", "other", "-o", "new"]).left(
        1,
        "refused 34 at 0\n",
        "\
error[34]: `All` would stand behind `End`, which takes the rest: it takes the rest too
 --> rest, with the fields of other
 = note: behind the rest field only fixed fields without a condition follow
",
    );
    let row = |number: usize| format!("|{:15}|\n+-+-+-+-+-+-+-+-+\n", format!("F{number}"));
    let (rows, lines): (Vec<_>, Vec<_>) =
        (0..128).map(|number| (row(number), format!("F{number}: 1 byte.\n"))).unzip();
    let many = TAG.replace("|       K       |\n+-+-+-+-+-+-+-+-+\n", &rows.concat());
    place.put("many", many.replace("Kind (K): 1 byte; K == 7.\n", &lines.concat()));
    place.run(&["put", "tag", "many", "-o", "new"]).left(
        1,
        "refused 34 at 0\n",
        "\
error[34]: there would be 129 fields
 --> tag, with the fields of many
 = note: a table has 1 to 128 fields
",
    );
}

#[test]
fn no_such_field_and_sources_that_are_refused() {
    let place = place("put-none");
    let labels = "the labels are: Version, On Loan, Cells, Blade, Borrower, Readings, Sum\n";
    for field in ["Sun", "7", "Grade"] {
        let words = ["no field has this name or index", " --> table, field `", labels];
        place
            .run(&["put", "table", "grade", "--before", field, "-o", "new"])
            .refused("refused 30 at 0", &words);
    }
    place.put("none", "no table");
    place.put("wrong", GRADE.replace("Count (C)", "Count (c d)"));
    place.put("old", OLD_TAG_TABLE);
    for (into, from, line, words) in [
        ("none", "grade", "refused 21 at 0", &[" --> none\n", "not a good table"]),
        ("none", "wrong", "refused 21 at 0", &[" --> none\n", "not a good table"]),
        ("table", "none", "refused 21 at 0", &[" --> none\n", "not a good table"]),
        ("table", "old", "refused 21 at 0", &[" --> old\n", "convert OLD"]),
        ("table", "wrong", "refused 5 at 14", &[" --> wrong:14:", "short name"]),
    ] {
        place.run(&["put", into, from, "-o", "new"]).refused(line, words);
    }
    place
        .run(&["put", "table", "grade", "--table", "-o", "new"])
        .refused("refused 21 at 0", &[" --> grade\n"]);
    place
        .run(&["put", "table", "nothing", "-o", "new"])
        .failed(&["nothing: there is no such file or folder"]);
    assert_eq!(place.names(), ["grade", "grade.table", "m1", "none", "old", "page", "table", "wrong"]);
}

#[test]
fn what_would_change() {
    let place = place("put-dry");
    let run = "put in: Grade, index 6\nput in: Count, index 7\nput in: Marks, index 8\n";
    let lines = format!("{run}Sum: index 6 becomes 9\nfields: 7 become 10\nbytes: 215 become 291\n");
    place.run(&["put", "table", "grade", "--before", "Sum", "--dry-run"]).accepted(&lines);
    place.run(&["put", "table", "grade", "--before", "Sum", "--dry-run", "-o", "table"]).accepted(&lines);
    let object = "{\"bytes\":{\"from\":215,\"to\":291},\"fields\":{\"from\":7,\"to\":10},\
                  \"moved\":[{\"from\":6,\"label\":\"Sum\",\"to\":9}],\"name\":\"table\",\
                  \"put\":[{\"index\":6,\"label\":\"Grade\"},{\"index\":7,\"label\":\"Count\"},\
                  {\"index\":8,\"label\":\"Marks\"}],\"readers\":[],\"result\":\"accepted\"}\n";
    place.run(&["put", "table", "grade", "--before", "Sum", "--dry-run", "--json"]).accepted(object);
    let refused = place.run(&["put", "table", "page", "--dry-run", "--json"]);
    assert_eq!((refused.status, refused.err.as_str()), (1, ""));
    for word in ["\"number\":34,\"place\":0", "\"field\":null", "two fields would have the name `Version`"] {
        assert!(refused.text().contains(word), "{}", refused.text());
    }
    assert_eq!(place.names(), ["grade", "grade.table", "m1", "page", "table"]);
}
