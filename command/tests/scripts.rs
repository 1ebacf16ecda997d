//! What scripts read: names of packets, lines of packets, JSON, one field alone, and what pages are taken for.

mod common;

use common::*;

#[test]
fn several_packets_are_named() {
    let place = Place::new("named");
    place.put("m2", M2);
    place.run(&["read", "page", "m1", "none", "m2"]).left(
        2,
        &format!("==> m1 <==\n{M1_LISTING}==> none <==\n==> m2 <==\n{M2_LISTING}"),
        "umarekoza: none: there is no such file or folder\n",
    );
}

#[test]
fn a_packet_on_each_line() {
    let place = Place::new("lines");
    place.put("packets", "62 07 01 2C AA BB 00 09\r\n\n6207\n42:07:aa:bb:00:09");
    place.run(&["read", "--lines", "page", "packets"]).left(
        1,
        &format!(
            "==> packets:1 <==\n{M1_LISTING}==> packets:2 <==\nrefused 24 at 1\n\
             ==> packets:3 <==\nrefused 24 at 5\n==> packets:4 <==\n{M2_LISTING}"
        ),
        "\
error[24]: `Version` needs 2 bits from bit 0 on, none is left
 --> packets:2, field 1: Version
 = note: the packet has 0 bytes, 0 bits
error[24]: `Borrower` needs 16 bits from bit 16 on, none is left
 --> packets:3, field 5: Borrower
 = note: the packet has 2 bytes, 16 bits
read before the refusal:
  Version: 0 2 1
  On Loan: 2 1 1
  Cells: 3 5 2
  Blade: 8 8 7
",
    );
    place.run_on(&["read", "--lines", "page", "-"], b"62 7\n").left(
        2,
        "==> standard input:1 <==\n",
        "umarekoza: standard input:1: column 4: an odd number of digits, 1: they come in pairs\n",
    );
    place.run_on(&["read", "--lines", "page", "-"], b"").accepted("");
}

#[test]
fn one_field_alone() {
    let place = Place::new("field");
    place.put("m2", M2);
    place.put("short", &M1[..7]);
    for field in ["Borrower", "Bor", "4"] {
        place.run(&["read", "page", "m1", "m2", "--field", field]).accepted("300\nabsent\n");
    }
    place.run(&["read", "--field", "Readings", "page", "m1"]).accepted("aabb\n");
    let left = place.run(&["read", "--field", "Sum", "page", "m1", "none", "short", "m2"]);
    assert_eq!((left.status, left.text().as_str()), (2, "9\nnot read\nrefused 24 at 7\n9\n"));
    left.says(&["none: there is no such file", " --> short, field 7: Sum\n"]);
    place.run(&["read", "--field", "sum", "page", "m1"]).refused("refused 30 at 0", &["did you mean `Sum`?"]);
}

/// The blade report with two fields behind Borrower that are no whole bytes: Readings of 12 bits, and Sum.
fn in_bits() -> String {
    BLADE
        .replace("|             Sum               |", ":             Sum               :")
        .replace("Readings: N bytes.", "Readings: N * 8 - 4 bits.")
        .replace("Sum: 2 bytes.", "Sum: variable.")
}

#[test]
fn long_fields_without_whole_bytes() {
    let place = Place::new("no-bytes");
    place.put("page", in_bits());
    for (field, name) in [("Readings", "Readings"), ("6", "Sum")] {
        let why = format!(
            "umarekoza: m1, field `{name}`: it does not start on a byte or has not whole bytes; \
             `read` shows where it is\n"
        );
        place.run(&["read", "--field", field, "page", "m1"]).left(1, "no whole bytes\n", &why);
        place.run(&["bytes", "page", "m1", field]).left(1, "", &why);
    }
    let left = place.run(&["read", "--json", "page", "m1"]);
    assert_eq!((left.status, left.err.as_str()), (0, ""));
    for expected in [
        field("Readings", "null", "measured", ["32", "12", "null"], "null"),
        field("Sum", "null", "rest", ["44", "20", "null"], "null"),
    ] {
        assert!(objects(&left).contains(&expected));
    }
}

/// Objects of JSON as Python reads them, in a form of one line each.
const READ: &str = "
import json, sys
for line in sys.stdin:
    print(json.dumps(json.loads(line), sort_keys=True, ensure_ascii=True))
";

fn objects(left: &Left) -> String {
    let read = python(READ, &[], &left.out);
    assert_eq!((read.status, read.err.as_str()), (0, ""));
    read.text()
}

fn field(label: &str, short: &str, kind: &str, numbers: [&str; 3], bytes: &str) -> String {
    let [offset, width, value] = numbers;
    let present = if offset == "null" { "false" } else { "true" };
    format!(
        "{{\"bytes\": {bytes}, \"kind\": \"{kind}\", \"label\": \"{label}\", \"offset\": {offset}, \
         \"present\": {present}, \"short\": {short}, \"value\": {value}, \"width\": {width}}}"
    )
}

#[test]
fn packets_as_json() {
    let place = Place::new("json");
    place.put("a \"b\"\x1B\n", M2);
    place.put("short", &M1[..7]);
    let left = place.run(&["read", "--json", "page", "a \"b\"\x1B\n", "short", "none"]);
    let fields = [
        field("Version", "\"V\"", "fixed", ["0", "2", "1"], "null"),
        field("On Loan", "\"L\"", "fixed", ["2", "1", "0"], "null"),
        field("Cells", "\"N\"", "fixed", ["3", "5", "2"], "null"),
        field("Blade", "null", "fixed", ["8", "8", "7"], "null"),
        field("Borrower", "\"Bor\"", "fixed", ["null", "null", "null"], "null"),
        field("Readings", "null", "measured", ["16", "16", "null"], "\"aabb\""),
        field("Sum", "null", "fixed", ["32", "16", "9"], "null"),
    ];
    let before = [
        field("Version", "\"V\"", "fixed", ["0", "2", "1"], "null"),
        field("On Loan", "\"L\"", "fixed", ["2", "1", "1"], "null"),
        field("Cells", "\"N\"", "fixed", ["3", "5", "2"], "null"),
        field("Blade", "null", "fixed", ["8", "8", "7"], "null"),
        field("Borrower", "\"Bor\"", "fixed", ["16", "16", "300"], "null"),
        field("Readings", "null", "measured", ["32", "16", "null"], "\"aabb\""),
    ];
    let expected = format!(
        "{{\"bits\": 48, \"fields\": [{}], \"name\": \"a \\\"b\\\"\\u001b\\n\", \"result\": \"accepted\"}}\n\
         {{\"field\": \"Sum\", \"fields\": [{}], \"meaning\": \"the packet ends before the bits of this field do\", \
         \"name\": \"short\", \"number\": 24, \"place\": 7, \"result\": \"refused\"}}\n\
         {{\"error\": \"there is no such file or folder\", \"name\": \"none\", \"result\": \"not read\"}}\n",
        fields.join(", "),
        before.join(", ")
    );
    assert_eq!(objects(&left), expected);
    assert_eq!((left.status, left.err.as_str()), (2, "umarekoza: none: there is no such file or folder\n"));
    assert!(!left.out.contains(&0x1B));
}

#[test]
fn lines_and_refused_sources_as_json() {
    let place = Place::new("json-lines");
    let left = place.run_on(&["read", "--json", "--lines", "page", "-"], b"\n");
    assert_eq!(
        objects(&left),
        "{\"field\": \"Version\", \"fields\": [], \
         \"meaning\": \"the packet ends before the bits of this field do\", \
         \"name\": \"standard input:1\", \"number\": 24, \"place\": 1, \"result\": \"refused\"}\n"
    );
    assert_eq!((left.status, left.err.as_str()), (1, ""));
    place.put("page", BLADE.replace("Sum: 2", "Sum: 3"));
    let refused =
        "{\"kind\": \"page\", \"meaning\": \"this field line and its cell in the diagram disagree\", \
                   \"name\": \"page\", \"number\": 7, \"place\": 23, \"result\": \"refused\"}\n";
    let left = place.run(&["read", "--json", "page", "m1"]);
    assert_eq!((objects(&left).as_str(), left.status), (refused, 1));
    let left = place.run(&["check", "--json", "page"]);
    assert_eq!((objects(&left).as_str(), left.status, left.err.as_str()), (refused, 1, ""));
}

#[test]
fn checks_as_json() {
    let place = Place::new("json-check");
    place.run(&["table", "page", "-o", "table"]).accepted("");
    let left = place.run(&["check", "--json", "page", "table", "none"]);
    let length = place.get("table").len();
    assert_eq!(
        objects(&left),
        format!(
            "{{\"bytes\": {length}, \"kind\": \"page\", \"name\": \"page\", \"result\": \"accepted\"}}\n\
             {{\"bytes\": {length}, \"kind\": \"table\", \"name\": \"table\", \"result\": \"accepted\"}}\n\
             {{\"error\": \"there is no such file or folder\", \"name\": \"none\", \"result\": \"not read\"}}\n"
        )
    );
    assert_eq!(left.status, 2);
}

#[test]
fn names_cannot_move_a_terminal() {
    let place = Place::new("escapes");
    let name = "a\x1B[31m\n\u{9B}b";
    place.put(name, BLADE);
    let shown = "a\\u{1b}[31m\\n\\u{9b}b";
    place.run(&["check", name]).accepted(format!("{shown}: page accepted\n1 accepted, 0 refused\n"));
    place.put(name, BLADE.replace("V == 1", "V = \x1B[2J1"));
    let left = place.run(&["check", name]);
    assert_eq!(left.text(), format!("{shown}: page refused 2 at 0\n0 accepted, 1 refused\n"));
    left.says(&[&format!(" --> {shown}:17:26\n"), "17 | Version (V): 2 bits; V = ?[2J1.\n"]);
    place.put(name, &M1[..7]);
    place
        .run(&["read", "page", name])
        .refused("refused 24 at 7", &[&format!(" --> {shown}, field 7: Sum\n")]);
    place.put(name, M1);
    place
        .run(&["read", "page", name, "m1"])
        .accepted(format!("==> {shown} <==\n{M1_LISTING}==> m1 <==\n{M1_LISTING}"));
    place.run(&["read", "page", "\x1B[2J"]).left(
        2,
        "",
        "umarekoza: \\u{1b}[2J: there is no such file or folder\n",
    );
    place.run(&["\x1B[2J"]).failed(&["'\\u{1b}[2J' wasn't recognized"]);
    place.run(&["bytes", "page", "m1", "\x1B[2J"]).refused_quietly(&["field `\\u{1b}[2J`"]);
    for arguments in
        [&["table", "page", "-o", "none/\x1B[2J"][..], &["read", "page", "m1", "--field", "\x1B"]]
    {
        assert!(!place.run(arguments).err.contains('\x1B'));
    }
}

#[test]
fn what_a_source_is_taken_for() {
    let place = Place::new("taken");
    let cases = [
        (format!(" {BLADE}"), "begins with a blank", "refused 3 at 1"),
        (format!("\u{FEFF}{BLADE}"), "begins with a byte order mark", "refused 2 at 0"),
        (format!("\n{BLADE}"), "begins with an empty line", "refused 3 at 1"),
        (format!("The {BLADE}"), "begins with `The`", "refused 3 at 1"),
        (String::new(), "is empty", "refused 3 at 1"),
    ];
    for (page, begins, refused) in cases {
        place.put("page", page);
        let taken = format!(
            "error[21]: this is not a good table\n --> page\n = note: it {begins} and is taken for a table; a page \
             begins with `A NAME is formatted as follows:` or `An ..`, and with --page it is read as a page\n \
             = note: write it again from its page with `umarekoza table PAGE -o TABLE`\n"
        );
        place.run(&["read", "page", "m1"]).left(1, "refused 21 at 0\n", &taken);
        place.run(&["check", "page"]).left(1, "page: table refused 21 at 0\n0 accepted, 1 refused\n", &taken);
        place.run(&["read", "--page", "page", "m1"]).refused(refused, &["page"]);
        place.run(&["table", "page", "-o", "table"]).refused(refused, &["page"]);
        let left = place.run(&["check", "--page", "page"]);
        assert_eq!(left.text(), format!("page: page {refused}\n0 accepted, 1 refused\n"));
    }
    place.put("page", BLADE);
    place
        .run(&["read", "--table", "page", "m1"])
        .refused("refused 21 at 0", &["error[21]: this is not a good table\n --> page\n"]);
    let left = place.run(&["check", "--table", "page"]);
    assert!(left.text().starts_with("page: table refused 21 at 0\n") && !left.err.contains("taken for"));
}
