//! Wrong arguments, and files that cannot be read or written.
#![cfg(unix)]

mod common;

use common::*;
use std::ffi::OsStr;
use std::fs::{self, File};
use std::os::unix::ffi::OsStrExt;

#[test]
fn wrong_arguments() {
    let place = Place::new("arguments");
    let cases: [(&[&str], &str); 21] = [
        (&[], "requires a subcommand"),
        (&["rd", "page", "m1"], "The subcommand 'rd' wasn't recognized"),
        (&["table", "page"], "--output <TABLE>"),
        (&["table", "page", "-o"], "requires a value"),
        (&["table", "page", "-o", "a", "-o", "b"], "more than once"),
        (&["table", "page", "m1", "-o", "a"], "'m1' which wasn't expected"),
        (&["read", "page"], "<PACKET>..."),
        (&["read", "--json", "--field", "N", "page", "m1"], "cannot be used with"),
        (&["read", "--page", "--table", "page", "m1"], "cannot be used with"),
        (&["bytes", "page", "m1"], "<FIELD>"),
        (&["check"], "<FILE>..."),
        (&["check", "--hex", "page"], "'--hex' which wasn't expected"),
        (&["read", "page", "m1", "-o", "a"], "'-o' which wasn't expected"),
        (&["cut", "page", "-o", "a"], "<FIELD>"),
        (&["cut", "page", "Sum"], "--output <TABLE>"),
        (&["cut", "page", "0", "1", "2", "-o", "a"], "'2' which wasn't expected"),
        (&["put", "page", "-o", "a"], "<FROM>"),
        (&["put", "page", "page"], "--output <TABLE>"),
        (&["put", "page", "page", "Sum", "-o", "a"], "'Sum' which wasn't expected"),
        (&["explain", "x"], "'x'"),
        (&["completions", "csh"], "'csh' isn't a valid value"),
    ];
    for (arguments, words) in cases {
        place.run(arguments).failed(&["umarekoza: ", words, "'--help'"]);
    }
    place.run(&["read", "-", "-"]).left(2, "", "umarekoza: standard input `-` can stand there once only\n");
    assert_eq!(place.names(), ["m1", "page"]);
}

#[test]
fn did_you_mean() {
    let place = Place::new("mean");
    place.run(&["chek", "page"]).failed(&["Did you mean 'check'?"]);
    place.run(&["read", "--hexx", "page", "m1"]).failed(&["Did you mean '--hex'?"]);
    place.run(&["read", "page", "m1", "--field", "Borower"]).left(
        1,
        "refused 30 at 0\n",
        "\
error[30]: no field has this name or index
 --> page, field `Borower`
 = note: did you mean `Borrower`?
 = note: the labels are: Version, On Loan, Cells, Blade, Borrower, Readings, Sum
 = note: give a label, a short name or an index from 0
",
    );
    place.run(&["bytes", "page", "m1", "sum"]).refused_quietly(&["did you mean `Sum`?"]);
}

#[test]
fn arguments_that_are_no_text() {
    let place = Place::new("no-text");
    let odd = OsStr::from_bytes(b"\xFF\xFE");
    let mut command = place.command(&["read", "page"]);
    left(command.arg(odd).output().unwrap()).failed(&["no such file"]);
    let mut command = place.command(&["bytes", "page", "m1"]);
    left(command.arg(odd).output().unwrap()).refused_quietly(&[
        "refused 30 at 0",
        "no field",
        "`\\xff\\xfe`",
    ]);
    let mut command = place.command(&[]);
    left(command.arg(odd).output().unwrap()).failed(&["wasn't recognized"]);
}

#[test]
fn names_that_look_like_options() {
    let place = Place::new("options");
    place.put("--hex", M1);
    place.run(&["read", "--", "page", "--hex"]).accepted(M1_LISTING);
}

#[test]
fn missing_files_and_folders() {
    let place = Place::new("missing");
    fs::create_dir(place.folder.join("folder")).unwrap();
    place.run(&["table", "none", "-o", "table"]).failed(&["none: there is no such file"]);
    place.run(&["table", "folder", "-o", "table"]).failed(&["folder: this is a folder"]);
    place.run(&["table", "page", "-o", "folder"]).failed(&["folder: not written: this is a folder"]);
    place.run(&["table", "page", "-o", "none/table"]).failed(&["none/table: not written"]);
    place.run(&["table", "page", "-o", ".."]).failed(&["..: not written"]);
    place.run(&["read", "none", "m1"]).failed(&["none: "]);
    place.run(&["read", "folder", "m1"]).failed(&["folder: this is a folder"]);
    place.run(&["bytes", "page", "folder", "Sum"]).failed(&["folder: this is a folder"]);
    place.run(&["bytes", "page", "none", "Sum"]).failed(&["none: "]);
    assert_eq!(place.names(), ["folder", "m1", "page"]);
}

#[test]
fn a_page_keeps_its_place() {
    let place = Place::new("same");
    place.run(&["table", "page", "-o", "./page"]).failed(&["would take the place of its page"]);
    assert_eq!(place.get("page"), BLADE.as_bytes());
}

#[test]
fn files_of_megabytes() {
    let place = Place::new("large");
    place.put("zeros", vec![0; 5 << 20]);
    place.put("letters", vec![b'A'; 5 << 20]);
    place.run(&["read", "page", "zeros"]).refused("refused 22 at 0", &["zeros"]);
    place.run(&["read", "zeros", "m1"]).refused("refused 21 at 0", &["zeros"]);
    place.run(&["read", "letters", "m1"]).refused("refused 1 at 0", &["letters"]);
    File::create(place.folder.join("huge")).unwrap().set_len(65 << 20).unwrap();
    place.run(&["read", "page", "huge"]).failed(&["huge: over 64 MiB"]);
}

#[test]
fn standard_output_that_is_full_or_closed() {
    let place = Place::new("full");
    place.put("m2", M2);
    for arguments in [
        &["read", "page", "m1"][..],
        &["read", "--json", "page", "m1", "m2"],
        &["bytes", "page", "m1", "Sum"],
        &["check", "page"],
        &["table", "page", "-o", "-"],
        &["cut", "page", "Sum", "-o", "-"],
        &["cut", "page", "Sum", "--dry-run"],
        &["--help"],
    ] {
        let full = File::options().write(true).open("/dev/full").unwrap();
        left(place.command(arguments).stdout(full).output().unwrap())
            .failed(&["umarekoza: standard output: "]);
        let closed = "umarekoza: standard output: it is closed\n";
        place.shell(&format!("umarekoza {} >&-", arguments.join(" "))).left(2, "", closed);
    }
    place.shell("umarekoza table page -o table >&-").accepted("");
}

#[test]
fn standard_input_that_is_closed() {
    let place = Place::new("closed");
    place.shell("umarekoza read page - <&-").left(2, "", "umarekoza: standard input: it is closed\n");
}

#[test]
fn a_closed_pipe_ends_it_quietly() {
    let place = Place::new("pipe");
    place.put("lines", "62 07 01 2C AA BB 00 09\n".repeat(5000));
    let first = place.shell("set -o pipefail; umarekoza read --lines page lines | head -n 1");
    first.left(2, "==> lines:1 <==\n", "");
    let first = place.shell("set -o pipefail; umarekoza read --json --lines page lines | head -c 1");
    first.left(2, "{", "");
}
