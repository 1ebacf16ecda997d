//! Pages from standard input are fed as they come: byte by byte through a pipe, in pieces of any length, and of any
//! number of bytes in all.

mod common;

use common::*;
use std::ffi::c_int;
use std::io::Write;
use std::os::fd::AsRawFd;
use std::process::Stdio;

extern "C" {
    fn fcntl(descriptor: c_int, command: c_int, ...) -> c_int;
}

const F_SETFL: c_int = 4;
const O_DIRECT: c_int = 0o40_000;

/// Runs the command with these pieces on standard input, each of which is read by itself: the pipe is one of packets.
/// `before_end` is called before the pipe is closed.
fn dripped<'a>(
    place: &Place,
    arguments: &[&str],
    pieces: impl Iterator<Item = &'a [u8]>,
    before_end: impl FnOnce(),
) -> Left {
    let mut command = place.command(arguments);
    command.stdin(Stdio::piped()).stdout(Stdio::piped()).stderr(Stdio::piped());
    let mut child = command.spawn().unwrap();
    let mut pipe = child.stdin.take().unwrap();
    // SAFETY: F_SETFL takes a number and touches no memory.
    let set = unsafe { fcntl(pipe.as_raw_fd(), F_SETFL, O_DIRECT) };
    assert_eq!(set, 0, "a pipe of packets");
    for piece in pieces {
        pipe.write_all(piece).unwrap();
    }
    before_end();
    drop(pipe);
    left(child.wait_with_output().unwrap())
}

/// The same, byte by byte.
fn byte_by_byte(place: &Place, arguments: &[&str], page: &[u8]) -> Left {
    dripped(place, arguments, page.chunks(1), || ())
}

/// The blade report with a remark that makes its last line so long.
fn long_line(bytes: usize) -> String {
    format!("{} {}\n", BLADE.trim_end(), "x".repeat(bytes - "Sum: 2 bytes. ".len()))
}

#[test]
fn a_page_byte_by_byte() {
    let place = Place::new("drip");
    byte_by_byte(&place, &["table", "-", "-o", "tag"], TAG.as_bytes()).accepted("");
    assert_eq!(place.get("tag"), TAG_TABLE);
    byte_by_byte(&place, &["table", "-", "-o", "-"], TAG.as_bytes()).accepted(TAG_TABLE);
    byte_by_byte(&place, &["read", "-", "m1"], BLADE.as_bytes()).accepted(M1_LISTING);
    byte_by_byte(&place, &["bytes", "-", "m1", "Borrower"], BLADE.as_bytes()).accepted(&M1[2..4]);
    let lines = "standard input: page accepted\n1 accepted, 0 refused\n";
    byte_by_byte(&place, &["check", "-"], BLADE.as_bytes()).accepted(lines);
    byte_by_byte(&place, &["readers", "-", "Cells"], BLADE.as_bytes()).accepted("1\n");
    byte_by_byte(&place, &["read", "--table", "-", "m1"], BLADE.as_bytes())
        .refused("refused 21 at 0", &["this is not a good table"]);
}

#[test]
fn a_table_byte_by_byte() {
    let place = Place::new("drip-table");
    let lines = "standard input: table accepted\n1 accepted, 0 refused\n";
    byte_by_byte(&place, &["check", "-"], &TAG_TABLE).accepted(lines);
    byte_by_byte(&place, &["convert", "-", "-o", "-"], &OLD_TAG_TABLE).accepted(TAG_TABLE);
}

#[test]
fn pieces_that_begin_or_end_with_a_line_end() {
    let place = Place::new("drip-lines");
    let page = BLADE.as_bytes();
    for pieces in [page.split_inclusive(|byte| *byte == b'\n').collect::<Vec<_>>(), before_line_ends(page)] {
        dripped(&place, &["read", "-", "m1"], pieces.into_iter(), || ()).accepted(M1_LISTING);
    }
    for length in [2, 7, 64, 1_000] {
        dripped(&place, &["read", "-", "m1"], page.chunks(length), || ()).accepted(M1_LISTING);
    }
}

/// Pieces each of which, but for the first, begins with LF.
fn before_line_ends(page: &[u8]) -> Vec<&[u8]> {
    let mut starts: Vec<usize> = (0..page.len()).filter(|at| page[*at] == b'\n').collect();
    starts.insert(0, 0);
    starts.push(page.len());
    starts.windows(2).map(|two| &page[two[0]..two[1]]).collect()
}

/// What is told of a page is what is told of its file, but for the name.
#[test]
fn refusals_are_explained_as_those_of_files() {
    let place = Place::new("drip-refused");
    let tab = BLADE.replace("Blade: 1", "Blade:\t1");
    let pages = [
        (BLADE.replace("V == 1", "V = 1"), "refused 5 at 17"),
        (BLADE.trim_end().to_string(), "refused 3 at 23"),
        (tab, "refused 2 at 0"),
        (long_line(1_025), "refused 3 at 23"),
        (long_line(9_000), "refused 3 at 23"),
        ("A".to_string(), "refused 3 at 1"),
    ];
    for (page, refused) in pages {
        place.put("refused", &page);
        let file = place.run(&["table", "refused", "-o", "none"]);
        file.refused(refused, &["error["]);
        let fed = byte_by_byte(&place, &["table", "-", "-o", "none"], page.as_bytes());
        fed.left(1, &file.text(), &file.err.replace("refused:", "standard input:"));
    }
    byte_by_byte(&place, &["table", "-", "-o", "table"], long_line(1_024).as_bytes()).accepted("");
    assert_eq!(place.names(), ["m1", "page", "refused", "table"]);
}

#[test]
fn nothing_is_written_before_the_end() {
    let place = Place::new("drip-end");
    place.put("table", "what was there");
    let before_end = || assert_eq!(place.get("table"), b"what was there");
    dripped(&place, &["table", "-", "-o", "table"], TAG.as_bytes().chunks(9), before_end).accepted("");
    assert_eq!(place.get("table"), TAG_TABLE);
}

/// A page of more bytes than are read of a file is refused as a page that is a byte too long, and its length is told.
#[test]
fn a_page_of_any_length() {
    let place = Place::new("drip-long");
    let mut child = place
        .command(&["check", "-"])
        .stdin(Stdio::piped())
        .stdout(Stdio::piped())
        .stderr(Stdio::piped())
        .spawn()
        .unwrap();
    let mut pipe = child.stdin.take().unwrap();
    pipe.write_all(BLADE.as_bytes()).unwrap();
    for _ in 0..65 {
        pipe.write_all(&vec![b'x'; 1 << 20]).unwrap();
    }
    drop(pipe);
    let bytes = spelled(BLADE.len() + (65 << 20));
    left(child.wait_with_output().unwrap()).left(
        1,
        "standard input: page refused 1 at 0\n0 accepted, 1 refused\n",
        &format!(
            "error[1]: the page has {bytes} bytes, at most 16,384\n --> standard input\n \
             = note: shorten the remarks behind the full stops\n"
        ),
    );
}

/// A number with commas between its thousands.
fn spelled(number: usize) -> String {
    match (number / 1_000, number % 1_000) {
        (0, number) => number.to_string(),
        (thousands, rest) => format!("{},{rest:03}", spelled(thousands)),
    }
}
