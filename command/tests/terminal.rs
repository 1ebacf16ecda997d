//! Runs on a terminal, which Python makes.
#![cfg(unix)]

mod common;

use common::*;

/// Runs a command in a folder with standard output or error on a terminal; prints the status and what came there.
const ON_A_TERMINAL: &str = "
import os, pty, subprocess, sys
folder, which, *command = sys.argv[1:]
near, far = pty.openpty()
streams = {'stdout': subprocess.PIPE, 'stderr': subprocess.PIPE, which: far}
child = subprocess.Popen(command, cwd=folder, stdin=subprocess.DEVNULL, **streams)
os.close(far)
seen = b''
try:
    while part := os.read(near, 65536):
        seen += part
except OSError:
    pass
rest = b''.join(stream.read() for stream in (child.stdout, child.stderr) if stream)
print(child.wait(), repr(seen.decode()), repr(rest.decode()))
";

fn on_a_terminal(place: &Place, which: &str, arguments: &[&str]) -> String {
    on_a_terminal_with(place, which, &[], arguments)
}

/// The same with changes of the environment, as `env` takes them.
fn on_a_terminal_with(place: &Place, which: &str, changes: &[&str], arguments: &[&str]) -> String {
    let folder = place.folder.to_str().unwrap();
    let words = [&[folder, which, "env"], changes, &[env!("CARGO_BIN_EXE_umarekoza")], arguments].concat();
    let left = python(ON_A_TERMINAL, &words, b"");
    assert_eq!((left.status, left.err.as_str()), (0, ""));
    left.text()
}

#[test]
fn a_table_is_not_written_to_a_terminal() {
    let place = Place::new("terminal");
    for verb in [&["table", "page"][..], &["cut", "page", "Sum"], &["put", "page", "page"]] {
        let seen = on_a_terminal(&place, "stdout", &[verb, &["-o", "-"]].concat());
        let due = "2 '' 'umarekoza: a table is not written to a terminal: `-o FILE` writes a file\\n'\n";
        assert_eq!(seen, due, "{verb:?}");
    }
    let told = on_a_terminal(&place, "stdout", &["cut", "page", "Sum", "--dry-run"]);
    assert!(told.starts_with("0 'cut out: Sum, index 6\\r\\n"), "{told}");
}

#[test]
fn progress_is_shown_when_there_are_many() {
    let place = Place::new("progress");
    std::fs::create_dir(place.folder.join("packets")).unwrap();
    let lines = "62 07 01 2C AA BB 00 09\n".repeat(100);
    place.put("lines", &lines);
    for number in 0..100 {
        place.put(&format!("packets/{number}"), M1);
    }
    let seen = on_a_terminal(&place, "stderr", &["read", "--field", "Sum", "page", "packets"]);
    assert!(seen.contains(" of 100 packets") && seen.contains(&"9\\n".repeat(100)), "{seen}");
    let seen = on_a_terminal(&place, "stderr", &["read", "--lines", "--field", "Sum", "page", "lines"]);
    assert!(seen.contains("50 packets") || seen.contains("100 packets"), "{seen}");
    assert_eq!(on_a_terminal(&place, "stderr", &["read", "--field", "Sum", "page", "m1"]), "0 '' '9\\n'\n");
}

/// A text without the sequences that set colours, which Python shows as `\\x1b[` to `m`.
fn without_colours(text: &str) -> String {
    let mut parts = text.split("\\x1b[");
    let first = parts.next().unwrap_or_default().to_string();
    parts.fold(first, |plain, part| plain + part.split_once('m').map_or(part, |(_, behind)| behind))
}

#[test]
fn refusals_have_colours_on_a_terminal_alone() {
    let place = Place::new("colours");
    place.put("page", BLADE.replace("V == 1", "V = 1"));
    let drawn = "\
error[5]: `=` is no operator
   --> page:17:24
   |
17 | Version (V): 2 bits; V = 1.
   |                        ^ no such operator
   |
   = note: did you mean `==`?
";
    let (out, on_a_terminal) =
        ("page: page refused 5 at 17\\n0 accepted, 1 refused\\n", drawn.replace('\n', "\\r\\n"));
    let plain = format!("1 '{on_a_terminal}' '{out}'\n");
    let check = |changes: &[&str]| on_a_terminal_with(&place, "stderr", changes, &["check", "page"]);
    let coloured = check(&["-u", "NO_COLOR", "TERM=xterm"]);
    assert!(coloured.starts_with("1 '\\x1b["), "{coloured}");
    assert_eq!(without_colours(&coloured), plain);
    assert_eq!(check(&["NO_COLOR=1", "TERM=xterm"]), plain);
    assert_eq!(check(&["-u", "NO_COLOR", "TERM=dumb"]), plain);
    let left = place.shell("unset NO_COLOR; TERM=xterm umarekoza check page");
    left.left(1, "page: page refused 5 at 17\n0 accepted, 1 refused\n", drawn);
}
