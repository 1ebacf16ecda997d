//! Where `table` writes: what it takes the place of, and what it leaves.
#![cfg(unix)]

mod common;

use common::*;
use std::fs::{self, Permissions};
use std::os::unix::fs::{chown, symlink, FileTypeExt, MetadataExt, PermissionsExt};
use std::os::unix::net::UnixListener;
use std::process::Command;

fn table() -> Vec<u8> {
    umarekoza::table_of(BLADE.as_bytes()).unwrap()
}

fn mode(place: &Place, name: &str) -> u32 {
    fs::metadata(place.folder.join(name)).unwrap().mode() & 0o7777
}

/// Makes a file by a program of the system.
fn made(program: &str, arguments: &[&str], place: &Place) -> bool {
    Command::new(program).args(arguments).current_dir(&place.folder).status().unwrap().success()
}

#[test]
fn what_is_no_regular_file_stays() {
    let place = Place::new("irregular");
    assert!(made("mkfifo", &["pipe"], &place));
    let _socket = UnixListener::bind(place.folder.join("socket")).unwrap();
    symlink("pipe", place.folder.join("link")).unwrap();
    let sort = |name: &str| fs::symlink_metadata(place.folder.join(name)).unwrap().file_type();
    let pipe = "not written: this is a pipe, no regular file\n";
    place.run_briefly(&["table", "page", "-o", "pipe"]).left(2, "", &format!("umarekoza: pipe: {pipe}"));
    place.run_briefly(&["table", "page", "-o", "link"]).left(2, "", &format!("umarekoza: link: {pipe}"));
    place.run(&["table", "page", "-o", "socket"]).failed(&["socket: not written: this is a socket"]);
    assert!(sort("pipe").is_fifo() && sort("socket").is_socket() && sort("link").is_symlink());
    assert_eq!(place.names(), ["link", "m1", "page", "pipe", "socket"]);
}

/// Only root may make a device; where it cannot be made, there is none to lose.
#[test]
fn a_device_stays() {
    let place = Place::within(&std::env::temp_dir(), "device");
    if !made("mknod", &["null", "c", "1", "3"], &place) {
        return;
    }
    let device = "umarekoza: null: not written: this is a device, no regular file\n";
    place.run(&["table", "page", "-o", "null"]).left(2, "", device);
    assert!(fs::metadata(place.folder.join("null")).unwrap().file_type().is_char_device());
    assert_eq!(place.names(), ["m1", "null", "page"]);
}

#[test]
fn symbolic_links_are_followed() {
    let place = Place::new("links");
    fs::create_dir(place.folder.join("below")).unwrap();
    place.put("below/table", "what was there");
    symlink("below/table", place.folder.join("one")).unwrap();
    symlink("one", place.folder.join("two")).unwrap();
    place.run(&["table", "page", "-o", "two"]).accepted("");
    assert_eq!(place.get("below/table"), table());
    symlink("below/new", place.folder.join("dangling")).unwrap();
    place.run(&["table", "page", "-o", "dangling"]).accepted("");
    assert_eq!(place.get("below/new"), table());
    symlink("self", place.folder.join("self")).unwrap();
    place.run(&["table", "page", "-o", "self"]).failed(&["self: not written"]);
    for link in ["one", "two", "dangling", "self"] {
        assert!(fs::symlink_metadata(place.folder.join(link)).unwrap().is_symlink());
    }
    assert_eq!(place.names(), ["below", "dangling", "m1", "one", "page", "self", "two"]);
}

#[test]
fn mode_and_owner_are_kept() {
    let place = Place::new("mode");
    for bits in [0o600, 0o640, 0o664] {
        place.put("table", "what was there");
        fs::set_permissions(place.folder.join("table"), Permissions::from_mode(bits)).unwrap();
        place.run(&["table", "page", "-o", "table"]).accepted("");
        assert_eq!((mode(&place, "table"), place.get("table")), (bits, table()));
    }
    if chown(place.folder.join("table"), Some(65_534), Some(65_534)).is_ok() {
        place.run(&["table", "page", "-o", "table"]).accepted("");
        let now = fs::metadata(place.folder.join("table")).unwrap();
        assert_eq!((now.uid(), now.gid(), now.mode() & 0o7777), (65_534, 65_534, 0o664));
    }
    place.shell("umask 027; umarekoza table page -o new").accepted("");
    assert_eq!(mode(&place, "new"), 0o640);
}

#[test]
fn other_names_of_the_file_are_told() {
    let place = Place::new("names");
    place.put("table", "what was there");
    fs::hard_link(place.folder.join("table"), place.folder.join("other")).unwrap();
    let told = "umarekoza: table: other names of the file that was there (hard links) keep what it held\n";
    place.run(&["table", "page", "-o", "table"]).left(0, "", told);
    assert_eq!((place.get("table"), place.get("other")), (table(), b"what was there".to_vec()));
}

#[test]
fn a_name_of_255_bytes() {
    let place = Place::new("long-name");
    let name = "t".repeat(255);
    place.run(&["table", "page", "-o", &name]).accepted("");
    place.run(&["table", "page", "-o", &name]).accepted("");
    assert_eq!(place.get(&name), table());
    let longer = "t".repeat(256);
    place.run(&["table", "page", "-o", &longer]).failed(&["not written: "]);
    assert_eq!(place.names(), ["m1", "page", name.as_str()]);
}

/// A disk of a few blocks, which only root may mount; a file that may not grow shows the same to all.
#[test]
fn a_failure_leaves_what_was_there() {
    let place = Place::new("full-disk");
    place.put("table", "what was there");
    let left = place.shell("trap '' XFSZ; ulimit -f 0; umarekoza table page -o table");
    left.failed(&["table: not written: "]);
    assert_eq!(place.get("table"), b"what was there");
    assert_eq!(place.names(), ["m1", "page", "table"]);
}

#[test]
fn a_page_keeps_its_place() {
    let place = Place::new("same");
    fs::hard_link(place.folder.join("page"), place.folder.join("hard")).unwrap();
    symlink("page", place.folder.join("soft")).unwrap();
    for name in ["./page", "hard", "soft"] {
        place
            .run(&["table", "page", "-o", name])
            .failed(&["page: the table would take the place of its page"]);
    }
    assert_eq!(place.get("page"), BLADE.as_bytes());
}

#[test]
fn to_standard_output() {
    let place = Place::new("out");
    place.run(&["table", "page", "-o", "-"]).accepted(table());
    place.shell("umarekoza table page -o - | umarekoza read - m1").accepted(M1_LISTING);
    place.put("page", BLADE.replace("Sum: 2", "Sum: 3"));
    let left = place.run(&["table", "page", "-o", "-"]);
    left.refused_quietly(&["refused 7 at 23", " --> page:23:6\n"]);
    assert_eq!(place.names(), ["m1", "page"]);
}
