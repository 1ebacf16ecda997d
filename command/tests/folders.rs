//! Folders of pages and of packets.
#![cfg(unix)]

mod common;

use common::*;
use std::fs;
use std::os::unix::fs::symlink;
use std::process::Command;

#[test]
fn many_files() {
    let place = Place::new("folder");
    fs::create_dir(place.folder.join("pages")).unwrap();
    let mut lines = String::new();
    for number in 0..300 {
        place.put(&format!("pages/{number:03}.txt"), BLADE);
        lines += &format!("pages/{number:03}.txt: page accepted\n");
    }
    place.run(&["check", "pages"]).accepted(format!("{lines}300 accepted, 0 refused\n"));
    place.put("pages/000.txt", "A page");
    let left = place.run(&["check", "pages"]);
    assert_eq!(left.status, 1);
    assert!(left.text().starts_with("pages/000.txt: page refused 3 at 1\npages/001.txt: page accepted\n"));
    assert!(left.text().ends_with("\n299 accepted, 1 refused\n"));
    left.says(&["pages/000.txt:1", "A page"]);
}

/// A folder with a page, a folder below, a pipe, and links to the page, to a folder and to nothing.
fn mixed(test: &str) -> Place {
    let place = Place::new(test);
    fs::create_dir_all(place.folder.join("pages/deeper")).unwrap();
    place.put("pages/one", BLADE);
    place.put("pages/deeper/two", BLADE);
    symlink("one", place.folder.join("pages/soft")).unwrap();
    symlink("..", place.folder.join("pages/up")).unwrap();
    symlink("nowhere", place.folder.join("pages/lost")).unwrap();
    assert!(Command::new("mkfifo").arg(place.folder.join("pages/pipe")).status().unwrap().success());
    place
}

#[test]
fn only_regular_files_are_read() {
    let place = mixed("mixed");
    place.run_briefly(&["check", "pages"]).left(
        0,
        "pages/one: page accepted\npages/soft: page accepted\n2 accepted, 0 refused\n",
        "umarekoza: pages/deeper: left out: this is a folder\n\
         umarekoza: pages/lost: left out: there is no such file or folder\n\
         umarekoza: pages/pipe: left out: this is a pipe, no regular file\n\
         umarekoza: pages/up: left out: this is a link to a folder\n",
    );
}

#[test]
fn folders_below() {
    let place = mixed("below");
    let left = place.run_briefly(&["check", "-r", "pages"]);
    let lines = "pages/deeper/two: page accepted\npages/one: page accepted\npages/soft: page accepted\n\
                 3 accepted, 0 refused\n";
    assert_eq!((left.status, left.text().as_str()), (0, lines));
    assert!(!left.err.contains("deeper"));
    place
        .run(&["check", "--recursive", "pages/deeper"])
        .accepted("pages/deeper/two: page accepted\n1 accepted, 0 refused\n");
}

#[test]
fn nothing_to_check() {
    let place = Place::new("nothing");
    fs::create_dir_all(place.folder.join("empty/deeper")).unwrap();
    let no_file = "umarekoza: empty: there is no regular file in this folder\n";
    let deeper = "umarekoza: empty/deeper: left out: this is a folder\n";
    let none = "0 accepted, 0 refused, 1 not read\n";
    place.run(&["check", "empty"]).left(2, none, &format!("{deeper}{no_file}"));
    place.run(&["check", "-r", "empty"]).left(2, none, no_file);
    place.run(&["read", "page", "empty/deeper"]).left(
        2,
        "==> empty/deeper <==\n",
        "umarekoza: empty/deeper: there is no regular file in this folder\n",
    );
}

#[test]
fn check_goes_on_behind_what_it_cannot_read() {
    let place = Place::new("goes-on");
    place.run(&["check", "none", "page"]).left(
        2,
        "page: page accepted\n1 accepted, 0 refused, 1 not read\n",
        "umarekoza: none: there is no such file or folder\n",
    );
}

#[test]
fn a_folder_of_packets() {
    let place = Place::new("packets");
    fs::create_dir_all(place.folder.join("packets/deeper")).unwrap();
    place.put("packets/b", M2);
    place.put("packets/a", M1);
    place.put("packets/c", &M1[..7]);
    let left = place.run(&["read", "page", "packets"]);
    let lines = format!(
        "==> packets/a <==\n{M1_LISTING}==> packets/b <==\n{M2_LISTING}==> packets/c <==\nrefused 24 at 7\n"
    );
    assert_eq!((left.status, left.text()), (1, lines));
    left.says(&["packets/deeper: left out: this is a folder\n", " --> packets/c, field 7: Sum\n"]);
}
