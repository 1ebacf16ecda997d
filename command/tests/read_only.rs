//! A folder and a file that are read-only. The test is alone in its program: a command that was just copied cannot be
//! run while another thread starts one.
#![cfg(unix)]

mod common;

use common::*;
use std::fs::{self, File, Permissions};
use std::os::unix::fs::PermissionsExt;
use std::os::unix::process::CommandExt;
use std::process::Command;

#[test]
fn a_folder_that_is_read_only() {
    let place = Place::within(&std::env::temp_dir(), "read-only");
    let command = place.folder.join("command");
    fs::copy(env!("CARGO_BIN_EXE_umarekoza"), &command).unwrap();
    place.put("table", "what was there");
    fs::set_permissions(&place.folder, Permissions::from_mode(0o555)).unwrap();
    let mut run = Command::new(&command);
    if File::create(place.folder.join("probe")).is_ok() {
        // Permissions do not bind root, so the command runs as another user.
        fs::remove_file(place.folder.join("probe")).unwrap();
        run.uid(65_534).gid(65_534);
    }
    run.args(["table", "page", "-o", "table"]).current_dir(&place.folder);
    left(run.output().unwrap()).failed(&["table: not written: permission denied"]);
    assert_eq!(place.get("table"), b"what was there");
    fs::set_permissions(&place.folder, Permissions::from_mode(0o777)).unwrap();
    fs::set_permissions(place.folder.join("table"), Permissions::from_mode(0o444)).unwrap();
    left(run.output().unwrap()).failed(&["table: not written: permission denied"]);
    assert_eq!(place.get("table"), b"what was there");
    fs::set_permissions(place.folder.join("table"), Permissions::from_mode(0o666)).unwrap();
    left(run.output().unwrap()).accepted("");
    assert_eq!(place.get("table"), umarekoza::table_of(BLADE.as_bytes()).unwrap());
    assert_eq!(place.names(), ["command", "m1", "page", "table"]);
}
