//! `check --watch`: a page checked again whenever its file changes.

mod common;

use common::*;
use std::fs;
use std::io::{BufRead, BufReader, Read};
use std::process::{Child, Stdio};
use std::sync::mpsc::{channel, Receiver};
use std::thread;
use std::time::Duration;

/// No verdict takes longer.
const MOST: Duration = Duration::from_secs(60);

/// A command that runs, and the lines of its standard output and error.
struct Watched {
    child: Child,
    out: Receiver<String>,
    err: Receiver<String>,
}

impl Watched {
    fn new(place: &Place, arguments: &[&str]) -> Self {
        let mut command = place.command(arguments);
        command.stdin(Stdio::null()).stdout(Stdio::piped()).stderr(Stdio::piped());
        let mut child = command.spawn().unwrap();
        let out = lines(child.stdout.take().unwrap());
        let err = lines(child.stderr.take().unwrap());
        Watched { child, out, err }
    }

    #[track_caller]
    fn prints(&self, line: &str) {
        assert_eq!(self.out.recv_timeout(MOST).unwrap(), line);
    }

    #[track_caller]
    fn says(&self, lines: &[&str]) {
        for line in lines {
            assert_eq!(self.err.recv_timeout(MOST).unwrap(), *line);
        }
    }
}

impl Drop for Watched {
    fn drop(&mut self) {
        let _ = self.child.kill();
        let _ = self.child.wait();
    }
}

fn lines(from: impl Read + Send + 'static) -> Receiver<String> {
    let (to, lines) = channel();
    thread::spawn(move || {
        for line in BufReader::new(from).lines() {
            if line.is_ok_and(|line| to.send(line).is_ok()) {
                continue;
            }
            return;
        }
    });
    lines
}

#[test]
fn a_changed_page_is_checked_again() {
    let place = Place::new("watch");
    let watched = Watched::new(&place, &["check", "--watch", "page"]);
    watched.prints("page: page accepted");
    place.put("page", BLADE.replace("V == 1", "V = 1"));
    watched.prints("page: page refused 5 at 17");
    watched.says(&["error[5]: `=` is no operator", "   --> page:17:24", "   |"]);
    // As editors do: a new file takes the place of the old one.
    place.put("new", BLADE);
    fs::rename(place.folder.join("new"), place.folder.join("page")).unwrap();
    watched.prints("page: page accepted");
    place.put("page", format!("\n{BLADE}"));
    watched.prints("page: page refused 3 at 1");
}

#[test]
fn a_page_that_goes_and_comes_back() {
    let place = Place::new("watch-gone");
    let watched = Watched::new(&place, &["check", "--watch", "--json", "page"]);
    let accepted = "{\"bytes\":215,\"kind\":\"page\",\"name\":\"page\",\"result\":\"accepted\"}";
    watched.prints(accepted);
    fs::remove_file(place.folder.join("page")).unwrap();
    watched.says(&["umarekoza: page: there is no such file or folder"]);
    watched
        .prints("{\"error\":\"there is no such file or folder\",\"name\":\"page\",\"result\":\"not read\"}");
    place.put("page", BLADE);
    watched.prints(accepted);
}

#[test]
fn what_cannot_be_watched() {
    let place = Place::new("watch-not");
    place.run_briefly(&["check", "--watch", "page", "m1"]).failed(&["--watch takes a single page"]);
    place.run_briefly(&["check", "--watch", "."]).failed(&[".: --watch takes a file"]);
    place.run_briefly(&["check", "--watch", "-"]).failed(&["standard input: --watch takes a file"]);
    place.run_briefly(&["check", "--watch", "none"]).failed(&["none: there is no such file or folder"]);
    place.run_briefly(&["check", "--watch", "-r", "page"]).failed(&["cannot be used with"]);
}
