//! Runs of the built command in folders of their own.
#![allow(dead_code)]

use std::fs;
use std::io::Write;
use std::path::{Path, PathBuf};
use std::process::{Command, Output, Stdio};

pub const BLADE: &str = include_str!("../../../examples/pages/blade-report.txt");
pub const M1: [u8; 8] = [0x62, 0x07, 0x01, 0x2C, 0xAA, 0xBB, 0x00, 0x09];
pub const M2: [u8; 6] = [0x42, 0x07, 0xAA, 0xBB, 0x00, 0x09];
pub const M1_LISTING: &str = "Version: 0 2 1\nOn Loan: 2 1 1\nCells: 3 5 2\nBlade: 8 8 7\n\
                              Borrower: 16 16 300\nReadings: 32 16\nSum: 48 16 9\nbits 64\n";
pub const M2_LISTING: &str = "Version: 0 2 1\nOn Loan: 2 1 0\nCells: 3 5 2\nBlade: 8 8 7\n\
                              Borrower: absent\nReadings: 16 16\nSum: 32 16 9\nbits 48\n";

pub const TAG: &str = "A Tag is formatted as follows:\n\n 0\n 0 1 2 3 4 5 6 7\n+-+-+-+-+-+-+-+-+\n\
                       |       K       |\n+-+-+-+-+-+-+-+-+\n\nwhere:\n\nKind (K): 1 byte; K == 7.\n";
pub const TAG_TABLE: [u8; 46] = [
    0x0D, 0x00, 0x01, 0x00, 0x08, 0x00, 0x01, 0x00, 0x03, 0x00, 0x54, 0x61, 0x67, 0x1D, 0x00, 0x0C, 0x00,
    0x00, 0x00, 0x04, 0x00, 0x4B, 0x69, 0x6E, 0x64, 0x01, 0x00, 0x4B, 0x08, 0x00, 0x08, 0x00, 0x20, 0x02,
    0x00, 0x01, 0x07, 0x00, 0x00, 0x00, 0x00, 0x00, 0x04, 0x00, 0x05, 0x00,
];
/// The Tag's table as it was before records kept a number.
pub const OLD_TAG_TABLE: [u8; 44] = [
    0x0D, 0x00, 0x01, 0x00, 0x08, 0x00, 0x01, 0x00, 0x03, 0x00, 0x54, 0x61, 0x67, 0x1B, 0x00, 0x02, 0x00,
    0x04, 0x00, 0x4B, 0x69, 0x6E, 0x64, 0x01, 0x00, 0x4B, 0x08, 0x00, 0x08, 0x00, 0x20, 0x02, 0x00, 0x01,
    0x07, 0x00, 0x00, 0x00, 0x00, 0x00, 0x04, 0x00, 0x05, 0x00,
];

/// A new folder in which the command runs.
pub struct Place {
    pub folder: PathBuf,
}

/// What a run left: exit status, standard output and standard error.
pub struct Left {
    pub status: i32,
    pub out: Vec<u8>,
    pub err: String,
}

impl Place {
    /// A folder for the test of this name, with the blade report's page and M1.
    pub fn new(test: &str) -> Self {
        Place::within(Path::new(env!("CARGO_TARGET_TMPDIR")), test)
    }

    pub fn within(parent: &Path, test: &str) -> Self {
        let folder = parent.join(format!("umarekoza-{test}-{}", std::process::id()));
        let _ = fs::remove_dir_all(&folder);
        fs::create_dir_all(&folder).unwrap();
        let place = Place { folder };
        place.put("page", BLADE);
        place.put("m1", M1);
        place
    }

    pub fn put(&self, name: &str, bytes: impl AsRef<[u8]>) {
        fs::write(self.folder.join(name), bytes).unwrap();
    }

    pub fn get(&self, name: &str) -> Vec<u8> {
        fs::read(self.folder.join(name)).unwrap()
    }

    /// The names in the folder, in order.
    pub fn names(&self) -> Vec<String> {
        let entries = fs::read_dir(&self.folder).unwrap();
        let mut names: Vec<_> =
            entries.map(|entry| entry.unwrap().file_name().into_string().unwrap()).collect();
        names.sort();
        names
    }

    pub fn command(&self, arguments: &[&str]) -> Command {
        let mut command = Command::new(env!("CARGO_BIN_EXE_umarekoza"));
        command.args(arguments).current_dir(&self.folder);
        command
    }

    /// Runs the command with nothing on standard input.
    pub fn run(&self, arguments: &[&str]) -> Left {
        left(self.command(arguments).stdin(Stdio::null()).output().unwrap())
    }

    /// Runs the command, and ends it with status 124 if it hangs.
    pub fn run_briefly(&self, arguments: &[&str]) -> Left {
        let mut timeout = Command::new("timeout");
        timeout.args(["60", env!("CARGO_BIN_EXE_umarekoza")]).args(arguments).current_dir(&self.folder);
        left(timeout.stdin(Stdio::null()).output().unwrap())
    }

    /// Runs a line of bash, in which `umarekoza` is the command.
    pub fn shell(&self, line: &str) -> Left {
        let mut bash = Command::new("bash");
        bash.arg("-c").arg(format!("umarekoza() {{ \"$UMAREKOZA\" \"$@\"; }}\n{line}"));
        bash.env("UMAREKOZA", env!("CARGO_BIN_EXE_umarekoza")).current_dir(&self.folder);
        left(bash.output().unwrap())
    }

    /// Runs the command with these bytes on standard input.
    pub fn run_on(&self, arguments: &[&str], input: &[u8]) -> Left {
        let mut command = self.command(arguments);
        command.stdin(Stdio::piped()).stdout(Stdio::piped()).stderr(Stdio::piped());
        let mut child = command.spawn().unwrap();
        child.stdin.take().unwrap().write_all(input).unwrap();
        left(child.wait_with_output().unwrap())
    }
}

/// What a program of Python prints.
pub fn python(program: &str, arguments: &[&str], input: &[u8]) -> Left {
    let mut command = Command::new("python3");
    command.arg("-c").arg(program).args(arguments);
    command.stdin(Stdio::piped()).stdout(Stdio::piped()).stderr(Stdio::piped());
    let mut child = command.spawn().unwrap();
    child.stdin.take().unwrap().write_all(input).unwrap();
    left(child.wait_with_output().unwrap())
}

impl Drop for Place {
    fn drop(&mut self) {
        let _ = fs::remove_dir_all(&self.folder);
    }
}

pub fn left(output: Output) -> Left {
    let err = String::from_utf8(output.stderr).unwrap();
    assert!(!err.contains("panicked"), "{err}");
    Left { status: output.status.code().expect("ended by a signal"), out: output.stdout, err }
}

impl Left {
    /// Accepted, with this on standard output and nothing on standard error.
    pub fn accepted(&self, out: impl AsRef<[u8]>) {
        assert_eq!((self.status, self.err.as_str()), (0, ""));
        assert_eq!(self.text(), String::from_utf8_lossy(out.as_ref()));
    }

    /// Refused: nothing on standard output, and these words on standard error.
    pub fn refused_quietly(&self, words: &[&str]) {
        assert_eq!((self.status, self.text().as_str()), (1, ""), "{}", self.err);
        self.says(words);
    }

    /// This status, this on standard output and this on standard error.
    pub fn left(&self, status: i32, out: &str, err: &str) {
        assert_eq!((self.text().as_str(), self.err.as_str(), self.status), (out, err, status));
    }

    /// Refused: this line alone on standard output, and these words on standard error.
    pub fn refused(&self, line: &str, words: &[&str]) {
        assert_eq!(self.text(), format!("{line}\n"), "{}", self.err);
        assert_eq!(self.status, 1);
        self.says(words);
    }

    /// Wrong arguments or files: nothing on standard output, and these words on standard error.
    pub fn failed(&self, words: &[&str]) {
        assert_eq!((self.status, self.text().as_str()), (2, ""), "{}", self.err);
        self.says(words);
    }

    pub fn says(&self, words: &[&str]) {
        for word in words {
            assert!(self.err.contains(word), "no `{word}` in: {}", self.err);
        }
    }

    pub fn text(&self) -> String {
        String::from_utf8_lossy(&self.out).into_owned()
    }
}
