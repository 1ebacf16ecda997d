//! Files and standard input, read whole, line by line, or part by part as it comes.

use crate::{names, standard};
use std::ffi::OsStr;
use std::fmt;
use std::fs::File;
use std::io::{self, BufRead, BufReader, Read};
use std::path::{Path, PathBuf};

/// No file of more bytes than this is read, and no longer line.
const MOST_BYTES: u64 = 64 << 20;
const TOO_LARGE: &str = "too large to be read";

#[derive(Clone, PartialEq, Eq, PartialOrd, Ord)]
pub enum Input {
    Standard,
    File(PathBuf),
}

impl fmt::Display for Input {
    fn fmt(&self, to: &mut fmt::Formatter<'_>) -> fmt::Result {
        to.write_str(&names::shown(self.name().as_encoded_bytes()))
    }
}

impl Input {
    /// The input of an argument: `-` is standard input.
    pub fn named(path: &Path) -> Self {
        if path.as_os_str() == "-" {
            Input::Standard
        } else {
            Input::File(path.to_path_buf())
        }
    }

    /// The path, as it is; or what is read in its stead.
    pub fn name(&self) -> &OsStr {
        self.path().map_or("standard input".as_ref(), Path::as_os_str)
    }

    pub fn path(&self) -> Option<&Path> {
        match self {
            Input::Standard => None,
            Input::File(path) => Some(path),
        }
    }

    /// All bytes, or why they cannot be read.
    pub fn bytes(&self) -> Result<Vec<u8>, String> {
        let mut bytes = Vec::new();
        let read = self.reader().and_then(|reader| reader.take(MOST_BYTES + 1).read_to_end(&mut bytes));
        read.map_err(|error| reason(&error))?;
        fitting(bytes, TOO_LARGE)
    }

    /// Hands on its parts, each as one call of the system reads it, or says why they cannot be read.
    pub fn each_part(&self, mut take: impl FnMut(&[u8]) -> Result<(), String>) -> Result<(), String> {
        let mut reader = self.reader().map_err(|error| reason(&error))?;
        loop {
            let part = match reader.fill_buf() {
                Err(error) if error.kind() == io::ErrorKind::Interrupted => continue,
                part => part.map_err(|error| reason(&error))?,
            };
            let length = part.len();
            if length == 0 {
                return Ok(());
            }
            take(part)?;
            reader.consume(length);
        }
    }

    /// Its lines, without their ends, each as soon as it is there.
    pub fn lines(&self) -> Result<impl Iterator<Item = Result<Vec<u8>, String>>, String> {
        let mut reader = self.reader().map_err(|error| reason(&error))?;
        Ok(std::iter::from_fn(move || line(&mut reader).transpose()))
    }

    fn reader(&self) -> io::Result<Box<dyn BufRead>> {
        match self {
            Input::Standard if !standard::input_was_open() => Err(io::Error::other("it is closed")),
            Input::Standard => Ok(Box::new(io::stdin().lock())),
            Input::File(path) if path.is_dir() => Err(io::Error::from(io::ErrorKind::IsADirectory)),
            Input::File(path) => Ok(Box::new(BufReader::new(File::open(path)?))),
        }
    }
}

fn line(reader: &mut dyn BufRead) -> Result<Option<Vec<u8>>, String> {
    let mut line = Vec::new();
    let read = reader.take(MOST_BYTES + 1).read_until(b'\n', &mut line);
    if read.map_err(|error| reason(&error))? == 0 {
        return Ok(None);
    }
    let mut line = fitting(line, "too long a line to be read")?;
    if line.ends_with(b"\n") {
        line.pop();
    }
    Ok(Some(line))
}

/// Adds a part to the bytes before it.
pub fn add(bytes: &mut Vec<u8>, part: &[u8]) -> Result<(), String> {
    bytes.extend_from_slice(part);
    *bytes = fitting(std::mem::take(bytes), TOO_LARGE)?;
    Ok(())
}

fn fitting(bytes: Vec<u8>, what: &str) -> Result<Vec<u8>, String> {
    if bytes.len() as u64 > MOST_BYTES {
        return Err(format!("over {} MiB, {what}", MOST_BYTES >> 20));
    }
    Ok(bytes)
}

/// What an error means for a reader of the message.
pub fn reason(error: &io::Error) -> String {
    match error.kind() {
        io::ErrorKind::NotFound => "there is no such file or folder".to_string(),
        io::ErrorKind::IsADirectory => "this is a folder, not a file".to_string(),
        io::ErrorKind::PermissionDenied => "permission denied".to_string(),
        _ => names::shown(error.to_string().as_bytes()),
    }
}
