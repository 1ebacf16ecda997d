//! Folders as the regular files in them.

use crate::inputs::{reason, Input};
use crate::outputs::complain;
use std::fs::{self, DirEntry, FileType};
use std::io;
use std::os::unix::fs::FileTypeExt;
use std::path::{Path, PathBuf};

/// A file to be read, or the input that cannot be and why.
pub type Found = Result<Input, (Input, String)>;

/// The files that an input stands for: of a folder the regular ones in it, in the order of their names, and where
/// `deep` is asked for those of the folders below too; else itself. What is left out is named on standard error. A
/// folder that cannot be read, and one that stands for no file, are errors.
pub fn files(input: &Input, deep: bool) -> Vec<Found> {
    let Some(path) = input.path().filter(|path| path.is_dir()) else { return vec![Ok(input.clone())] };
    let mut found = Vec::new();
    gather(path, deep, &mut found);
    if found.is_empty() {
        found.push(Err((input.clone(), "there is no regular file in this folder".to_string())));
    }
    found
}

fn gather(folder: &Path, deep: bool, found: &mut Vec<Found>) {
    match entries(folder) {
        Ok(entries) => entries.iter().for_each(|(path, own)| enter(path, *own, deep, found)),
        Err(error) => found.push(Err((Input::named(folder), reason(&error)))),
    }
}

/// What is in a folder, in the order of the names.
fn entries(folder: &Path) -> io::Result<Vec<(PathBuf, FileType)>> {
    let entry = |entry: io::Result<DirEntry>| entry.and_then(|entry| Ok((entry.path(), entry.file_type()?)));
    let mut entries = fs::read_dir(folder)?.map(entry).collect::<io::Result<Vec<_>>>()?;
    entries.sort_by(|(one, _), (other, _)| one.cmp(other));
    Ok(entries)
}

/// A link to a file is read; one to a folder is not followed, since it may lead back here.
fn enter(path: &Path, own: FileType, deep: bool, found: &mut Vec<Found>) {
    let sort = if own.is_symlink() { fs::metadata(path).map(|to| to.file_type()) } else { Ok(own) };
    match sort {
        Ok(sort) if sort.is_file() => found.push(Ok(Input::File(path.to_path_buf()))),
        Ok(_) if own.is_dir() && deep => gather(path, deep, found),
        Ok(sort) => left_out(path, what(sort, own)),
        Err(error) => left_out(path, &reason(&error)),
    }
}

fn left_out(path: &Path, why: &str) {
    complain(&format!("{}: left out: {why}", Input::File(path.to_path_buf())));
}

/// What a file is that is no regular one.
fn what(sort: FileType, own: FileType) -> &'static str {
    match () {
        () if sort.is_dir() && own.is_symlink() => "this is a link to a folder",
        () if sort.is_dir() => "this is a folder",
        () => irregular(sort),
    }
}

/// What a file is that is neither a regular one nor a folder.
pub fn irregular(sort: FileType) -> &'static str {
    match () {
        () if sort.is_fifo() => "this is a pipe, no regular file",
        () if sort.is_socket() => "this is a socket, no regular file",
        () => "this is a device, no regular file",
    }
}
