//! A file put in the place of another as a whole: its bytes go to a new file in a folder beside it, which is then
//! renamed. Whatever fails before that leaves what was there.

use crate::folders::irregular;
use crate::inputs::{reason, Input};
use crate::outputs::complain;
use crate::Failure;
use std::fs::{self, File, Metadata, OpenOptions};
use std::io::{self, Write};
use std::os::unix::fs::{fchown, MetadataExt};
use std::path::{Path, PathBuf};

/// So many symbolic links are followed, as the system does.
const LINKS_MOST: usize = 40;

/// Puts a file of these bytes in its place. A symbolic link is followed; what is no regular file is refused.
pub fn replace(path: &Path, bytes: &[u8]) -> Result<(), Failure> {
    let name = Input::File(path.to_path_buf());
    let old = old_file(path).and_then(|old| put(&followed(path)?, bytes, old.as_ref()).map(|()| old));
    let old = old.map_err(|error| Failure::Said(format!("{name}: not written: {}", reason(&error))))?;
    if old.is_some_and(|old| old.nlink() > 1) {
        complain(&format!("{name}: other names of the file that was there (hard links) keep what it held"));
    }
    Ok(())
}

/// The regular file that is there, if any, and may be written.
fn old_file(path: &Path) -> io::Result<Option<Metadata>> {
    match fs::metadata(path) {
        Ok(old) if old.is_dir() => Err(io::Error::from(io::ErrorKind::IsADirectory)),
        Ok(old) if !old.is_file() => Err(io::Error::other(irregular(old.file_type()))),
        Ok(old) => OpenOptions::new().write(true).open(path).map(|_| Some(old)),
        Err(error) if error.kind() == io::ErrorKind::NotFound => Ok(None),
        Err(error) => Err(error),
    }
}

/// Where symbolic links lead, be there a file or not.
fn followed(path: &Path) -> io::Result<PathBuf> {
    let mut path = path.to_path_buf();
    for _ in 0..LINKS_MOST {
        let Ok(to) = fs::read_link(&path) else { return Ok(path) };
        path = path.parent().unwrap_or(Path::new("")).join(to);
    }
    Err(io::Error::other("too many symbolic links"))
}

fn put(path: &Path, bytes: &[u8], old: Option<&Metadata>) -> io::Result<()> {
    let folder = path.parent().filter(|folder| !folder.as_os_str().is_empty()).unwrap_or(Path::new("."));
    let beside = tempfile::Builder::new().prefix(".umarekoza-").tempdir_in(folder)?;
    let new = beside.path().join("new");
    let mut file = OpenOptions::new().write(true).create_new(true).open(&new)?;
    if let Some(old) = old {
        keep(&file, old)?;
    }
    file.write_all(bytes)?;
    file.sync_all()?;
    fs::rename(&new, path)
}

/// Gives a new file the mode of the old one, and its owner and group as far as that is allowed.
fn keep(file: &File, old: &Metadata) -> io::Result<()> {
    let new = file.metadata()?;
    if (new.uid(), new.gid()) != (old.uid(), old.gid())
        && fchown(file, Some(old.uid()), Some(old.gid())).is_err()
    {
        let _ = fchown(file, None, Some(old.gid()));
    }
    file.set_permissions(old.permissions())
}
