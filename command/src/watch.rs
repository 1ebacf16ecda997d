//! `check --watch`: a page checked again whenever its file changes.

use crate::inputs::Input;
use crate::outputs::complain;
use crate::sources::{Bytes, Sort, Source};
use crate::{check, json, outputs, Failure, Status};
use notify::{Event, RecommendedWatcher, RecursiveMode, Watcher};
use std::fs;
use std::path::{Path, PathBuf};
use std::sync::mpsc::{channel, Receiver, Sender};
use std::time::Duration;

/// So often a change is looked for without word of one: a file system of another machine sends none.
const LOOK: Duration = Duration::from_secs(1);
/// Editors write in several steps: a file is read when there was no word for so long, or after so many.
const QUIET: Duration = Duration::from_millis(50);
const WORDS_MOST: usize = 20;

/// Checks the page and goes on with that until it is interrupted or nobody reads standard output any longer.
pub fn run(files: &[Input], sort: Sort, json: bool) -> Result<Status, Failure> {
    let [input] = files else { return Err(Failure::Said("--watch takes a single page".to_string())) };
    let Some(path) = input.path().filter(|path| !path.is_dir()) else {
        return Err(Failure::Said(format!("{input}: --watch takes a file")));
    };
    let (words, changes) = channel();
    let _watcher = watcher(path, words.clone());
    let mut read = Ok(input.bytes().map_err(|why| Failure::Said(format!("{input}: {why}")))?);
    loop {
        tell(input, &read, sort, json)?;
        let before = read.clone();
        while read == before {
            wait(&changes);
            read = input.bytes();
        }
    }
}

fn tell(input: &Input, read: &Result<Vec<u8>, String>, sort: Sort, json: bool) -> Result<Status, Failure> {
    let sort = if sort == Sort::Table { sort } else { Sort::Page };
    match read {
        Ok(bytes) => {
            let bytes = Bytes::Whole(bytes.clone());
            check::tell(&Source { input: input.clone(), bytes, sort }, json)
        }
        Err(why) => {
            complain(&format!("{input}: {why}"));
            let failed = json.then(|| json::failed(&input.name().to_string_lossy(), why));
            failed.map_or(Ok(Status::Failed), |failed| outputs::print_line(&failed.to_string()))
        }
    }
}

/// Sends word of changes in the folder of the file, since editors put a new file in its place, and in that where a
/// link leads. Where this cannot be had, changes are still looked for.
fn watcher(path: &Path, words: Sender<()>) -> Option<RecommendedWatcher> {
    let heard = move |event: notify::Result<Event>| {
        // Reading the file is no change.
        if !event.is_ok_and(|event| event.kind.is_access()) {
            let _ = words.send(());
        }
    };
    let mut watcher = notify::recommended_watcher(heard).ok()?;
    let led_to = fs::canonicalize(path).ok().and_then(|path| folder_of(&path));
    for folder in folder_of(path).into_iter().chain(led_to) {
        let _ = watcher.watch(&folder, RecursiveMode::NonRecursive);
    }
    Some(watcher)
}

fn folder_of(path: &Path) -> Option<PathBuf> {
    let folder = path.parent()?;
    Some(if folder.as_os_str().is_empty() { PathBuf::from(".") } else { folder.to_path_buf() })
}

/// Waits until a change may have been made.
fn wait(changes: &Receiver<()>) {
    if changes.recv_timeout(LOOK).is_ok() {
        for _ in 0..WORDS_MOST {
            if changes.recv_timeout(QUIET).is_err() {
                return;
            }
        }
    }
}
