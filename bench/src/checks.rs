//! `umarekoza check FOLDER`, run as a command.

use crate::cases::Case;
use crate::rounds::Call;
use std::env;
use std::fs;
use std::path::{Path, PathBuf};
use std::process::{id, Command, Stdio};

/// A folder with pages that is there as long as this is.
pub struct Pages(PathBuf);

impl Pages {
    pub fn new(cases: &[Case]) -> Self {
        let folder = env::temp_dir().join(format!("umarekoza-bench-{}", id()));
        fs::create_dir(&folder).expect("a folder for the pages can be made");
        let pages = Pages(folder);
        for (index, case) in cases.iter().enumerate() {
            fs::write(pages.0.join(format!("p{index:02}.txt")), &case.page).expect("a page can be written");
        }
        pages
    }

    /// Runs the command over the folder, its output to nowhere.
    pub fn check<'a>(&'a self, command: &'a Path) -> Call<'a> {
        Box::new(move || {
            let mut check = Command::new(command);
            check.arg("check").arg(&self.0).stdout(Stdio::null()).stderr(Stdio::null());
            assert!(check.status().is_ok_and(|status| status.success()), "{check:?}");
        })
    }
}

impl Drop for Pages {
    fn drop(&mut self) {
        if let Err(why) = fs::remove_dir_all(&self.0) {
            eprintln!("{}: {why}", self.0.display());
        }
    }
}

#[cfg(test)]
mod tests {
    use super::Pages;
    use crate::cases::Case;
    use std::fs;

    #[test]
    fn pages_are_there_for_a_while() {
        let case = Case::blade();
        let pages = Pages::new(std::slice::from_ref(&case));
        let folder = pages.0.clone();
        assert_eq!(fs::read(folder.join("p00.txt")).unwrap(), case.page);
        drop(pages);
        assert!(!folder.exists());
    }
}
