//! Finds libumarekoza.a: in the folder that UMAREKOZA_LIB_DIR names, by an absolute path or one from this folder,
//! else in target/staticlib of the project.

use std::env;
use std::path::{Path, PathBuf};
use std::process::exit;

const SETTING: &str = "UMAREKOZA_LIB_DIR";

fn main() {
    println!("cargo:rerun-if-env-changed={SETTING}");
    let folder = match env::var_os(SETTING) {
        Some(folder) if !folder.is_empty() => PathBuf::from(folder),
        _ => PathBuf::from("../target/staticlib"),
    };
    let folder = Path::new(env!("CARGO_MANIFEST_DIR")).join(folder);
    let library = folder.join("libumarekoza.a");
    println!("cargo:rerun-if-changed={}", library.display());
    if !library.is_file() {
        eprintln!("{} is not there.", library.display());
        eprintln!("Make it with `tools/library`, or name its folder in {SETTING}.");
        exit(1);
    }
    println!("cargo:rustc-link-search=native={}", folder.display());
    println!("cargo:rustc-link-lib=static=umarekoza");
}
