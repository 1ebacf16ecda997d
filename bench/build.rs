//! Compiles the plain C reader and the clocks with gcc -O2. Where UMAREKOZA_BEFORE_DIR names the folder of
//! another libumarekoza.a, the functions of it that are timed are linked too, as `before_..`, so that both
//! are timed in one run.

use std::env;
use std::path::{Path, PathBuf};
use std::process::{exit, Command};

const SETTING: &str = "UMAREKOZA_BEFORE_DIR";
const TIMED: [&str; 4] = ["check_table", "read_packet", "write_table", "find_field"];

fn main() {
    let folder = PathBuf::from(env::var_os("OUT_DIR").unwrap_or_default());
    let library = folder.join("libplain.a");
    for name in ["reader", "clock"] {
        let (source, object) = (format!("src/{name}.c"), folder.join(name).with_extension("o"));
        println!("cargo:rerun-if-changed={source}");
        let mut gcc = Command::new("gcc");
        run(gcc.args(["-O2", "-std=c11", "-Wall", "-Wextra", "-Werror", "-c", &source, "-o"]).arg(&object));
        run(Command::new("ar").arg("crs").arg(&library).arg(&object));
    }
    println!("cargo:rustc-link-search=native={}", folder.display());
    println!("cargo:rustc-link-lib=static=plain");
    println!("cargo:rustc-check-cfg=cfg(before)");
    println!("cargo:rerun-if-env-changed={SETTING}");
    if let Some(earlier) = env::var_os(SETTING).filter(|earlier| !earlier.is_empty()) {
        rename(&PathBuf::from(earlier).join("libumarekoza.a"), &folder);
        println!("cargo:rustc-link-lib=static=before");
        println!("cargo:rustc-cfg=before");
    }
}

/// The library under other names: the functions that are timed as `before_..`, the others kept to itself.
fn rename(library: &Path, folder: &Path) {
    println!("cargo:rerun-if-changed={}", library.display());
    let (named, kept) = (folder.join("named.a"), folder.join("libbefore.a"));
    let (mut naming, mut keeping) = (Command::new("objcopy"), Command::new("objcopy"));
    for name in TIMED {
        naming.arg(format!("--redefine-sym=umarekoza_{name}=before_{name}"));
        keeping.arg(format!("--keep-global-symbol=before_{name}"));
    }
    run(naming.arg(library).arg(&named));
    run(keeping.arg(&named).arg(&kept));
}

fn run(command: &mut Command) {
    if !command.status().is_ok_and(|status| status.success()) {
        eprintln!("{command:?} failed");
        exit(1);
    }
}
