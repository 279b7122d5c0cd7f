//! Links the library for callers, `libcargo_lock.a`: in the folder that the variable
//! `CARGO_LOCK_LIBRARY_DIR` names, or else in `native/TARGET` of this crate, or else where
//! `pkg-config` finds it.

use std::env;
use std::path::{Path, PathBuf};
use std::process::Command;

const FOLDER: &str = "CARGO_LOCK_LIBRARY_DIR";
const ARCHIVE: &str = "libcargo_lock.a";

fn main() {
    println!("cargo:rerun-if-env-changed={FOLDER}");
    // The pages of docs.rs are made without the library.
    if env::var_os("DOCS_RS").is_some() {
        return;
    }
    let target = env::var("TARGET").expect("cargo names the target");
    match folder(&target) {
        Some(folder) => link(&folder),
        None => {
            eprintln!("proved-cargo-lock: no {ARCHIVE} for {target}; set {FOLDER}");
            std::process::exit(1);
        }
    }
}

/// The folder of the library.
fn folder(target: &str) -> Option<PathBuf> {
    if let Some(named) = env::var_os(FOLDER) {
        return Some(PathBuf::from(named));
    }
    let own = PathBuf::from(env::var_os("CARGO_MANIFEST_DIR")?).join("native").join(target);
    if own.join(ARCHIVE).is_file() {
        return Some(own);
    }
    installed()
}

/// The folder that `pkg-config` names.
fn installed() -> Option<PathBuf> {
    let words = ["--variable=libdir", "cargo_lock"];
    let found = Command::new("pkg-config").args(words).output().ok()?;
    let folder = PathBuf::from(String::from_utf8(found.stdout).ok()?.trim());
    (found.status.success() && folder.join(ARCHIVE).is_file()).then_some(folder)
}

fn link(folder: &Path) {
    println!("cargo:rerun-if-changed={}", folder.join(ARCHIVE).display());
    println!("cargo:rustc-link-search=native={}", folder.display());
    println!("cargo:rustc-link-lib=static=cargo_lock");
}
