//! Finds the library, or has it made: in the folder that `VOLKJARP_STATICLIB_DIR` names, or else in
//! target/staticlib of the repository. Where it is missing and cannot be made, `cargo check` and
//! `cargo doc` still work: a warning says so, and only a program that is linked needs it.

use std::env;
use std::ffi::OsStr;
use std::fs;
use std::path::{Path, PathBuf};
use std::process::{Command, exit};
use std::time::SystemTime;

const ARCHIVE: &str = "libvolkjarp.a";

const VARIABLE: &str = "VOLKJARP_STATICLIB_DIR";

/// What the archive is made from: in the repository, this list of its crates, and these folders of
/// each; what rt makes stands beside them.
const CRATES: &str = "crates.txt";

const PARTS: [&str; 3] = ["src", "specs", "proofs"];

fn main() {
    println!("cargo:rerun-if-env-changed={VARIABLE}");
    let variable = |name: &str| env::var(name).unwrap_or_default();
    let system = ["CARGO_CFG_TARGET_ARCH", "CARGO_CFG_TARGET_OS"].map(variable);
    if system != ["x86_64", "linux"] {
        let [arch, os] = system;
        fail(&format!(
            "volkjarp is compiled for x86-64 Linux alone, not for {arch} {os}"
        ));
    }
    let root = PathBuf::from(env::var_os("CARGO_MANIFEST_DIR").unwrap()).join("..");
    let folder = match env::var_os(VARIABLE) {
        Some(folder) => named(&folder),
        None => of_the_repository(&root),
    };
    println!("cargo:rustc-link-search=native={}", folder.display());
    // Not bundled: the crate itself is built without the archive.
    println!("cargo:rustc-link-lib=static:-bundle=volkjarp");
    let archive = folder.join(ARCHIVE);
    println!("cargo:rerun-if-changed={}", archive.display());
}

fn named(folder: &OsStr) -> PathBuf {
    let folder = PathBuf::from(folder);
    if !folder.join(ARCHIVE).exists() {
        let folder = folder.display();
        fail(&format!(
            "{VARIABLE} names {folder}, which has no {ARCHIVE}"
        ));
    }
    folder.canonicalize().unwrap()
}

fn of_the_repository(root: &Path) -> PathBuf {
    let sources = sources(root);
    for source in &sources {
        println!("cargo:rerun-if-changed={}", source.display());
    }
    let changed = sources.iter().filter_map(|source| newest(source));
    let changed = changed.max().unwrap_or(SystemTime::UNIX_EPOCH);
    let folder = root.join("target/staticlib");
    let made = fs::metadata(folder.join(ARCHIVE)).and_then(|archive| archive.modified());
    if made.is_ok_and(|made| made >= changed) {
        return folder.canonicalize().unwrap();
    }
    if Command::new("rt").arg("help").output().is_ok() {
        make(root);
    } else {
        warn(&format!(
            "{ARCHIVE} is missing or older than crates/, and rt, which proves and makes it, is not \
             found. What is linked needs the Rattle toolchain, or {VARIABLE} set to a folder that \
             has {ARCHIVE}."
        ));
    }
    folder.canonicalize().unwrap_or(folder)
}

/// What the archive is made from.
fn sources(root: &Path) -> Vec<PathBuf> {
    let crates = fs::read_dir(root.join("crates")).into_iter().flatten();
    let parts = crates
        .flatten()
        .flat_map(|entry| PARTS.map(|part| entry.path().join(part)));
    let there = parts.filter(|part| part.exists());
    there.chain([root.join(CRATES)]).collect()
}

/// The time of the last change in a file or folder.
fn newest(path: &Path) -> Option<SystemTime> {
    let own = fs::metadata(path).and_then(|entry| entry.modified()).ok();
    let entries = fs::read_dir(path).into_iter().flatten().flatten();
    entries
        .filter_map(|entry| newest(&entry.path()))
        .chain(own)
        .max()
}

fn make(root: &Path) {
    warn(&format!(
        "`make library` makes {ARCHIVE}, with its proofs: minutes on a new clone"
    ));
    match Command::new("make")
        .arg("library")
        .current_dir(root)
        .status()
    {
        Ok(status) if status.success() => {}
        ended => fail(&format!("`make library` failed ({ended:?})")),
    }
}

fn warn(what: &str) {
    println!("cargo:warning={what}");
}

fn fail(why: &str) -> ! {
    eprintln!("{why}");
    exit(1)
}
