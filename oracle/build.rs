//! Names the Rust sources as modules where they stand. Nothing of them is kept here: phase.rs, whose angles are changed, is
//! written anew beside what is built.

use std::path::PathBuf;
use std::process::exit;
use std::{env, fs};

const VARIABLE: &str = "VOLKJARP_RUST_SRC";
const FILES: [&str; 6] = [
    "csi_stream",
    "csi",
    "fingerprint",
    "phase",
    "vitals",
    "fall",
];

/// What is changed in phase.rs: in both octants the table of arctangents is read at the nearest index, half going up, where
/// the Rust rounds it down.
const CHANGES: [[&str; 2]; 2] = [
    ["(ay * 256 / ax)", "((ay * 256 + ax / 2) / ax)"],
    ["(ax * 256 / ay)", "((ax * 256 + ay / 2) / ay)"],
];

fn main() {
    let here = PathBuf::from(env::var_os("CARGO_MANIFEST_DIR").unwrap());
    let folder =
        env::var_os(VARIABLE).map_or_else(|| here.join("../../shared/docs/src"), PathBuf::from);
    let out = PathBuf::from(env::var_os("OUT_DIR").unwrap());
    let mut modules = String::new();
    for name in FILES {
        let file = folder.join(name).with_extension("rs");
        let Ok(mut file) = file.canonicalize() else {
            let file = file.display();
            stop(&format!(
                "{file} is missing: set {VARIABLE} to the folder with the Rust sources"
            ));
        };
        println!("cargo:rerun-if-changed={}", file.display());
        if name == "phase" {
            let text = fs::read_to_string(&file).unwrap();
            fs::write(out.join("unit_vector.rs"), unit_vector(&text)).unwrap();
            fs::write(out.join("floored.rs"), angle(&text)).unwrap();
            file = out.join("phase.rs");
            fs::write(&file, changed(text)).unwrap();
        }
        modules += &format!("#[path = {file:?}]\npub mod {name};\n");
    }
    println!("cargo:rerun-if-env-changed={VARIABLE}");
    fs::write(out.join("radar.rs"), modules).unwrap();
}

fn stop(words: &str) -> ! {
    eprintln!("{words}");
    exit(1);
}

/// The text with every change made. Each place must be there exactly once.
fn changed(mut text: String) -> String {
    for [old, new] in CHANGES {
        let places = text.matches(old).count();
        if places != 1 {
            stop(&format!("phase.rs has {old} {places} times, not once"));
        }
        text = text.replace(old, new);
    }
    text
}

/// The Rust's unit vectors, which it keeps to itself: the text of the table and of the function.
fn unit_vector(text: &str) -> String {
    let table = part(text, "const SIN_QUARTER", "];\n");
    let function = part(text, "const fn unit_vector", "\n}\n");
    format!("pub {table}\npub {function}")
}

/// The Rust's angle, unchanged: the text of the table and of the function.
fn angle(text: &str) -> String {
    let table = part(text, "const ATAN_OCTANT", "];\n");
    let function = part(text, "pub const fn atan2_brad", "\n}\n");
    format!("pub {table}\n{function}")
}

/// From one text to the end of another.
fn part<'a>(text: &'a str, from: &str, to: &str) -> &'a str {
    let start = text.find(from).expect(from);
    let length = text[start..].find(to).expect(to) + to.len();
    &text[start..start + length]
}
