//! Build script of every driver: `compare_X` links libX_c.a, which `make target/staticlib/libX_c.a` writes, or libX.a where there is no such file.

use std::env;
use std::path::PathBuf;
use std::process::exit;

const VARIABLE: &str = "VOLKJARP_STATICLIB_DIR";

fn main() {
    let driver = env::var("CARGO_PKG_NAME").unwrap();
    let subject = driver
        .strip_prefix("compare_")
        .expect("a driver is named compare_X");
    let here = PathBuf::from(env::var_os("CARGO_MANIFEST_DIR").unwrap());
    let folder =
        env::var_os(VARIABLE).map_or_else(|| here.join("../../../target/staticlib"), PathBuf::from);
    let names = [format!("{subject}_c"), subject.to_string()];
    let Some((library, file)) = names.iter().find_map(|name| {
        let file = folder.join(format!("lib{name}.a")).canonicalize().ok()?;
        Some((name, file))
    }) else {
        let folder = folder.display();
        eprintln!("{folder} has no library of {subject}: run `make library`, or set {VARIABLE}");
        exit(1);
    };
    println!(
        "cargo:rustc-link-search=native={}",
        file.parent().unwrap().display()
    );
    println!("cargo:rustc-link-lib=static={library}");
    println!("cargo:rerun-if-changed={}", file.display());
    println!("cargo:rerun-if-env-changed={VARIABLE}");
}
