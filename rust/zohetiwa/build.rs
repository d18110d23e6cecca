//! Links the static library of the crate `exports`, which `.ci/library` has `rt lib` leave in crates/exports/out.

use std::path::Path;
use std::process::exit;

fn main() {
    let folder = Path::new(env!("CARGO_MANIFEST_DIR")).join("../../crates/exports/out");
    let library = folder.join("libexports.a");
    if !library.is_file() {
        eprintln!("{} is missing: run `.ci/library` first", library.display());
        exit(1);
    }
    println!("cargo:rerun-if-changed={}", library.display());
    println!("cargo:rustc-link-search=native={}", folder.display());
    println!("cargo:rustc-link-lib=static=exports");
}
