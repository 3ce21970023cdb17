//! Links the archive of the proved library, which stands at the repository's root.

use std::path::Path;
use std::{env, process};

fn main() {
    let package = env::var("CARGO_MANIFEST_DIR").expect("cargo names the package's folder");
    let folder = Path::new(&package).join("../../target/staticlib");
    let archive = folder.join("libplanner.a");
    println!("cargo:rerun-if-changed={}", archive.display());
    if !archive.is_file() {
        eprintln!(
            "{} is not there: `tools/build`, at the repository's root, makes it",
            archive.display()
        );
        process::exit(1);
    }
    println!("cargo:rustc-link-search=native={}", folder.display());
    println!("cargo:rustc-link-lib=static=planner");
}
