//! Links the library's archive: from the folder that GT_LIBRARIES names, else from the repository's own.

use std::env;
use std::path::{Path, PathBuf};

const ARCHIVE: &str = "c_interface";

fn main() {
    let manifest = env::var("CARGO_MANIFEST_DIR").expect("cargo sets CARGO_MANIFEST_DIR");
    let folder = match env::var("GT_LIBRARIES") {
        Ok(folder) => PathBuf::from(folder),
        Err(_) => Path::new(&manifest).join("../../target/staticlib"),
    };
    println!("cargo:rerun-if-env-changed=GT_LIBRARIES");
    println!("cargo:rerun-if-changed=build.rs");
    println!("cargo:rustc-link-search=native={}", folder.display());
    println!("cargo:rustc-link-lib=static={ARCHIVE}");
    let file = folder.join(format!("lib{ARCHIVE}.a"));
    println!("cargo:rerun-if-changed={}", file.display());
}
