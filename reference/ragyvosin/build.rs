//! Links the archive that `bin/build ragyvosin_c` makes.

use std::path::{Path, PathBuf};

fn main() {
    let here = PathBuf::from(std::env::var("CARGO_MANIFEST_DIR").expect("set by cargo"));
    let built = here.join("../../crates/ragyvosin_c/out");
    let folder = std::env::var("RAGYVOSIN_LIB").map_or(built, PathBuf::from);
    let archive = folder.join("libragyvosin_c.a");
    if !Path::new(&archive).is_file() {
        panic!("{} is missing: run `bin/build ragyvosin_c` first", archive.display());
    }
    println!("cargo:rerun-if-env-changed=RAGYVOSIN_LIB");
    println!("cargo:rerun-if-changed={}", archive.display());
    println!("cargo:rustc-link-search=native={}", folder.display());
    println!("cargo:rustc-link-lib=static=ragyvosin_c");
}
