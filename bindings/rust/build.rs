//! Links the library that `tools/library` builds in this repository, or the one in the folder that NEGYVOSAL_LIB_DIR
//! names.

use std::path::PathBuf;

fn main() {
    println!("cargo:rerun-if-env-changed=NEGYVOSAL_LIB_DIR");
    let here = PathBuf::from(std::env::var("CARGO_MANIFEST_DIR").expect("cargo sets it"));
    let folder = std::env::var("NEGYVOSAL_LIB_DIR").map_or_else(|_| here.join("../../target/library"), PathBuf::from);
    println!("cargo:rustc-link-search=native={}", folder.display());
    println!("cargo:rustc-link-lib=static=negyvosal");
}
