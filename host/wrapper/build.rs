//! Says where the static library stands: `./build library` writes it under the repository's root.

use std::path::PathBuf;

fn main() {
    let here = PathBuf::from(std::env::var_os("CARGO_MANIFEST_DIR").expect("set by cargo"));
    let folder = here.join("../../target/staticlib");
    let archive = folder.join("libcoreshare.a");
    println!("cargo:rerun-if-changed=build.rs");
    println!("cargo:rerun-if-changed={}", archive.display());
    println!("cargo:rustc-link-search=native={}", folder.display());
    // Not bundled: the library is only looked for when a program that calls it is linked.
    println!("cargo:rustc-link-lib=static:-bundle=coreshare");
    if !archive.exists() {
        println!("cargo:warning=libcoreshare.a is missing: run `./build library` at the root");
    }
}
