//! Links the proved static library, `target/staticlib/libhost.a` of the repository root.

use std::env;
use std::path::PathBuf;

fn main() {
    println!("cargo:rerun-if-changed=build.rs");
    let manifest = env::var_os("CARGO_MANIFEST_DIR").expect("cargo names the manifest's directory");
    let directory = PathBuf::from(manifest).join("../../target/staticlib");
    let archive = directory.join("libhost.a");
    println!("cargo:rerun-if-changed={}", archive.display());
    println!("cargo:rustc-link-search=native={}", directory.display());
    println!("cargo:rustc-link-lib=static=host");
    if !archive.exists() {
        println!("cargo:warning={} is not there", archive.display());
        println!("cargo:warning=`.ci/archive` makes it");
    }
}
