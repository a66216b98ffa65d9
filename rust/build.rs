//! Links the proved library, which `tools/build` builds.

use std::path::Path;

fn main() {
    let root = std::env::var("CARGO_MANIFEST_DIR").expect("cargo sets it");
    let folder = format!("{root}/../target/staticlib");
    let archive = format!("{folder}/libexport.a");
    println!("cargo:rerun-if-changed={archive}");
    if !Path::new(&archive).exists() {
        panic!("{archive} is not there: `tools/build` builds it");
    }
    println!("cargo:rustc-link-search=native={folder}");
    println!("cargo:rustc-link-lib=static=export");
}
