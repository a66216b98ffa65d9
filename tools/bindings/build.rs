//! Links the proved library, which `tools/build` builds.

fn main() {
    let root = std::env::var("CARGO_MANIFEST_DIR").expect("cargo sets it");
    let folder = format!("{root}/../../target/staticlib");
    println!("cargo:rustc-link-search=native={folder}");
    println!("cargo:rustc-link-lib=static=export");
    // Without this a library that was built anew would not be linked anew.
    println!("cargo:rerun-if-changed={folder}/libexport.a");
}
