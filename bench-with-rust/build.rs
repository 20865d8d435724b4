//! Links the archive that `./archive` writes.

use std::env;

fn main() {
    let package = env::var("CARGO_MANIFEST_DIR").expect("cargo sets this");
    let folder = format!("{package}/../target/staticlib");
    println!("cargo:rustc-link-search=native={folder}");
    println!("cargo:rustc-link-lib=static=xara");
    println!("cargo:rerun-if-changed={folder}/libxara.a");
}
