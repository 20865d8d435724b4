//! Links libxara.a, which `./archive` writes: from the folder that XARA_LIB_DIR names, or from target/staticlib of the
//! repository.

use std::env;
use std::path::PathBuf;

fn main() {
    println!("cargo:rerun-if-env-changed=XARA_LIB_DIR");
    let folder = env::var_os("XARA_LIB_DIR").map_or_else(in_repository, PathBuf::from);
    let archive = folder.join("libxara.a");
    assert!(
        archive.is_file(),
        "there is no {}: write it by `./archive` in the repository, or name its folder in XARA_LIB_DIR",
        archive.display()
    );
    println!("cargo:rerun-if-changed={}", archive.display());
    println!("cargo:rustc-link-search=native={}", folder.display());
    println!("cargo:rustc-link-lib=static=xara");
}

fn in_repository() -> PathBuf {
    let package = env::var_os("CARGO_MANIFEST_DIR").expect("cargo sets this");
    PathBuf::from(package).join("../../target/staticlib")
}
