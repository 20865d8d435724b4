//! Links the archive that `./archive` writes, and writes the decoder of the mended reading: the source's ax25.rs with one
//! sentence of document 02 in it.

use std::{env, fs};

/// Where the source reads the number of a token, the digits 0 and 1 as a decimal number.
const DECIMAL: &str = "let nn = vb_val(r.text(w)?.as_bytes());";
/// "A mended reading in which the last two bits of a WIDE token are a binary number" (02, E5). Other tokens are read as before.
const BINARY: &str = "let nn = if name == \"WIDE\" { r.take(w)? } else { vb_val(r.text(w)?.as_bytes()) };";

fn main() {
    let package = env::var("CARGO_MANIFEST_DIR").expect("cargo sets this");
    link(&format!("{package}/../target/staticlib"));
    mend(&format!("{package}/../oracle/xara-arq/src/ax25.rs"));
}

fn link(folder: &str) {
    println!("cargo:rustc-link-search=native={folder}");
    println!("cargo:rustc-link-lib=static=xara");
    println!("cargo:rerun-if-changed={folder}/libxara.a");
}

/// The source's file with the sentence at its one place. It stands in another crate then, so its two `use` lines name the source's.
fn mend(path: &str) {
    println!("cargo:rerun-if-changed={path}");
    let source = fs::read_to_string(path).expect("the source can be read");
    let mended = replaced(&source, DECIMAL, BINARY, 1);
    let mended = replaced(&mended, "use crate::", "use xara_arq::", 2);
    let folder = env::var("OUT_DIR").expect("cargo sets this");
    fs::write(format!("{folder}/ax25.rs"), mended).expect("the copy can be written");
}

/// A text with another piece in each place of the first, which must be so many.
fn replaced(text: &str, old: &str, new: &str, places: usize) -> String {
    assert_eq!(text.matches(old).count(), places, "places of {old:?} in the source");
    text.replace(old, new)
}
