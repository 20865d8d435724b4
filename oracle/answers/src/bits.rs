//! Single calls of the source's bits.rs, over packed bytes and a bit position.

use xara_arq::bits::{Bits, Reader};

/// `push(v, at)` into nothing, then `push(w, n)`, packed.
pub fn push(v: u64, at: usize, w: u64, n: usize) -> Vec<u8> {
    let mut bits = begun(v, at);
    bits.push(w, n);
    bits.pack()
}

/// `push(v, at)` into nothing, then `push_bfi(w, n)`, packed; n is 1 or more.
pub fn push_bfi(v: u64, at: usize, w: u64, n: usize) -> Vec<u8> {
    let mut bits = begun(v, at);
    bits.push_bfi(w, n);
    bits.pack()
}

/// `push(v, at)` into nothing, then `push_text7(text)`, packed.
pub fn push_text7(v: u64, at: usize, text: &[u8]) -> Vec<u8> {
    let mut bits = begun(v, at);
    bits.push_text7(text);
    bits.pack()
}

/// `take(n)` at a bit position that is not beyond the end.
pub fn take(bytes: &[u8], at: usize, n: usize) -> Option<u64> {
    Reader { bits: &Bits::unpack(bytes).0, pos: at }.take(n)
}

/// `text(n)` at a bit position that is not beyond the end, its digits 0 and 1 read by `vb_val`.
pub fn text(bytes: &[u8], at: usize, n: usize) -> Option<u64> {
    let digits = Reader { bits: &Bits::unpack(bytes).0, pos: at }.text(n)?;
    Some(vb_val(digits.as_bytes()))
}

/// `text7()` at a bit position.
pub fn text7(bytes: &[u8], at: usize) -> Option<Vec<u8>> {
    Reader { bits: &Bits::unpack(bytes).0, pos: at }.text7()
}

/// The number that a text begins with.
pub fn vb_val(text: &[u8]) -> u64 {
    xara_arq::bits::vb_val(text)
}

/// What was written before: the low `at` bits of `v`, at most 64.
fn begun(v: u64, at: usize) -> Bits {
    let mut bits = Bits::default();
    bits.push(v, at);
    bits
}
