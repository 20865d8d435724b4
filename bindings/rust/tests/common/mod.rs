//! Outputs of every length, with bytes around them that must stay, and messages made of bits.

use xara::Refusal;

/// A byte that a lent output holds before the call.
pub const SENTINEL: u8 = 0xA5;
const MARGIN: usize = 8;

/// A call that is to write these bytes, with every room up to one more than they take.
pub fn rooms(answer: &[u8], call: impl Fn(&mut [u8]) -> Result<Vec<u8>, Refusal>) {
    for room in 0..=answer.len() + 1 {
        let mut bytes = vec![SENTINEL; room + 2 * MARGIN];
        let said = call(&mut bytes[MARGIN..MARGIN + room]);
        let mut expected = vec![SENTINEL; room + 2 * MARGIN];
        if room < answer.len() {
            assert_eq!(said, Err(Refusal::Output), "room for {room}");
        } else {
            assert_eq!(said.as_deref(), Ok(answer), "room for {room}");
            expected[MARGIN..MARGIN + answer.len()].copy_from_slice(answer);
        }
        assert_eq!(bytes, expected, "room for {room}");
    }
}

/// A message of this header byte and these bits, with zeros up to a whole byte.
pub fn packed(header: u8, bits: &str) -> Vec<u8> {
    let byte = |bits: &[u8]| (0..8).fold(0, |v, i| v << 1 | (bits.get(i).unwrap_or(&b'0') - b'0'));
    [header].into_iter().chain(bits.as_bytes().chunks(8).map(byte)).collect()
}
