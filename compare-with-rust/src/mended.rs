//! The mended reading of a message (document 02, E5), which the source does not have. It is the source's own decoder with the
//! request's sentence at the one place where the number of a WIDE token is read; build.rs puts it there.

use answers::{MAX_MESSAGE, TOO_LONG, UNDECODABLE};
use xara_arq::kiss::{self, Command};

#[allow(dead_code, clippy::all)]
mod source {
    include!(concat!(env!("OUT_DIR"), "/ax25.rs"));
}

/// Decodes a message: the command and the data, or the number of a refusal.
pub fn decode(message: &[u8]) -> Result<(u8, Vec<u8>), u8> {
    if message.len() > MAX_MESSAGE {
        return Err(TOO_LONG);
    }
    let (command, data) = read(message).ok_or(UNDECODABLE)?;
    Ok((command.byte(), data))
}

/// As the source's `kiss::decode`, which finds a frame by two bits of the header. Only frames have tokens.
fn read(message: &[u8]) -> Option<(Command, Vec<u8>)> {
    match (message.first()? >> 4) & 3 {
        0 | 1 => source::decode(message),
        _ => kiss::decode(message),
    }
}

#[cfg(test)]
mod tests {
    use super::*;
    use crate::wide;
    use answers::hex::from_hex;
    use answers::random::Random;
    use xara_arq::bits::{Bits, Reader};

    fn bytes(hex: &str) -> Vec<u8> {
        from_hex(hex).expect("capital hexadecimal")
    }

    #[test]
    fn worked_examples() {
        for (data, message, original) in wide::WORKED.map(|example| example.map(bytes).into()) {
            assert_eq!(answers::encode(0, &data).map(|(message, _)| message), Ok(message.clone()));
            assert_eq!(answers::decode(&message), Ok((0, original)));
            assert_eq!(decode(&message), Ok((0, data)));
        }
    }

    /// A token of these bits in the original and in the mended reading.
    fn tokens(bits: &str) -> [Option<String>; 2] {
        let bits = Bits(bits.bytes().map(|bit| bit == b'1').collect());
        let reader = || Reader::new(&bits.0);
        [xara_arq::ax25::token_decode(&mut reader(), 6), source::token_decode(&mut reader(), 6)]
    }

    #[test]
    fn tokens_by_their_bits() {
        let read = |bits: &str| tokens(bits).map(Option::unwrap_or_default);
        assert_eq!(read("100101110"), ["WIDE2-10", "WIDE2-2"]);
        assert_eq!(read("100101111"), ["WIDE2-11", "WIDE2-3"]);
        assert_eq!(read("100101010"), ["WIDE1-10", "WIDE1-2"]);
        assert_eq!(read("100101011"), ["WIDE1-11", "WIDE1-3"]);
        assert_eq!(read("100101001"), ["WIDE1-1", "WIDE1-1"]);
        assert_eq!(read("100101100"), ["WIDE2", "WIDE2"]);
        assert_eq!(read("10011011"), ["PNW2-1", "PNW2-1"]);
        assert_eq!(tokens("10010111"), [None, None], "a token without its last bit");
    }

    /// Where the four WIDE calls stand in a plain frame, it comes back.
    #[test]
    fn plain_frames() {
        let mut r = Random::new(1, "plain");
        let drawn: Vec<_> = (0..5_000).map(|_| wide::plain(&mut r)).collect();
        for frame in wide::every_place().into_iter().chain(drawn) {
            let (message, _) = answers::encode(0, &frame).expect("a plain frame is accepted");
            assert_eq!(decode(&message), Ok((0, frame)));
        }
    }
}
