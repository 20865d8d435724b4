//! The two readings that the caller of the decoder may choose (document 02, E5), and what holds between them.

use crate::codings::Expected;
use crate::lent::{Input, Lent};
use crate::mended;
use crate::tally::{Kind, Row, Tally};
use crate::xara::{self, Decoded};
use answers::hex::to_hex;

#[derive(Clone, Copy)]
pub enum Reading {
    /// The one that is held against the source.
    Original,
    /// The last two bits of a WIDE token are a binary number.
    Mended,
}

impl Reading {
    /// The data of a message as it must be, and its command.
    pub fn decode(self, message: &[u8]) -> Expected {
        let decoded = match self {
            Reading::Original => answers::decode(message),
            Reading::Mended => mended::decode(message),
        };
        decoded.map(|(command, data)| (data, command))
    }

    /// Our call.
    pub fn call(self, message: &mut [u8], out: &mut [u8]) -> Decoded {
        match self {
            Reading::Original => xara::decode(message, out),
            Reading::Mended => xara::decode_mended(message, out),
        }
    }

    /// The call for a reader of a difference.
    pub fn told(self, message: &[u8]) -> String {
        let reading = match self {
            Reading::Original => "",
            Reading::Mended => "\nin the mended reading",
        };
        format!("decode {}{reading}", to_hex(message))
    }
}

/// What the original reading makes of WIDE1-2, WIDE1-3, WIDE2-2 and WIDE2-3.
pub const MISREAD: [&str; 4] = ["WIDE1-10", "WIDE1-11", "WIDE2-10", "WIDE2-11"];

/// Whether data hold one of these calls, as the text of an addressee or a third party, or in an address field.
fn misread(command: u8, data: &[u8]) -> bool {
    let in_text = data.windows(MISREAD[0].len()).any(|text| MISREAD.iter().any(|call| call.as_bytes() == text));
    in_text || calls(command, data).any(|call| MISREAD.contains(&&call[..]))
}

/// The calls of a frame's addresses, up to the first whose low bit is set, each with its SSID; generic bytes have none.
fn calls(command: u8, data: &[u8]) -> impl Iterator<Item = String> {
    let letters = 6 + usize::from(command);
    let addresses = data.chunks_exact(letters + 1);
    let last = addresses.clone().position(|address| address[letters] & 1 == 1);
    let count = last.filter(|_| command < 2).map_or(0, |last| last + 1);
    addresses.take(count).map(move |address| {
        let name: String = address[..letters].iter().map(|letter| char::from(letter >> 1)).collect();
        format!("{}-{}", name.trim_end(), (address[letters] & 0x1E) >> 1)
    })
}

/// Our two calls on any message, with each of these outputs. Where the original answer holds none of the four calls, both readings
/// give the same answer and the same bytes, refusals too. Where it does, both still accept the message, with the same command, and
/// the mended answer needs no more room.
pub fn alike(message: &[u8], original: &Expected, outputs: Vec<Lent>, tally: &mut Tally) {
    let misread = original.as_ref().ok().filter(|(data, command)| misread(*command, data));
    tally.misread(misread.is_some());
    let least = misread.map_or(0, |(data, _)| data.len());
    for out in outputs.into_iter().filter(|out| out.room() >= least) {
        let mut input = Input::new(message);
        let (mut first, mut second) = (out.clone(), out);
        let original = Reading::Original.call(&mut input.lent, first.part());
        let mended = Reading::Mended.call(&mut input.lent, second.part());
        let told = || format!("{}, and in the original one\n{}", Reading::Mended.told(message), first.told());
        let (answer, written) = match misread {
            None => (original, [&first.bytes[..], &second.bytes]),
            Some(_) => (Decoded { length: mended.length, ..original }, [&[][..], &[]]),
        };
        let expected = Row { answer, written: written[0], read: message };
        tally.compare(Kind::Readings, expected, Row { answer: mended, written: written[1], read: &input.lent }, told);
    }
}

#[cfg(test)]
mod tests {
    use super::*;
    use answers::hex::from_hex;

    #[test]
    fn calls_that_are_misread() {
        let held = |command, hex: &str| misread(command, &from_hex(hex).expect("capital hexadecimal"));
        assert!(held(0, "86A2404040406096628240404062AE92888A64407503F041"), "a digipeater WIDE2-10");
        assert!(held(0, "86A2404040406096628240404062AE92888A6240F703F041"), "WIDE1-11, heard");
        assert!(!held(0, "86A2404040406096628240404062AE92888A64406503F041"), "WIDE2-2");
        assert!(!held(0, "86A2404040406096628240404063AE92888A64407503F041"), "after the last address");
        assert!(held(1, "86A24040404040609662824040404062AE92888A6440407503F041"), "of a long frame");
        assert!(!held(2, "86A2404040406096628240404062AE92888A64407503F041"), "generic bytes");
        assert!(misread(0, b":WIDE2-10 :hi"));
        assert!(!misread(0, b":WIDE2-1  :hi"));
    }
}
