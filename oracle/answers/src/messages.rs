//! Messages to decode: coded data, the same damaged, words of the dictionary, and any bytes.

use crate::random::Random;
use crate::{MAX_MESSAGE, frames};
use xara_arq::ax25::token_encode;
use xara_arq::bits::Bits;

/// The header of a long frame with eight digipeaters and control and PID of 03 F0.
const FULL: u8 = 0x5F;
/// The code of the longest word, `PinPoint`.
pub const LONGEST: u64 = 3;
/// The number of a message among the inner types.
pub const MESSAGE: u64 = 2;

/// The message of some data; of data that is refused, the data itself.
fn coded(r: &mut Random) -> Vec<u8> {
    let (command, data) = frames::data(r);
    crate::encode(command, &data).map_or(data, |(message, _)| message)
}

/// Up to three bits changed, bytes cut off or added.
fn damage(r: &mut Random, message: &mut Vec<u8>) {
    match r.below(4) {
        0 => message.truncate(r.below(message.len() + 1)),
        1 => {
            let more = length(r);
            message.extend(r.bytes(more));
        }
        _ if message.is_empty() => {}
        _ => {
            for _ in 0..=r.below(3) {
                let near = message.len().min(if r.below(2) == 0 { 8 } else { MAX_MESSAGE });
                message[r.below(near)] ^= 1 << r.below(8);
            }
        }
    }
}

/// A length up to the most, short ones as often as long ones.
fn length(r: &mut Random) -> usize {
    let halvings = r.below(13);
    r.below(1 + (MAX_MESSAGE >> halvings))
}

/// What stands in a third party's message before its text: the digipeaters' bits, six calls, the alias and the inner type.
pub struct ThirdParty<'a> {
    pub heard: u64,
    pub calls: [&'a str; 6],
    pub alias: u64,
    pub inner: u64,
}

impl ThirdParty<'_> {
    /// The message of n bytes with a text of such codes.
    pub fn message(&self, n: usize, mut code: impl FnMut() -> u64) -> Vec<u8> {
        let mut bits = Bits::default();
        let calls = |bits: &mut Bits, calls: &[&str]| {
            for call in calls {
                token_encode(call, 7, bits).expect("a call that has a token");
            }
        };
        bits.push(self.heard, 8);
        calls(&mut bits, &self.calls[..2]);
        bits.push(1, 1);
        bits.push(self.alias, 3);
        bits.push(6, 3);
        calls(&mut bits, &self.calls[2..5]);
        bits.push(self.inner, 2);
        calls(&mut bits, &self.calls[5..]);
        while bits.len() + 7 <= 8 * n.saturating_sub(1) {
            bits.push(code(), 7);
        }
        let mut message = [&[FULL], &bits.pack()[..]].concat();
        message.truncate(n);
        message
    }
}

/// A message of n bytes, a third party's, with a text of words; of `PinPoint` alone it has the most to decode.
pub fn words(r: &mut Random, n: usize, longest: bool) -> Vec<u8> {
    let heard = r.number();
    let alias = 1 + r.below(5) as u64;
    let inner = if longest { MESSAGE } else { r.number() };
    let mut calls = ["APBPQ1"; 6];
    if longest {
        calls[2] = "WIDE2-3";
    }
    let party = ThirdParty { heard, calls, alias, inner };
    party.message(n, || if longest { LONGEST } else { r.below(12) as u64 })
}

/// A message to decode, at times one that is too long.
pub fn message(r: &mut Random) -> Vec<u8> {
    let mut message = match r.below(16) {
        0..5 => coded(r),
        5..10 => {
            let mut message = coded(r);
            damage(r, &mut message);
            message
        }
        10 => {
            let n = length(r);
            words(r, n, false)
        }
        _ => {
            let n = length(r);
            r.bytes(n)
        }
    };
    if r.below(1000) == 0 {
        let longest = r.below(2) == 0;
        message = words(r, MAX_MESSAGE, longest);
    }
    if r.below(500) == 0 {
        message.resize(MAX_MESSAGE - 1 + r.below(4), r.byte());
    }
    message
}

#[cfg(test)]
mod tests {
    use super::*;
    use std::collections::{BTreeMap, BTreeSet};

    #[test]
    fn the_most_bytes() {
        let message = words(&mut Random::new(1, "most"), MAX_MESSAGE, true);
        assert_eq!(message.len(), MAX_MESSAGE);
        assert_eq!(crate::decode(&message).map(|(command, data)| (command, data.len())), Ok((1, 45_764)));
    }

    #[test]
    fn every_command_refusal_and_header() {
        let mut r = Random::new(1, "every");
        let mut seen = BTreeMap::new();
        let mut headers = BTreeSet::new();
        for _ in 0..20_000 {
            let m = message(&mut r);
            headers.extend(m.first().copied());
            *seen.entry(crate::decode(&m).map(|(command, _)| command)).or_insert(0) += 1;
        }
        println!("{seen:?}");
        for answer in [Ok(0), Ok(1), Ok(2), Err(2), Err(7)] {
            assert!(seen[&answer] > 15, "{answer:?}");
        }
        assert_eq!(headers.len(), 256);
    }
}
