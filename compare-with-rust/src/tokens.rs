//! Messages of tokens: WIDE calls and their neighbours wherever a token stands, whole, cut in a token's last bits, and damaged.

use crate::readings::MISREAD;
use crate::wide::{self, ALIASES, suffix};
use answers::random::Random;
use xara_arq::ax25::token_encode;
use xara_arq::bits::Bits;

/// The calls of a message, its path, and what comes after its type.
struct Parts {
    long: bool,
    ui: bool,
    heard: u64,
    dest: String,
    source: String,
    path: Path,
    body: Body,
    text: Vec<u8>,
}

enum Path {
    /// So many digipeaters under one number, of which 0, 6 and 7 are none. It is for a destination that starts with AP.
    Alias(usize, u64),
    Calls(Vec<String>),
}

enum Body {
    /// A type whose body has no token.
    Plain(u64),
    /// A message and its addressee.
    Message(String),
    /// A third party's calls and inner type, and an addressee, which is there where the inner type is a message.
    Third([String; 3], u64, String),
}

/// A message, and for each of its tokens the call and the bit after it, counted after the header.
struct Coded {
    message: Vec<u8>,
    ends: Vec<(String, usize)>,
}

/// Bits with the tokens among them.
struct Tokens {
    bits: Bits,
    ends: Vec<(String, usize)>,
    letters: usize,
}

impl Tokens {
    fn token(&mut self, call: &str) {
        token_encode(call, self.letters, &mut self.bits).expect("a call that has a token");
        self.ends.push((call.to_string(), self.bits.len()));
    }

    fn path(&mut self, path: &Path, ap: bool) {
        match path {
            Path::Alias(_, number) => self.bits.push(8 | number, 4),
            Path::Calls(calls) => {
                if ap && !calls.is_empty() {
                    self.bits.bit(false);
                }
                calls.iter().for_each(|call| self.token(call));
            }
        }
    }

    fn body(&mut self, body: &Body, ap: bool) {
        let width = if ap { 3 } else { 1 };
        match body {
            Body::Plain(kind) => self.bits.push(*kind, width),
            Body::Message(addressee) => {
                self.bits.push(4, width);
                self.token(addressee);
            }
            Body::Third(calls, inner, addressee) => {
                self.bits.push(6, width);
                calls.iter().for_each(|call| self.token(call));
                self.bits.push(*inner, 2);
                if *inner == 2 {
                    self.token(addressee);
                }
            }
        }
    }
}

impl Parts {
    /// From K1A to APRS, with so many digipeaters under the alias WIDE.
    fn new(long: bool, digis: usize, body: Body) -> Self {
        let path = if digis > 0 { Path::Alias(digis, 1) } else { Path::Calls(Vec::new()) };
        let (dest, source) = ("APRS".to_string(), "K1A".to_string());
        Parts { long, ui: true, heard: 0, dest, source, path, body, text: b"hi".to_vec() }
    }

    /// Parts that are drawn; the types 5 and 7 are among them, which are none.
    fn drawn(r: &mut Random) -> Self {
        let dest = wide::destination(r);
        let ap = dest.starts_with("AP");
        let digis = r.below(9);
        let aliased = ap && digis > 0 && r.below(4) == 0;
        let path = if aliased { Path::Alias(digis, r.number() & 7) } else { Path::Calls(wide::path(r, digis)) };
        let body = match r.below(4) {
            0 if ap => Body::Message(wide::call(r)),
            1 if ap => Body::Third(std::array::from_fn(|_| wide::call(r)), r.number() & 3, wide::call(r)),
            _ => Body::Plain(if ap { r.one_of(&[0, 1, 2, 3, 5, 7]).into() } else { r.number() }),
        };
        let source = wide::call(r);
        let text = (0..r.below(30)).map(|_| r.byte()).collect();
        Parts { long: r.below(3) == 0, ui: r.below(4) > 0, heard: r.number(), dest, source, path, body, text }
    }

    fn digis(&self) -> usize {
        match &self.path {
            Path::Alias(digis, _) => *digis,
            Path::Calls(calls) => calls.len(),
        }
    }

    fn coded(&self) -> Coded {
        let mut tokens = Tokens { bits: Bits::default(), ends: Vec::new(), letters: 6 + usize::from(self.long) };
        let (digis, ap) = (self.digis(), self.dest.starts_with("AP"));
        tokens.bits.push(self.heard, digis);
        tokens.token(&self.dest);
        tokens.token(&self.source);
        tokens.path(&self.path, ap);
        tokens.body(&self.body, ap);
        self.text.iter().for_each(|&letter| tokens.bits.push(letter.into(), 7));
        let path = if digis > 0 { 0x08 | (digis as u8 - 1) } else { 0 };
        let header = u8::from(self.long) << 4 | u8::from(self.ui) << 6 | path;
        Coded { message: [&[header], &tokens.bits.pack()[..]].concat(), ends: tokens.ends }
    }
}

impl Coded {
    /// The message cut at the byte in which the last token of this call ends, and after that byte.
    fn cut(&self, call: &str) -> Vec<Vec<u8>> {
        let mut tokens = self.ends.iter().filter(|(name, _)| name == call);
        let lengths = tokens.next_back().map(|(_, end)| [1 + end / 8, 1 + end.div_ceil(8)]);
        lengths.into_iter().flatten().map(|length| self.message[..length].to_vec()).collect()
    }
}

/// The eight WIDE tokens, the sixteen of the other pairs, and the four calls that a WIDE token is misread as, which are spelled.
fn names() -> Vec<String> {
    let pairs = ALIASES.iter().flat_map(|name| [1, 2].map(|digit| format!("{name}{digit}")));
    let tokens = pairs.flat_map(|name| {
        let numbers = if name.starts_with("WIDE") { 4 } else { 2 };
        (0..numbers).map(move |number| format!("{name}{}", suffix(number)))
    });
    tokens.chain(MISREAD.map(str::to_string)).collect()
}

/// A message with this call in one of eight places.
fn placed(call: &str, place: usize, long: bool, digis: usize) -> Parts {
    let call = call.to_string();
    let third = |k: usize| {
        let mut calls = ["K2B", "APRS", "K3C"].map(str::to_string);
        calls[k] = call.clone();
        Body::Third(calls, 3, String::new())
    };
    let plain = Parts::new(long, digis, Body::Plain(0));
    match place {
        0 => Parts { dest: call, path: Path::Calls(vec!["CQ".to_string(); digis]), ..plain },
        1 => Parts { source: call, ..plain },
        2 => Parts { path: Path::Calls(vec![call; digis]), ..plain },
        3 => Parts { body: Body::Message(call), ..plain },
        4..7 => Parts { body: third(place - 4), ..plain },
        _ => Parts { body: Body::Third(["CQ", "CQ", "CQ"].map(str::to_string), 2, call), ..plain },
    }
}

/// Each of these calls in every place where a token stands, under both lengths of calls, after none to eight digipeaters, which moves
/// the token by as many bits. Each message is there whole and cut at the token's end.
pub fn every_token() -> Vec<Vec<u8>> {
    let mut all = Vec::new();
    for call in names() {
        for (place, digis) in (0..8).flat_map(|place| (0..=8).map(move |digis| (place, digis))) {
            for long in [false, true] {
                let coded = placed(&call, place, long, digis).coded();
                all.extend(coded.cut(&call));
                all.push(coded.message);
            }
        }
    }
    all
}

/// Some message, one in three cut near the end of a token, and one in four with a bit changed.
pub fn message(r: &mut Random) -> Vec<u8> {
    let Coded { mut message, ends } = Parts::drawn(r).coded();
    if r.below(3) == 0 {
        let (_, end) = ends[r.below(ends.len())];
        message.truncate(1 + end / 8 + r.below(2));
    }
    if r.below(4) == 0 {
        let place = r.below(8 * message.len());
        message[place / 8] ^= 0x80 >> (place % 8);
    }
    message
}

#[cfg(test)]
mod tests {
    use super::*;
    use crate::mended;
    use std::collections::{BTreeMap, BTreeSet};

    const PLACES: usize = 8;

    /// In every place, and under both lengths of calls, the four calls are read in two ways and all others in one.
    #[test]
    fn read_in_two_ways() {
        for (call, place) in names().iter().flat_map(|call| (0..PLACES).map(move |place| (call, place))) {
            for long in [false, true] {
                let message = placed(call, place, long, 2).coded().message;
                let differ = answers::decode(&message) != mended::decode(&message);
                assert_eq!(
                    differ,
                    call.starts_with("WIDE") && (call.ends_with("-2") || call.ends_with("-3")),
                    "{call}"
                );
                assert!(mended::decode(&message).is_ok(), "{call}");
            }
        }
    }

    /// A token is cut so that it lacks none to seven of its bits.
    #[test]
    fn cut_at_every_bit() {
        let mut missing = BTreeSet::new();
        for digis in 0..=8 {
            let coded = placed("WIDE2-2", 3, false, digis).coded();
            let (_, end) = coded.ends.last().expect("tokens");
            missing.extend(coded.cut("WIDE2-2").iter().map(|cut| end.saturating_sub(8 * (cut.len() - 1))));
        }
        assert_eq!(missing, (0..8).collect());
    }

    /// Of the messages drawn many are read in two ways, with each command, and many are refused, in both readings alike.
    #[test]
    fn drawn() {
        let mut r = Random::new(1, "tokens");
        let mut seen = BTreeMap::new();
        for _ in 0..10_000 {
            let message = message(&mut r);
            let (original, mended) = (answers::decode(&message), mended::decode(&message));
            let differ = original != mended;
            assert_eq!(original.as_ref().map(|(command, _)| command), mended.as_ref().map(|(command, _)| command));
            *seen.entry((original.map(|(command, _)| command), differ)).or_insert(0) += 1;
        }
        for met in [(Ok(0), false), (Ok(0), true), (Ok(1), false), (Ok(1), true), (Err(7), false)] {
            assert!(seen[&met] > 500, "{met:?}");
        }
    }
}
