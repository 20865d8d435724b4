//! What is lent to our side: an output as a part of a list that is filled with a pattern, so that what is written beside the
//! part, or after an answer's end, is seen; and an input as a copy, so that a change of it is seen.

use answers::random::Random;
use std::ops::Range;

/// Bytes before and after the part that is lent.
const MARGIN: usize = 16;

#[derive(Clone)]
pub struct Lent {
    pub bytes: Vec<u8>,
    part: Range<usize>,
}

impl Lent {
    /// A pattern with a part of so many bytes.
    pub fn new(r: &mut Random, room: usize) -> Self {
        let start = r.byte();
        let pattern = |i: usize| start.wrapping_add((i as u8).wrapping_mul(29));
        Lent { bytes: (0..room + 2 * MARGIN).map(pattern).collect(), part: MARGIN..MARGIN + room }
    }

    pub fn room(&self) -> usize {
        self.part.len()
    }

    /// Where the part is, for a reader of a difference.
    pub fn told(&self) -> String {
        format!("room for {} from place {MARGIN} on", self.room())
    }

    /// The part, to look at.
    pub fn seen(&self) -> &[u8] {
        &self.bytes[self.part.clone()]
    }

    pub fn part(&mut self) -> &mut [u8] {
        &mut self.bytes[self.part.clone()]
    }

    /// What is to be expected of a call that writes these bytes or refuses: the answer, 6 where there is no room, and
    /// all bytes afterwards.
    pub fn after(&self, written: Result<&[u8], u8>) -> (Result<usize, u8>, Vec<u8>) {
        let mut bytes = self.bytes.clone();
        let answer = written.and_then(|v| if v.len() <= self.room() { Ok(v) } else { Err(6) });
        if let Ok(v) = answer {
            bytes[self.part.start..][..v.len()].copy_from_slice(v);
        }
        (answer.map(<[u8]>::len), bytes)
    }
}

/// Bytes that a call is lent to read.
pub struct Input<'a> {
    /// The bytes as they must stay.
    pub kept: &'a [u8],
    /// The bytes that are lent.
    pub lent: Vec<u8>,
}

impl<'a> Input<'a> {
    pub fn new(kept: &'a [u8]) -> Self {
        Input { kept, lent: kept.to_vec() }
    }
}
