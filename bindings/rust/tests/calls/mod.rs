//! Calls of a receiver, with their answers, and random ones.

use xara::{Heard, Reassembler, Refusal, Tallies};

/// The two frames of document 01's message at field 5, and the message.
pub const FIRST: [u8; 8] = [0xC0, 0x40, 0xAC, 0xB7, 0x01, 0x01, 0xA3, 0x8C];
pub const LAST: [u8; 8] = [0x40, 0x00, 0x10, 0x40, 0x14, 0x00, 0x52, 0x42];
pub const MESSAGE: [u8; 7] = [0x40, 0xAC, 0xB7, 0x01, 0x00, 0x10, 0x40];

#[derive(Clone, Debug)]
pub enum Call {
    Push(Vec<u8>, usize),
    Join(Vec<u8>, usize),
    Reset,
}

/// What a call answers. A reset answers nothing.
pub type Said = Option<Result<Heard<Vec<u8>>, Refusal>>;

/// An answer with another thing in the place of its message.
pub fn mapped<T, U>(heard: Heard<T>, message: impl FnOnce(T) -> U) -> Heard<U> {
    match heard {
        Heard::Dropped => Heard::Dropped,
        Heard::More => Heard::More,
        Heard::Done(its) => Heard::Done(message(its)),
    }
}

fn owned(heard: Heard<&[u8]>) -> Heard<Vec<u8>> {
    mapped(heard, <[u8]>::to_vec)
}

pub fn said(receiver: &mut Reassembler, call: &Call) -> Said {
    match call {
        Call::Push(frame, field) => Some(receiver.push(frame, *field).map(owned)),
        Call::Join(f, n) => Some(receiver.join(f, *n).map(owned)),
        Call::Reset => {
            receiver.reset();
            None
        }
    }
}

/// Offered, more, done, and dropped by wrong length, no fragment, overflow, limit, check.
pub fn tallies(all: [u64; 8]) -> Tallies {
    let [offered, more, done, wrong_length, no_fragment, overflow, limit, check] = all;
    Tallies { offered, more, done, wrong_length, no_fragment, overflow, limit, check }
}

/// Xorshift of 64 bits, the same numbers in each run.
pub struct Numbers(pub u64);

impl Numbers {
    pub fn next(&mut self, below: usize) -> usize {
        self.0 ^= self.0 << 13;
        self.0 ^= self.0 >> 7;
        self.0 ^= self.0 << 17;
        (self.0 >> 32) as usize % below
    }

    pub fn once_in(&mut self, times: usize) -> bool {
        self.next(times) == 0
    }

    /// So many bytes. The first is below 80 once in so many times.
    fn bytes(&mut self, length: usize, ends: usize) -> Vec<u8> {
        let mut bytes: Vec<u8> = (0..length).map(|_| self.next(256) as u8).collect();
        if let Some(first) = bytes.first_mut() {
            *first = if self.once_in(ends) { *first & 0x7F } else { *first | 0x80 };
        }
        bytes
    }

    /// A frame at a field from 3 on, sometimes at 2, which is refused, and sometimes of another length.
    fn push(&mut self, most: usize, ends: usize) -> Call {
        let field = if self.once_in(10) { 2 } else { 3 + self.next(most) };
        let length = if self.once_in(10) { self.next(most) } else { field + 3 };
        Call::Push(self.bytes(length, ends), field)
    }

    /// A fragment of less than so many bytes; sometimes n is 0 or more than there are.
    fn join(&mut self, most: usize, ends: usize) -> Call {
        let length = self.next(most);
        let n = if self.once_in(10) { self.next(2) * (length + 1) } else { 1 + self.next(length.max(1)) };
        Call::Join(self.bytes(length, ends), n)
    }

    /// A push or a join, or once in some times a reset.
    pub fn call(&mut self, most: usize, ends: usize) -> Call {
        if self.once_in(4 * ends) {
            return Call::Reset;
        }
        if self.once_in(2) { self.push(most, ends) } else { self.join(most, ends) }
    }
}
