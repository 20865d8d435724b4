//! The structs that are to be expected of a value or a refusal: 0 in every field that has no meaning then.

use crate::xara::{
    Answer, Decoded, Encoded, Fresh, Heard, Keeping, Kept, KeptSlot, Preview, Pushed, Receiver, Summary, Tallies,
};

impl Answer {
    pub fn of(expected: Result<usize, u8>) -> Self {
        let (ok, refusal) = flags(&expected);
        Answer { ok, refusal, value: expected.unwrap_or_default() }
    }
}

impl Receiver {
    /// A receiver that holds nothing and has no check byte yet.
    pub fn idle(crc_mask: u8, tallies: Tallies) -> Self {
        Receiver { held: 0, nfrag: 0, count: 0, crc_mask, overflow: 0, tallies }
    }
}

impl Fresh {
    pub fn of(expected: Result<Receiver, u8>) -> Self {
        let (ok, refusal) = flags(&expected);
        Fresh { ok, refusal, receiver: expected.unwrap_or_default() }
    }
}

impl Pushed {
    pub fn of(heard: Heard, receiver: Receiver) -> Self {
        let (kind, refusal, cause, length) = match heard {
            Heard::Refused(refusal) => (0, refusal, 0, 0),
            Heard::Dropped(cause) => (1, 0, cause as u8, 0),
            Heard::More => (2, 0, 0, 0),
            Heard::Done(length) => (3, 0, 0, length),
            Heard::Unknown(kind) => (kind, 0, 0, 0),
        };
        Pushed { kind, refusal, cause, length, receiver }
    }
}

impl KeptSlot {
    /// A state under a name, with zeros after it.
    pub fn of(name: &[u8], receiver: Receiver) -> Self {
        let mut slot = KeptSlot { len: name.len(), receiver, ..KeptSlot::default() };
        slot.name[..name.len()].copy_from_slice(name);
        slot
    }
}

impl Keeping {
    /// Of the name's place, and of the kept states as the call leaves them.
    pub fn of(expected: Result<usize, u8>, kept: Kept) -> Self {
        let (ok, refusal) = flags(&expected);
        Keeping { ok, refusal, place: expected.unwrap_or_default(), kept }
    }
}

impl Encoded {
    /// Of the message's length and the type.
    pub fn of(expected: Result<(usize, u8), u8>) -> Self {
        let (ok, refusal) = flags(&expected);
        let (length, aprs_type) = expected.unwrap_or_default();
        Encoded { ok, refusal, aprs_type, length }
    }
}

impl Summary {
    /// Of the type, the number of digipeaters, and whether control is 03 or 13.
    pub fn of(expected: Result<(u8, usize, bool), u8>) -> Self {
        let (ok, refusal) = flags(&expected);
        let (aprs_type, digis, ui) = expected.unwrap_or_default();
        Summary { ok, refusal, aprs_type, ui: u8::from(ui), digis }
    }
}

impl Decoded {
    /// Of the data's length and the command.
    pub fn of(expected: Result<(usize, u8), u8>) -> Self {
        let (ok, refusal) = flags(&expected);
        let (length, command) = expected.unwrap_or_default();
        Decoded { ok, refusal, command, length }
    }
}

impl Preview {
    /// Of the message's length and the number of its fragments.
    pub fn of(expected: Result<(usize, usize), u8>) -> Self {
        let (ok, refusal) = flags(&expected);
        let (length, count) = expected.unwrap_or_default();
        Preview { ok, refusal, length, count }
    }
}

/// `ok` and `refusal`.
fn flags<T>(expected: &Result<T, u8>) -> (u8, u8) {
    match expected {
        Ok(_) => (1, 0),
        Err(refusal) => (0, *refusal),
    }
}
