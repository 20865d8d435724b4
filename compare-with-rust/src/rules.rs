//! Document 01's rules of the receiver on any state, also on one that no call leads to: there the source can't be asked. With them
//! go document 02's tallies, which the source does not have at all (E12), its kept states (E8), and its preview (E3).

pub mod kept;
pub mod preview;

use crate::lent::Input;
use crate::xara::{Cause, Heard, Pushed, Receiver, Tallies};
use answers::{FIELDS, MASKS, MAX_MESSAGE};

/// The most fragments of a message that is heard.
const MOST_FRAGMENTS: usize = 255;

/// A call on a receiver.
#[derive(Clone, Copy, Debug)]
pub enum Call<'a> {
    /// A frame and its field.
    Push(&'a [u8], usize),
    /// The n first bytes of f.
    Join(&'a [u8], usize),
}

impl<'a> Call<'a> {
    /// The frame or the fragment.
    pub fn bytes(self) -> &'a [u8] {
        match self {
            Call::Push(bytes, _) | Call::Join(bytes, _) => bytes,
        }
    }

    /// The call on a receiver of ours, with a copy of its bytes.
    pub fn on(self, receiver: Receiver, store: &mut [u8], input: &mut Input) -> Pushed {
        match self {
            Call::Push(_, field) => receiver.push(store, &mut input.lent[..], field),
            Call::Join(_, n) => receiver.join(store, &mut input.lent[..], n),
        }
    }
}

/// The answer to a call, with the state and the store after it. A refusal hands back the state that came in, whichever byte
/// says overflow; in an answer the overflow is 0 or 1.
pub fn answer(state: Receiver, store: &mut [u8], call: Call) -> (Heard, Receiver) {
    if let Some(refusal) = refusal(state, store.len(), call) {
        return (Heard::Refused(refusal), state);
    }
    let state = shown(state);
    let (heard, after) = match call {
        Call::Push(frame, field) => push(state, store, frame, field),
        Call::Join(f, n) => join(state, store, f, n),
    };
    (heard, Receiver { tallies: counted(state.tallies, heard), ..after })
}

/// "Reset: nothing held, fragments 0, no overflow; check byte and mask are kept." "Reset keeps the tallies" (02).
pub fn reset(state: Receiver) -> Receiver {
    Receiver { held: 0, nfrag: 0, overflow: 0, ..state }
}

/// The table's order: 17, 9, 8. Then "27 when offered or any other tally is already the largest 64-bit number" (02).
fn refusal(state: Receiver, size: usize, call: Call) -> Option<u8> {
    if size != MAX_MESSAGE || oversized(state) {
        return Some(17);
    }
    if bad_mask(state) {
        return Some(9);
    }
    if matches!(call, Call::Push(_, field) if !FIELDS.contains(&field)) {
        return Some(8);
    }
    state.tallies.numbers().contains(&u64::MAX).then_some(27)
}

/// A state that 17 refuses with any store.
fn oversized(state: Receiver) -> bool {
    state.held > MAX_MESSAGE || state.nfrag > MOST_FRAGMENTS
}

/// A state that 9 refuses.
fn bad_mask(state: Receiver) -> bool {
    !MASKS.contains(&state.crc_mask)
}

/// The state with its overflow as 0 or 1.
fn shown(state: Receiver) -> Receiver {
    Receiver { overflow: u8::from(state.overflow != 0), ..state }
}

/// "Frames offered, More, Done, and Dropped by cause: wrong length, no fragment, overflow, limit, check" (02): what is not refused
/// counts as offered, and in the tally of its answer.
fn counted(mut tallies: Tallies, heard: Heard) -> Tallies {
    let answered = match heard {
        Heard::More => &mut tallies.more,
        Heard::Done(_) => &mut tallies.done,
        Heard::Dropped(Cause::WrongLength) => &mut tallies.wrong_length,
        Heard::Dropped(Cause::NoFragment) => &mut tallies.no_fragment,
        Heard::Dropped(Cause::Overflow) => &mut tallies.overflow,
        Heard::Dropped(Cause::Limit) => &mut tallies.limit,
        Heard::Dropped(Cause::Check) => &mut tallies.check,
        Heard::Refused(_) | Heard::Unknown(_) => return tallies,
    };
    *answered += 1;
    tallies.offered += 1;
    tallies
}

/// "A frame of another length is Dropped": that is a wrong length, though it has no fragment either.
fn push(state: Receiver, store: &mut [u8], frame: &[u8], field: usize) -> (Heard, Receiver) {
    if frame.len() != field + 3 {
        return (Heard::Dropped(Cause::WrongLength), state);
    }
    join(state, store, frame, fragment_length(frame, field))
}

/// "A fragment (n first bytes of f) goes by these rules, in order." Where it is dropped, "a missing second byte, or n beyond f,
/// counts as no fragment" (02), as n = 0 does; in overflow it is overflow; and the one that meets a limit is limit.
fn join(state: Receiver, store: &mut [u8], f: &[u8], n: usize) -> (Heard, Receiver) {
    if n == 0 || n > f.len() {
        return (Heard::Dropped(Cause::NoFragment), state);
    }
    if state.overflow != 0 {
        return (Heard::Dropped(Cause::Overflow), Receiver { overflow: u8::from(more(f)), ..state });
    }
    let first = state.held == 0;
    if first && more(f) && f.len() < 2 {
        return (Heard::Dropped(Cause::NoFragment), state);
    }
    let count = if first && more(f) { f[1] } else { state.count };
    let Some(base) = place(state, f, n) else {
        let left = Receiver { held: 0, nfrag: 0, count, overflow: u8::from(more(f)), ..state };
        return (Heard::Dropped(Cause::Limit), left);
    };
    let tail = tail(state, f, n);
    store[base..base + tail.len()].copy_from_slice(tail);
    if first || !more(f) {
        store[0] = f[0];
    }
    let nfrag = if first { 1 } else { state.nfrag + 1 };
    let grown = Receiver { held: base + tail.len(), nfrag, count, ..state };
    if more(f) { (Heard::More, grown) } else { finish(grown, store) }
}

/// "With two or more fragments the CRC under the mask must match the check byte, else Dropped": that is a check.
fn finish(state: Receiver, store: &[u8]) -> (Heard, Receiver) {
    let crc = (answers::crc(&store[..state.held]) >> 8) as u8 & state.crc_mask;
    let matches = state.nfrag < 2 || crc == state.count & state.crc_mask;
    let heard = if matches { Heard::Done(state.held) } else { Heard::Dropped(Cause::Check) };
    (heard, Receiver { held: 0, ..state })
}

/// "Fragment length is field where the control byte's bit 0 is set, else the place of the last 14 in the field, else 0."
fn fragment_length(frame: &[u8], field: usize) -> usize {
    if frame[field] & 1 == 1 {
        return field;
    }
    frame[..field].iter().rposition(|&b| b == 0x14).unwrap_or(0)
}

fn more(f: &[u8]) -> bool {
    f[0] >= 0x80
}

/// What of a fragment, the n first bytes of f, goes after what is held: in the first of several without the check byte.
fn tail(state: Receiver, f: &[u8], n: usize) -> &[u8] {
    let start = if state.held == 0 && more(f) { 2 } else { 1 };
    &f[start.min(n)..n]
}

/// Where a fragment's tail goes; none at a limit: "Held plus tail over 5,000, or 255 fragments already".
fn place(state: Receiver, f: &[u8], n: usize) -> Option<usize> {
    let base = state.held.max(1);
    let fragments = if state.held == 0 { 0 } else { state.nfrag };
    let full = base + tail(state, f, n).len() > MAX_MESSAGE || fragments >= MOST_FRAGMENTS;
    (!full).then_some(base)
}
