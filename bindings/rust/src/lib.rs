//! The packet coding of the gateway, proved: coder, fragments, frames, receiver and decoder, over the archive `libxara.a` that
//! `./archive` writes.
//!
//! A report travels one way: data, message, fragments, frames, the air, message, data.
//!
//! ```
//! use xara::{Command, Control, Decoder, Encoder, Heard, Mask, Reassembler};
//!
//! let data = b"a report that takes several fragments";
//! let field = 10;
//!
//! // The sender: data is coded, and its frames go on the air.
//! let mut encoder = Encoder::new();
//! let message = encoder.encode(Command::Generic, data)?;
//! let frames = xara::fragments(&message, field, Mask::Hf)?.frames(Control::default(), 0xFF)?;
//!
//! // The receiver: each frame is pushed, and the message that is done is decoded.
//! let mut receiver = Reassembler::new(Mask::Hf);
//! let mut decoder = Decoder::new();
//! for frame in frames {
//!     if let Heard::Done(message) = receiver.push(&frame, field)? {
//!         assert_eq!(decoder.decode(message)?, (Command::Generic, &data[..]));
//!     }
//! }
//! # Ok::<(), xara::Refusal>(())
//! ```
//!
//! What every call keeps to:
//! - It ends on every input with an answer or a [`Refusal`], and never panics on an input.
//! - Where it refuses, no lent byte, nothing in a receiver and nothing that is kept is changed.
//! - Where it answers, the bytes of the answer are the first of the lent output, and all after them are as they were.
//!   [`Kept::keep`] alone writes to another place of the bytes that it is lent, and tells which.
//!
//! # What is promised, and what the air can still do
//!
//! What is promised, with a proof, about a message that [`fragments`] accepted: the receiver answers [`Heard::More`] to each of
//! its frames but the last, and [`Heard::Done`] with exactly the message to the last. It is so if
//! - the receiver has the sender's mask;
//! - the receiver is new, or its last call was an ending: a reset, or a push or join of a fragment that is not empty and whose
//!   first byte is below 0x80;
//! - the frames of the message arrive in order, undamaged and complete, each once;
//! - only idle calls stand between them: calls that are refused, frames of another length than field + 3, and frames or
//!   fragments of no bytes;
//! - all pushes and joins since the receiver was new, those of the message included, are fewer than 2^64: no tally is full then.
//!
//! What the air can still do, since the format leaves no room to find it out:
//! - A frame that is lost may go unnoticed. The first of several fragments carries check bits of the whole message, as many as
//!   the [`Mask`] has, and w check bits miss about one fault in 2^w. Of 4,000 messages that were sent under each mask with one
//!   middle frame lost, this many were still answered with [`Heard::Done`], each with other bytes than were sent:
//!
//!   | mask | 80 | C0 | E0 | F0 | F8 | FC | FE |
//!   |---|---|---|---|---|---|---|---|
//!   | check bits | 1 | 2 | 3 | 4 | 5 | 6 | 7 |
//!   | still done | 1,977 | 966 | 476 | 232 | 122 | 61 | 28 |
//! - A message of one fragment carries no check bits, and neither does the last of several fragments. Heard alone, by a receiver
//!   that holds nothing and is not in overflow, it is always answered with [`Heard::Done`].
//! - A damaged frame is taken for what it says: [`Reassembler::push`] does not look at the CRC at the frame's end.
//!
//! What a gateway does about it: it checks a frame's CRC before it pushes the frame, and resets the receiver when the channel was
//! silent, so that the start of a message that was broken off is not joined to the next message.
//!
//! ```
//! use xara::{Heard, Mask, Reassembler};
//!
//! /// Whether the last two bytes of a frame are the CRC of all bytes before them.
//! fn undamaged(frame: &[u8]) -> bool {
//!     frame.split_last_chunk().is_some_and(|(bytes, crc)| xara::crc16_genibus(bytes).to_be_bytes() == *crc)
//! }
//!
//! let mut receiver = Reassembler::new(Mask::Hf);
//! let mut frame = [0x40, 0x00, 0x10, 0x40, 0x14, 0x00, 0x52, 0x42];
//! assert!(undamaged(&frame));
//! frame[2] ^= 0x01;
//! assert!(!undamaged(&frame));
//! assert!(matches!(receiver.push(&frame, 5)?, Heard::Done(_)));
//! # Ok::<(), xara::Refusal>(())
//! ```
//!
//! # Before sending
//!
//! [`preview`] tells what data costs: the length of its message and how many fragments that takes, or why it can't be sent.
//!
//! # Where fragments went
//!
//! A receiver counts what it is offered and what comes of it: [`Reassembler::tallies`] hands out the eight [`Tallies`], of which the
//! first is the sum of the others, and [`Reassembler::cause`] says why a frame or a fragment was dropped.
//!
//! ```
//! use xara::{Cause, Heard, Mask, Reassembler};
//!
//! let mut receiver = Reassembler::new(Mask::Hf);
//! receiver.push(&[0xC0, 0x40, 0xAC, 0xB7, 0x01, 0x01, 0xA3, 0x8C], 5)?;
//! let damaged = [0x40, 0x00, 0x10, 0x41, 0x14, 0x00, 0x52, 0x42];
//! assert_eq!(receiver.push(&damaged, 5)?, Heard::Dropped);
//! assert_eq!(receiver.cause(), Some(Cause::Check));
//! let tallies = receiver.tallies();
//! assert_eq!((tallies.offered, tallies.more, tallies.done, tallies.check), (2, 1, 0, 1));
//! # Ok::<(), xara::Refusal>(())
//! ```
//!
//! # Leaving a channel
//!
//! [`Channels`] keeps up to eight receivers under names, each with its store, so that a channel can be left with a message half
//! heard and be returned to.
//!
//! # Two readings
//!
//! A message may be read in two ways, and the receiving side alone chooses: the coder and all that goes on the air are the same
//! for both. [`decode`] and [`Decoder::new`] read as the Rust from which this library was ported does, and hand the calls
//! WIDE1-2, WIDE1-3, WIDE2-2 and WIDE2-3 back with the SSIDs 10 and 11: a path WIDE2-2 comes out as WIDE2-10. [`decode_as`] and
//! [`Decoder::with_reading`] take a [`Reading`], and [`Reading::Mended`] hands these calls back as they were sent.
//!
//! # Buffers
//!
//! [`Encoder`], [`Decoder`], [`Reassembler`] and [`Channels`] own buffers that are large enough for every answer. The functions
//! [`encode`], [`decode`], [`decode_as`], [`fragment`], [`build_frame`] and the calls of [`State`] and of [`Kept`] write to buffers
//! that are lent, and allocate nothing. [`preview`] and [`summary`] need no buffer.
#![deny(unsafe_code)]
#![warn(missing_docs)]

mod codec;
mod frame;
mod kept;
mod preview;
mod raw;
mod receiver;
mod refusal;
mod sender;
mod tallies;
#[cfg(test)]
mod tests;
mod words;

pub use codec::{Buffer, Decoder, Encoder, Reading, Summary, decode, decode_as, encode, summary};
pub use frame::{Control, Frame, Frames, TERMINATOR, build_frame};
pub use kept::{Channels, KEPT, KEPT_STORE, Kept, MAX_NAME, Slot};
pub use preview::{Preview, preview};
pub use receiver::{Heard, RX_BUFFER, RX_MAX_FRAGMENTS, Reassembler, State};
pub use refusal::Refusal;
pub use sender::{Fragment, Fragments, MAX_FIELD, MIN_FIELD, count_for_field, fragment, fragments};
pub use tallies::{Cause, Tallies};
pub use words::{AprsType, Command, Mask};

/// The most bytes of data to code.
pub const MAX_DATA: usize = 4999;
/// The most bytes of a message.
pub const MAX_MESSAGE: usize = 5000;
/// The most bytes that a message decodes to, in both readings.
pub const MAX_DECODED: usize = 45_764;

/// The CRC-16/GENIBUS of any bytes.
///
/// ```
/// assert_eq!(xara::crc16_genibus(b"123456789"), 0xD64E);
/// assert_eq!(xara::crc16_genibus(b""), 0);
/// ```
pub fn crc16_genibus(data: &[u8]) -> u16 {
    raw::xara_crc16_genibus(data)
}

/// The value of an answer that is ok, or its refusal.
fn told<T>(ok: u8, refusal: u8, value: T) -> Result<T, Refusal> {
    if ok != 0 { Ok(value) } else { Err(Refusal::from_number(refusal)) }
}
