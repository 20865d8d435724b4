//! Frames and fragments joined to messages.

use crate::raw::{self, XaraPushed, XaraReceiver};
use crate::{Cause, Mask, Refusal, Tallies};
use std::fmt;

/// The bytes of a receiver's store, and the most of a message that is heard.
pub const RX_BUFFER: usize = 5000;
/// The most fragments of a message that is heard.
pub const RX_MAX_FRAGMENTS: usize = 255;

/// What a receiver answers to a frame or a fragment. `T` is the message, or its length where the store is lent.
#[derive(Clone, Copy, Debug, PartialEq, Eq)]
pub enum Heard<T> {
    /// The frame or fragment is lost. [`Reassembler::cause`] or [`State::cause`] says why.
    Dropped,
    /// The message goes on.
    More,
    /// The message is whole.
    Done(T),
}

impl<T> Heard<T> {
    /// The message, where it is whole.
    pub fn done(self) -> Option<T> {
        match self {
            Heard::Done(message) => Some(message),
            Heard::Dropped | Heard::More => None,
        }
    }
}

/// A receiver's state, for those who keep the store themselves. It goes with one store: lend the same one to each call, and write
/// to neither between calls. [`Reassembler`] does so.
///
/// The fields may be set to anything. What can be no state is refused with [`Refusal::State`] or [`Refusal::Mask`], and what can
/// count no more with [`Refusal::Tally`]; it is then as it was in every field.
///
/// ```
/// use xara::{Heard, Mask, RX_BUFFER, State};
///
/// let mut store = [0; RX_BUFFER];
/// let mut state = State::new(Mask::Hf);
/// assert_eq!(state.join(&mut store, b"\x40one", 4)?, Heard::Done(4));
/// assert_eq!(&store[..4], b"\x40one");
/// # Ok::<(), xara::Refusal>(())
/// ```
#[derive(Clone, Copy, Debug, PartialEq, Eq)]
pub struct State {
    /// How many bytes of the store are held, up to [`RX_BUFFER`].
    pub held: usize,
    /// Fragments of the message that is held, up to [`RX_MAX_FRAGMENTS`]; where none is held, 0 or those of the last message.
    pub nfrag: usize,
    /// The check byte of the message that is held, or of an earlier one; 0 in a new receiver, kept by a reset.
    pub count: u8,
    /// The mask's byte.
    pub crc_mask: u8,
    /// Whether the rest of a message that is too long is dropped.
    pub overflow: bool,
    /// How many frames and fragments had each answer.
    pub tallies: Tallies,
    /// Why the last answer was [`Heard::Dropped`]; `None` where it was another, in a new state and after a reset. A refusal leaves
    /// it as it was. No call looks at it.
    pub cause: Option<Cause>,
}

impl State {
    /// A receiver that holds nothing and has counted nothing.
    pub const fn new(mask: Mask) -> Self {
        let tallies = Tallies::NEW;
        State { held: 0, nfrag: 0, count: 0, crc_mask: mask.byte(), overflow: false, tallies, cause: None }
    }

    /// A frame that was heard, of field + 3 bytes; one of another length is dropped. The CRC at its end is not looked at: check it
    /// before the call.
    ///
    /// Where the answer is done, the message is the first so many bytes of the store. Refuses with [`Refusal::State`],
    /// [`Refusal::Mask`], [`Refusal::Field`], [`Refusal::Tally`], in this order.
    pub fn push(&mut self, store: &mut [u8], frame: &[u8], field: usize) -> Result<Heard<usize>, Refusal> {
        self.follow(raw::xara_receiver_push(self.lent(), store, frame, field))
    }

    /// A fragment without its frame: the n first bytes of f. Where n is 0 or more than f has it is dropped.
    ///
    /// Refuses with [`Refusal::State`], [`Refusal::Mask`], [`Refusal::Tally`], in this order.
    pub fn join(&mut self, store: &mut [u8], f: &[u8], n: usize) -> Result<Heard<usize>, Refusal> {
        self.follow(raw::xara_receiver_join(self.lent(), store, f, n))
    }

    /// Nothing held, no fragments, no overflow. Check byte, mask and tallies are kept, full tallies too.
    pub fn reset(&mut self) {
        *self = raw::xara_receiver_reset(self.lent()).into();
    }

    pub(crate) fn lent(self) -> XaraReceiver {
        let State { held, nfrag, count, crc_mask, overflow, tallies, cause: _ } = self;
        XaraReceiver { held, nfrag, count, crc_mask, overflow: u8::from(overflow), tallies: tallies.into() }
    }

    /// Takes the state from an answer.
    fn follow(&mut self, pushed: XaraPushed) -> Result<Heard<usize>, Refusal> {
        let cause = if pushed.kind == 0 { self.cause } else { Cause::from_number(pushed.cause) };
        *self = State { cause, ..pushed.receiver.into() };
        match pushed.kind {
            0 => Err(Refusal::from_number(pushed.refusal)),
            1 => Ok(Heard::Dropped),
            2 => Ok(Heard::More),
            3 => Ok(Heard::Done(pushed.length)),
            kind => unreachable!("a receiver answers 0 to 3, not {kind}"),
        }
    }
}

impl From<XaraReceiver> for State {
    fn from(receiver: XaraReceiver) -> Self {
        let XaraReceiver { held, nfrag, count, crc_mask, overflow, tallies } = receiver;
        State { held, nfrag, count, crc_mask, overflow: overflow != 0, tallies: tallies.into(), cause: None }
    }
}

/// A receiver with its store: joins the frames of a message.
///
/// ```
/// use xara::{Heard, Mask, Reassembler};
///
/// let mut receiver = Reassembler::new(Mask::Hf);
/// let first = [0xC0, 0x40, 0xAC, 0xB7, 0x01, 0x01, 0xA3, 0x8C];
/// let last = [0x40, 0x00, 0x10, 0x40, 0x14, 0x00, 0x52, 0x42];
/// assert_eq!(receiver.push(&first, 5)?, Heard::More);
/// assert_eq!(receiver.push(&last, 5)?, Heard::Done(&[0x40, 0xAC, 0xB7, 0x01, 0x00, 0x10, 0x40][..]));
/// # Ok::<(), xara::Refusal>(())
/// ```
#[derive(Clone)]
pub struct Reassembler {
    pub(crate) state: State,
    pub(crate) store: Box<[u8]>,
}

impl Reassembler {
    /// A receiver that holds nothing and has counted nothing.
    pub fn new(mask: Mask) -> Self {
        Reassembler { state: State::new(mask), store: vec![0; RX_BUFFER].into() }
    }

    /// The same, for a mask that is a byte. Refuses with [`Refusal::Mask`].
    ///
    /// ```
    /// use xara::{Reassembler, Refusal};
    ///
    /// assert!(Reassembler::with_crc_mask(0xF8).is_ok());
    /// assert_eq!(Reassembler::with_crc_mask(0xF1).unwrap_err(), Refusal::Mask);
    /// ```
    pub fn with_crc_mask(crc_mask: u8) -> Result<Self, Refusal> {
        let fresh = raw::xara_receiver_new(crc_mask);
        let state = crate::told(fresh.ok, fresh.refusal, fresh.receiver)?.into();
        Ok(Reassembler { state, store: vec![0; RX_BUFFER].into() })
    }

    /// A frame that was heard, of field + 3 bytes; one of another length is dropped. The CRC at its end is not looked at: check it
    /// before the call. A message that is done may be read until the next call.
    ///
    /// Refuses with [`Refusal::Field`], [`Refusal::Tally`], in this order.
    pub fn push(&mut self, frame: &[u8], field: usize) -> Result<Heard<&[u8]>, Refusal> {
        let heard = self.state.push(&mut self.store, frame, field)?;
        Ok(self.handed_out(heard))
    }

    /// A fragment without its frame: the n first bytes of f. Where n is 0 or more than f has it is dropped.
    ///
    /// Refuses with [`Refusal::Tally`], which takes 2^64 - 1 calls before. Nothing else is refused: the store has its size, and the
    /// state is one that calls lead to.
    pub fn join(&mut self, f: &[u8], n: usize) -> Result<Heard<&[u8]>, Refusal> {
        let heard = self.state.join(&mut self.store, f, n)?;
        Ok(self.handed_out(heard))
    }

    /// Nothing held, no fragments, no overflow: the next fragment starts a message. The tallies are kept. Call it when the channel
    /// was silent.
    pub fn reset(&mut self) {
        self.state.reset();
    }

    /// The first byte of what is held.
    pub fn first(&self) -> Option<u8> {
        self.held().first().copied()
    }

    /// What is held of a message that goes on.
    pub fn held(&self) -> &[u8] {
        &self.store[..self.state.held]
    }

    /// How many frames and fragments had each answer since the receiver was new.
    pub fn tallies(&self) -> Tallies {
        self.state.tallies
    }

    /// Why the last answer was [`Heard::Dropped`]: what [`State::cause`] is.
    pub fn cause(&self) -> Option<Cause> {
        self.state.cause
    }

    /// The state.
    pub fn state(&self) -> State {
        self.state
    }

    fn handed_out(&self, heard: Heard<usize>) -> Heard<&[u8]> {
        match heard {
            Heard::Dropped => Heard::Dropped,
            Heard::More => Heard::More,
            Heard::Done(n) => Heard::Done(&self.store[..n]),
        }
    }
}

impl Default for Reassembler {
    fn default() -> Self {
        Self::new(Mask::default())
    }
}

impl fmt::Debug for Reassembler {
    fn fmt(&self, f: &mut fmt::Formatter<'_>) -> fmt::Result {
        f.debug_struct("Reassembler").field("state", &self.state).finish_non_exhaustive()
    }
}
