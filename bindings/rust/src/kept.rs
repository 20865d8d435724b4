//! Receivers that are kept under names, to be returned to.

use crate::raw::{self, XaraKeeping, XaraKept, XaraSlot};
use crate::{Cause, RX_BUFFER, Reassembler, Refusal, State};
use std::fmt;

/// The most states that are kept.
pub const KEPT: usize = 8;
/// The bytes for the stores of the kept states, [`RX_BUFFER`] for each.
pub const KEPT_STORE: usize = KEPT * RX_BUFFER;
/// The most bytes of a name.
pub const MAX_NAME: usize = 8;

/// A state that is kept under a name. Where `len` is not 1 to [`MAX_NAME`] the slot is free, and may hold anything in its other
/// fields: no call refuses for them.
#[derive(Clone, Copy, Debug, PartialEq, Eq)]
pub struct Slot {
    /// How many bytes the name has; 0 in a slot that a call made free.
    pub len: usize,
    /// The first `len` bytes are the name. Those after it are not looked at, and a keep sets them to 0.
    pub name: [u8; MAX_NAME],
    /// The state as it was when it was kept, with its own mask, tallies and cause.
    pub state: State,
}

impl Slot {
    /// The name, or `None` where the slot is free.
    pub fn kept_name(&self) -> Option<&[u8]> {
        match self.len {
            1..=MAX_NAME => Some(&self.name[..self.len]),
            _ => None,
        }
    }
}

impl From<Slot> for XaraSlot {
    fn from(slot: Slot) -> Self {
        let Slot { len, name, state } = slot;
        XaraSlot { len, name, receiver: state.lent() }
    }
}

impl From<XaraSlot> for Slot {
    fn from(slot: XaraSlot) -> Self {
        let XaraSlot { len, name, receiver } = slot;
        Slot { len, name, state: receiver.into() }
    }
}

/// States that are kept under names of 1 to [`MAX_NAME`] bytes, for those who keep the stores themselves. It goes with
/// [`KEPT_STORE`] bytes, where the store of `slots[i]` starts at `i * RX_BUFFER`: lend the same ones to each call, and write to
/// neither between calls. [`Channels`] does so, and says what a return promises.
///
/// The fields may be set to anything. Of two slots with one name the first counts. Where a slot that is not free holds what can be
/// no state, every call refuses with [`Refusal::State`] or [`Refusal::Mask`], whichever name it is asked for. Tallies are not
/// tested: a state with a full one may be kept and returned to.
///
/// ```
/// use xara::{Heard, KEPT_STORE, Kept, Mask, RX_BUFFER, State};
///
/// let (mut store, mut lent) = ([0; RX_BUFFER], vec![0; KEPT_STORE]);
/// let (mut state, mut kept) = (State::new(Mask::Hf), Kept::none());
/// state.push(&mut store, &[0xC0, 0x40, 0xAC, 0xB7, 0x01, 0x01, 0xA3, 0x8C], 5)?;
/// assert_eq!(kept.keep(&state, &store, &mut lent, b"net")?, 0);
///
/// // Another channel is heard, with the same store.
/// state = State::new(Mask::Fm);
/// assert_eq!(state.join(&mut store, b"\x40one", 4)?, Heard::Done(4));
///
/// state = kept.return_to(&mut store, &lent, b"net")?;
/// assert_eq!(state.push(&mut store, &[0x40, 0x00, 0x10, 0x40, 0x14, 0x00, 0x52, 0x42], 5)?, Heard::Done(7));
/// assert_eq!(store[..7], [0x40, 0xAC, 0xB7, 0x01, 0x00, 0x10, 0x40]);
/// # Ok::<(), xara::Refusal>(())
/// ```
#[derive(Clone, Copy, Debug, PartialEq, Eq)]
pub struct Kept {
    /// The slots, by their places.
    pub slots: [Slot; KEPT],
}

impl Kept {
    /// Nothing is kept: every slot is free.
    pub fn none() -> Self {
        let XaraKept { slots } = raw::xara_kept_none();
        Kept { slots: slots.map(Slot::from) }
    }

    /// Keeps a state with its store under a name, and answers its place. A name that is kept already is replaced in its place, a
    /// new one goes to the first slot that is free. The whole store is copied, to the lent bytes from `place * RX_BUFFER` on; no
    /// other lent byte is written.
    ///
    /// Refuses with [`Refusal::State`], [`Refusal::Mask`], [`Refusal::Name`], [`Refusal::Kept`], in this order; with the first two
    /// for the state and for every kept one.
    pub fn keep(&mut self, state: &State, store: &[u8], lent: &mut [u8], name: &[u8]) -> Result<usize, Refusal> {
        self.follow(raw::xara_kept_keep(self.lent(), state.lent(), store, lent, name), state.cause)
    }

    /// The state that is kept under a name, and its whole store to the one that is lent. The name stays kept. Whatever state went
    /// with that store before is lost, unless it was kept.
    ///
    /// Refuses with [`Refusal::State`], [`Refusal::Mask`], [`Refusal::Name`], in this order; with the first two for every kept
    /// state.
    pub fn return_to(&self, store: &mut [u8], lent: &[u8], name: &[u8]) -> Result<State, Refusal> {
        let fresh = raw::xara_kept_return(self.lent(), store, lent, name);
        let receiver = crate::told(fresh.ok, fresh.refusal, fresh.receiver)?;
        let slot = self.slots.iter().find(|slot| slot.kept_name() == Some(name));
        Ok(State { cause: slot.and_then(|slot| slot.state.cause), ..receiver.into() })
    }

    /// Makes the slot of a name free, and answers its place. No lent byte is written.
    ///
    /// Refuses with [`Refusal::State`], [`Refusal::Mask`], [`Refusal::Name`], in this order; with the first two for every kept
    /// state.
    pub fn drop_name(&mut self, lent: &[u8], name: &[u8]) -> Result<usize, Refusal> {
        self.follow(raw::xara_kept_drop(self.lent(), lent, name), None)
    }

    /// The names that are kept, by their places.
    pub fn names(&self) -> impl Iterator<Item = &[u8]> {
        self.slots.iter().filter_map(Slot::kept_name)
    }

    fn lent(&self) -> XaraKept {
        XaraKept { slots: self.slots.map(XaraSlot::from) }
    }

    /// Takes the slots from an answer. Causes do not cross: each slot has its own, that of the answer's place is this one.
    fn follow(&mut self, keeping: XaraKeeping, cause: Option<Cause>) -> Result<usize, Refusal> {
        for (slot, next) in self.slots.iter_mut().zip(keeping.kept.slots) {
            let cause = slot.state.cause;
            *slot = next.into();
            slot.state.cause = cause;
        }
        let place = crate::told(keeping.ok, keeping.refusal, keeping.place)?;
        self.slots[place].state.cause = cause;
        Ok(place)
    }
}

impl Default for Kept {
    fn default() -> Self {
        Self::none()
    }
}

/// Channels that were left, under names of 1 to [`MAX_NAME`] bytes: up to [`KEPT`] receivers as they were, with their stores.
///
/// After a return, every answer of the receiver is what it would be if no call had been made between the keeping and the return. An
/// unfinished message can be completed, and what was counted between the two is gone from the tallies.
///
/// ```
/// use xara::{Channels, Heard, Mask, Reassembler, Refusal};
///
/// let first = [0xC0, 0x40, 0xAC, 0xB7, 0x01, 0x01, 0xA3, 0x8C];
/// let last = [0x40, 0x00, 0x10, 0x40, 0x14, 0x00, 0x52, 0x42];
/// let mut channels = Channels::new();
///
/// // The channel is left with a message half heard.
/// let mut receiver = Reassembler::new(Mask::Hf);
/// assert_eq!(receiver.push(&first, 5)?, Heard::More);
/// channels.keep(&receiver, b"net")?;
///
/// // Another one is heard.
/// receiver = Reassembler::new(Mask::Fm);
/// assert_eq!(receiver.push(&last, 5)?, Heard::Done(&last[..4]));
///
/// // Back on the first, the message is completed.
/// channels.return_to(b"net", &mut receiver)?;
/// assert_eq!(receiver.push(&last, 5)?, Heard::Done(&[0x40, 0xAC, 0xB7, 0x01, 0x00, 0x10, 0x40][..]));
///
/// // The name stays kept until it is dropped.
/// assert!(channels.names().eq([b"net"]));
/// channels.drop_name(b"net")?;
/// assert_eq!(channels.return_to(b"net", &mut receiver), Err(Refusal::Name));
/// # Ok::<(), xara::Refusal>(())
/// ```
#[derive(Clone)]
pub struct Channels {
    kept: Kept,
    lent: Box<[u8]>,
}

impl Channels {
    /// No channel was left.
    pub fn new() -> Self {
        Channels { kept: Kept::none(), lent: vec![0; KEPT_STORE].into() }
    }

    /// Keeps a receiver under a name, and answers its place, from 0 on. A name that is kept already is replaced in its place, a
    /// new one goes to the first place that is free. The receiver itself stays as it is.
    ///
    /// Refuses with [`Refusal::Name`], [`Refusal::Kept`], in this order; a name that is kept already is never refused with the
    /// latter.
    pub fn keep(&mut self, receiver: &Reassembler, name: &[u8]) -> Result<usize, Refusal> {
        self.kept.keep(&receiver.state, &receiver.store, &mut self.lent, name)
    }

    /// Makes a receiver what the one that is kept under a name was, with its mask, tallies and cause. The name stays kept.
    ///
    /// Refuses with [`Refusal::Name`], and the receiver is then as it was.
    pub fn return_to(&self, name: &[u8], receiver: &mut Reassembler) -> Result<(), Refusal> {
        receiver.state = self.kept.return_to(&mut receiver.store, &self.lent, name)?;
        Ok(())
    }

    /// Makes the place of a name free, and answers it. Refuses with [`Refusal::Name`].
    pub fn drop_name(&mut self, name: &[u8]) -> Result<usize, Refusal> {
        self.kept.drop_name(&self.lent, name)
    }

    /// The names that are kept, by their places.
    pub fn names(&self) -> impl Iterator<Item = &[u8]> {
        self.kept.names()
    }

    /// The states that are kept, by their places: what is counted and how much is held on a channel that was left.
    pub fn kept(&self) -> &Kept {
        &self.kept
    }
}

impl Default for Channels {
    fn default() -> Self {
        Self::new()
    }
}

impl fmt::Debug for Channels {
    fn fmt(&self, f: &mut fmt::Formatter<'_>) -> fmt::Result {
        f.debug_struct("Channels").field("kept", &self.kept).finish_non_exhaustive()
    }
}
