//! Where fragments went: what a receiver counts, and why it drops.

use crate::raw::XaraTallies;
use std::fmt;

/// Why a frame or a fragment is dropped.
///
/// There is no fragment where a frame of field + 3 bytes holds none, and where the n of a join is 0 or more than f has. The second
/// byte of a first fragment is its check byte: a join of a single byte of 0x80 or more has none, which matters where the receiver
/// holds nothing and is not in overflow.
///
/// The numbers and the texts are those of `xara.h`.
///
/// ```
/// use xara::{Cause, Heard, Mask, Reassembler};
///
/// let mut receiver = Reassembler::new(Mask::Hf);
/// assert_eq!(receiver.push(&[0x40; 7], 5)?, Heard::Dropped);
/// let cause = receiver.cause().expect("it was dropped");
/// assert_eq!(cause, Cause::WrongLength);
/// assert_eq!(cause.number(), 1);
/// assert_eq!(cause.to_string(), "the frame has not field + 3 bytes");
/// # Ok::<(), xara::Refusal>(())
/// ```
#[derive(Clone, Copy, Debug, PartialEq, Eq, Hash)]
pub enum Cause {
    /// 1: the frame has not field + 3 bytes.
    WrongLength = 1,
    /// 2: there is no fragment, or a first fragment has no second byte.
    NoFragment = 2,
    /// 3: an earlier fragment took the message over the limit.
    Overflow = 3,
    /// 4: the fragment takes the message over [`RX_BUFFER`](crate::RX_BUFFER) bytes or over
    /// [`RX_MAX_FRAGMENTS`](crate::RX_MAX_FRAGMENTS) fragments.
    Limit = 4,
    /// 5: the check bits are not those of the message.
    Check = 5,
}

impl Cause {
    /// The number.
    pub const fn number(self) -> u8 {
        self as u8
    }

    /// The cause with a number.
    pub const fn from_number(number: u8) -> Option<Self> {
        Some(match number {
            1 => Self::WrongLength,
            2 => Self::NoFragment,
            3 => Self::Overflow,
            4 => Self::Limit,
            5 => Self::Check,
            _ => return None,
        })
    }
}

impl fmt::Display for Cause {
    fn fmt(&self, f: &mut fmt::Formatter<'_>) -> fmt::Result {
        f.write_str(match self {
            Cause::WrongLength => "the frame has not field + 3 bytes",
            Cause::NoFragment => "there is no fragment, or a first fragment has no second byte",
            Cause::Overflow => "an earlier fragment took the message over the limit",
            Cause::Limit => "the fragment takes the message over 5,000 bytes or over 255 fragments",
            Cause::Check => "the check bits are not those of the message",
        })
    }
}

/// Where fragments went. A push or a join that is not refused adds 1 to `offered` and 1 to one other tally: to `more` or `done` for
/// that answer, to the tally of its [`Cause`] where it is dropped. One that is refused adds nothing. So `offered` is the sum of
/// `more`, `done` and the five that are dropped, in every receiver that started as new, whatever was pushed, joined and reset since.
///
/// A new receiver starts them at 0, and nothing else does: a reset keeps them. Where one of the eight is [`u64::MAX`], `offered` or
/// another, every push and join is refused with [`Refusal::Tally`](crate::Refusal::Tally), after a reset as before it.
///
/// ```
/// use xara::{Mask, Reassembler, Tallies};
///
/// let mut receiver = Reassembler::new(Mask::Hf);
/// receiver.push(&[0xC0, 0x40, 0xAC, 0xB7, 0x01, 0x01, 0xA3, 0x8C], 5)?;
/// receiver.push(&[0x40, 0x00, 0x10, 0x40, 0x14, 0x00, 0x52, 0x42], 5)?;
/// receiver.push(&[0x40], 5)?;
/// receiver.reset();
/// let tallies = receiver.tallies();
/// assert_eq!(tallies, Tallies { offered: 3, more: 1, done: 1, wrong_length: 1, ..Tallies::default() });
/// assert_eq!(tallies.offered, tallies.more + tallies.done + tallies.dropped());
/// assert_eq!(
///     tallies.to_string(),
///     "offered 3, more 1, done 1, dropped: 1 wrong length, 0 no fragment, 0 overflow, 0 limit, 0 check"
/// );
/// # Ok::<(), xara::Refusal>(())
/// ```
#[derive(Clone, Copy, Debug, Default, PartialEq, Eq)]
pub struct Tallies {
    /// Pushes and joins that were not refused.
    pub offered: u64,
    /// Answered with [`Heard::More`](crate::Heard::More).
    pub more: u64,
    /// Answered with [`Heard::Done`](crate::Heard::Done).
    pub done: u64,
    /// Dropped by [`Cause::WrongLength`].
    pub wrong_length: u64,
    /// Dropped by [`Cause::NoFragment`].
    pub no_fragment: u64,
    /// Dropped by [`Cause::Overflow`].
    pub overflow: u64,
    /// Dropped by [`Cause::Limit`].
    pub limit: u64,
    /// Dropped by [`Cause::Check`].
    pub check: u64,
}

impl Tallies {
    /// Those of a new receiver.
    pub(crate) const NEW: Self =
        Tallies { offered: 0, more: 0, done: 0, wrong_length: 0, no_fragment: 0, overflow: 0, limit: 0, check: 0 };

    /// How many were dropped, by all five causes. In a receiver that started as new they are at most `offered`. Where a caller made
    /// up tallies with a sum over [`u64::MAX`], that number is the answer: it never panics.
    pub const fn dropped(&self) -> u64 {
        let Tallies { wrong_length, no_fragment, overflow, limit, check, .. } = *self;
        wrong_length.saturating_add(no_fragment).saturating_add(overflow).saturating_add(limit).saturating_add(check)
    }
}

/// All eight in a line.
impl fmt::Display for Tallies {
    fn fmt(&self, f: &mut fmt::Formatter<'_>) -> fmt::Result {
        let Tallies { offered, more, done, wrong_length, no_fragment, overflow, limit, check } = self;
        write!(f, "offered {offered}, more {more}, done {done}, dropped: {wrong_length} wrong length, ")?;
        write!(f, "{no_fragment} no fragment, {overflow} overflow, {limit} limit, {check} check")
    }
}

impl From<XaraTallies> for Tallies {
    fn from(tallies: XaraTallies) -> Self {
        let XaraTallies { offered, more, done, wrong_length, no_fragment, overflow, limit, check } = tallies;
        Tallies { offered, more, done, wrong_length, no_fragment, overflow, limit, check }
    }
}

impl From<Tallies> for XaraTallies {
    fn from(tallies: Tallies) -> Self {
        let Tallies { offered, more, done, wrong_length, no_fragment, overflow, limit, check } = tallies;
        XaraTallies { offered, more, done, wrong_length, no_fragment, overflow, limit, check }
    }
}
