//! The words that sender and receiver agree on: commands, types and masks.

use crate::Refusal;

/// What data is.
///
/// ```
/// use xara::{Command, Refusal};
///
/// assert_eq!(Command::from_byte(2), Some(Command::Generic));
/// assert_eq!(Command::try_from(3), Err(Refusal::Command));
/// ```
#[derive(Clone, Copy, Debug, PartialEq, Eq, Hash)]
pub enum Command {
    /// An AX.25 frame with calls of six letters.
    Ax25 = 0,
    /// An AX.25 frame with calls of seven letters.
    Ax25Long = 1,
    /// Any bytes.
    Generic = 2,
}

impl Command {
    /// The number.
    pub const fn byte(self) -> u8 {
        self as u8
    }

    /// The command with a number.
    pub const fn from_byte(b: u8) -> Option<Self> {
        Some(match b {
            0 => Self::Ax25,
            1 => Self::Ax25Long,
            2 => Self::Generic,
            _ => return None,
        })
    }
}

impl TryFrom<u8> for Command {
    type Error = Refusal;

    fn try_from(b: u8) -> Result<Self, Refusal> {
        Self::from_byte(b).ok_or(Refusal::Command)
    }
}

/// What the information of an AX.25 frame is. Generic bytes count as text.
#[derive(Clone, Copy, Debug, Default, PartialEq, Eq, Hash)]
pub enum AprsType {
    /// Text of 7 bits.
    #[default]
    Text = 0,
    /// Bytes of 8 bits.
    Binary = 1,
    /// A position.
    Position = 2,
    /// A position with a time.
    TimestampedPosition = 3,
    /// A message to a station.
    Message = 4,
    /// A report that another network handed on.
    ThirdParty = 6,
}

impl AprsType {
    /// The number.
    pub const fn code(self) -> u8 {
        self as u8
    }

    /// The type with a number.
    pub const fn from_code(c: u8) -> Option<Self> {
        Some(match c {
            0 => Self::Text,
            1 => Self::Binary,
            2 => Self::Position,
            3 => Self::TimestampedPosition,
            4 => Self::Message,
            6 => Self::ThirdParty,
            _ => return None,
        })
    }

    /// Whether it is one of the two positions.
    pub const fn has_position(self) -> bool {
        matches!(self, Self::Position | Self::TimestampedPosition)
    }
}

/// Which bits of the check byte are the CRC's: the top 1 to 7. More check bits find more faults, fewer leave room for more
/// fragments. A sender and its receiver use the same.
///
/// ```
/// use xara::{Mask, Refusal};
///
/// assert_eq!(Mask::try_from(0xF8), Ok(Mask::Fm));
/// assert_eq!(Mask::try_from(0xB0), Err(Refusal::Mask));
/// ```
#[derive(Clone, Copy, Debug, Default, PartialEq, Eq, Hash)]
#[non_exhaustive]
pub enum Mask {
    /// One bit of the CRC, up to 129 fragments.
    Bits1 = 0x80,
    /// Two bits of the CRC, up to 65 fragments.
    Bits2 = 0xC0,
    /// Three bits of the CRC, up to 33 fragments.
    Bits3 = 0xE0,
    /// Four bits of the CRC, up to 17 fragments.
    #[default]
    Hf = 0xF0,
    /// Five bits of the CRC, up to 9 fragments.
    Fm = 0xF8,
    /// Six bits of the CRC, up to 5 fragments.
    Bits6 = 0xFC,
    /// Seven bits of the CRC, up to 3 fragments.
    Bits7 = 0xFE,
}

impl Mask {
    /// The masks of 1 to 7 check bits, in this order.
    pub const ALL: [Self; 7] = [Self::Bits1, Self::Bits2, Self::Bits3, Self::Hf, Self::Fm, Self::Bits6, Self::Bits7];

    /// The byte.
    pub const fn byte(self) -> u8 {
        self as u8
    }

    /// The mask with a byte.
    pub const fn from_byte(b: u8) -> Option<Self> {
        match Self::with_bits(b.leading_ones()) {
            Some(mask) if mask.byte() == b => Some(mask),
            _ => None,
        }
    }

    /// How many check bits it has.
    pub const fn bits(self) -> u32 {
        self.byte().count_ones()
    }

    /// The mask with so many check bits, 1 to 7.
    ///
    /// ```
    /// use xara::Mask;
    ///
    /// assert_eq!(Mask::with_bits(4), Some(Mask::Hf));
    /// assert_eq!(Mask::with_bits(7).map(Mask::max_fragments), Some(3));
    /// assert_eq!(Mask::with_bits(8), None);
    /// ```
    pub const fn with_bits(w: u32) -> Option<Self> {
        match w {
            1..=7 => Some(Self::ALL[w as usize - 1]),
            _ => None,
        }
    }

    /// The most fragments of a message that is sent under it.
    pub const fn max_fragments(self) -> usize {
        257 - self as usize
    }
}

impl TryFrom<u8> for Mask {
    type Error = Refusal;

    fn try_from(b: u8) -> Result<Self, Refusal> {
        Self::from_byte(b).ok_or(Refusal::Mask)
    }
}
