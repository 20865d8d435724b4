//! Why a call refuses.

use std::error::Error;
use std::fmt;

/// Why a call refuses. Where it does, no lent byte, nothing in a receiver and nothing that is kept is changed.
///
/// The numbers are those of the library and of `xara.h`.
///
/// ```
/// use xara::Refusal;
///
/// let refusal = xara::count_for_field(10, 2).unwrap_err();
/// assert_eq!(refusal, Refusal::Field);
/// assert_eq!(refusal.number(), 8);
/// assert_eq!(refusal.to_string(), "the field is outside 3 to 512");
/// ```
#[derive(Clone, Copy, Debug, PartialEq, Eq, Hash)]
#[non_exhaustive]
pub enum Refusal {
    /// 1: the command is not 0, 1 or 2.
    Command,
    /// 2: data over [`MAX_DATA`](crate::MAX_DATA) bytes, or a message over [`MAX_MESSAGE`](crate::MAX_MESSAGE).
    TooLong,
    /// 3: the AX.25 frame ends too early.
    Short,
    /// 4: a call has a letter that has no code.
    BadCall,
    /// 5: the information is not of the form that its type asks for.
    Format,
    /// 6: the lent output is shorter than the answer.
    Output,
    /// 7: the message can't be decoded.
    NotDecoded,
    /// 8: the field is outside 3 to 512.
    Field,
    /// 9: the mask is not the top 1 to 7 bits of a byte.
    Mask,
    /// 10: the message to send is empty.
    Empty,
    /// 11: its first byte is 80 or more.
    FirstByte,
    /// 12: it takes more fragments than the mask leaves room for.
    Count,
    /// 13: the fragment's number is not below the count.
    Number,
    /// 14: the fragment to frame is empty or longer than the field.
    Fragment,
    /// 15: the marker is 14.
    Marker,
    /// 16: the reply is over 3 or the hint over 7.
    Control,
    /// 17: the store has not [`RX_BUFFER`](crate::RX_BUFFER) bytes, the kept ones not [`KEPT_STORE`](crate::KEPT_STORE), or a state
    /// holds over [`RX_BUFFER`](crate::RX_BUFFER) or counts over [`RX_MAX_FRAGMENTS`](crate::RX_MAX_FRAGMENTS).
    State,
    /// 20: the name has not 1 to [`MAX_NAME`](crate::MAX_NAME) bytes, or is not kept.
    Name,
    /// 21: [`KEPT`](crate::KEPT) states are kept already.
    Kept,
    /// 27: a tally is already the largest 64-bit number.
    Tally,
    /// A number of an archive that is newer than this crate.
    Other(u8),
}

/// The refusals with their numbers, which leave gaps.
const NUMBERED: [(u8, Refusal); 20] = [
    (1, Refusal::Command),
    (2, Refusal::TooLong),
    (3, Refusal::Short),
    (4, Refusal::BadCall),
    (5, Refusal::Format),
    (6, Refusal::Output),
    (7, Refusal::NotDecoded),
    (8, Refusal::Field),
    (9, Refusal::Mask),
    (10, Refusal::Empty),
    (11, Refusal::FirstByte),
    (12, Refusal::Count),
    (13, Refusal::Number),
    (14, Refusal::Fragment),
    (15, Refusal::Marker),
    (16, Refusal::Control),
    (17, Refusal::State),
    (20, Refusal::Name),
    (21, Refusal::Kept),
    (27, Refusal::Tally),
];

impl Refusal {
    /// The refusal with a number.
    pub fn from_number(number: u8) -> Self {
        let named = NUMBERED.iter().find(|(its, _)| *its == number);
        named.map_or(Refusal::Other(number), |&(_, refusal)| refusal)
    }

    /// The number.
    pub fn number(self) -> u8 {
        match self {
            Refusal::Other(number) => number,
            named => NUMBERED.iter().find(|(_, its)| *its == named).expect("each named refusal is in the list").0,
        }
    }
}

impl fmt::Display for Refusal {
    fn fmt(&self, f: &mut fmt::Formatter<'_>) -> fmt::Result {
        let text = match self {
            Refusal::Command => "the command is not 0, 1 or 2",
            Refusal::TooLong => "data over 4,999 bytes, or a message over 5,000",
            Refusal::Short => "the AX.25 frame ends too early",
            Refusal::BadCall => "a call has a letter that has no code",
            Refusal::Format => "the information is not of the form that its type asks for",
            Refusal::Output => "the output is shorter than the answer",
            Refusal::NotDecoded => "the message can't be decoded",
            Refusal::Field => "the field is outside 3 to 512",
            Refusal::Mask => "the mask is not the top 1 to 7 bits of a byte",
            Refusal::Empty => "the message to send is empty",
            Refusal::FirstByte => "the first byte of the message to send is 80 or more",
            Refusal::Count => "the message takes more fragments than the mask leaves room for",
            Refusal::Number => "the fragment's number is not below the count",
            Refusal::Fragment => "the fragment to frame is empty or longer than the field",
            Refusal::Marker => "the marker is 14",
            Refusal::Control => "the reply is over 3 or the hint over 7",
            Refusal::State => {
                "the store has not 5,000 bytes, the kept ones not 40,000, or a state holds over 5,000 or counts over 255"
            }
            Refusal::Name => "the name has not 1 to 8 bytes, or is not kept",
            Refusal::Kept => "eight states are kept already",
            Refusal::Tally => "a tally is already the largest 64-bit number",
            Refusal::Other(number) => return write!(f, "refused with {number}"),
        };
        f.write_str(text)
    }
}

impl Error for Refusal {}
