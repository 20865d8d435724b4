//! What data costs before it is sent.

use crate::{Command, Mask, Refusal, raw, told};

/// What data costs.
#[derive(Clone, Copy, Debug, PartialEq, Eq)]
pub struct Preview {
    /// The length of the message that it is coded to, in bytes.
    pub length: usize,
    /// How many fragments the message takes.
    pub count: usize,
}

/// What data costs before it is sent: the length of its message, and how many fragments that takes at this field under this mask.
///
/// It answers what [`encode`](crate::encode) and then [`fragments`](crate::fragments) answer with outputs that are large enough,
/// without any output, and writes nothing. Refuses with [`Refusal::TooLong`], then [`Refusal::Short`], [`Refusal::BadCall`] or
/// [`Refusal::Format`], whichever is met first, then [`Refusal::Field`], [`Refusal::Count`], in this order: the field and the mask
/// of data that can't be coded are not looked at. [`Refusal::Command`] and [`Refusal::Mask`] are ruled out by the types.
///
/// ```
/// use xara::{Command, Mask, Preview, Refusal};
///
/// let frame = [0x86, 0xA2, 0x40, 0x40, 0x40, 0x40, 0x60, 0x96, 0x62, 0x82, 0x40, 0x40, 0x40, 0x61, 0x03, 0xF0, 0x41];
/// assert_eq!(xara::preview(Command::Ax25, &frame, 5, Mask::Hf), Ok(Preview { length: 7, count: 2 }));
///
/// // Four fragments at field 3, for which seven check bits leave no room.
/// assert_eq!(xara::preview(Command::Ax25, &frame, 3, Mask::Hf)?.count, 4);
/// assert_eq!(xara::preview(Command::Ax25, &frame, 3, Mask::Bits7), Err(Refusal::Count));
///
/// // What the coder refuses comes first.
/// assert_eq!(xara::preview(Command::Ax25, &frame[..10], 2, Mask::Hf), Err(Refusal::Short));
/// assert_eq!(xara::preview(Command::Ax25, &frame, 2, Mask::Hf), Err(Refusal::Field));
/// # Ok::<(), Refusal>(())
/// ```
pub fn preview(command: Command, data: &[u8], field: usize, mask: Mask) -> Result<Preview, Refusal> {
    let a = raw::xara_preview(command.byte(), data, field, mask.byte());
    told(a.ok, a.refusal, Preview { length: a.length, count: a.count })
}
