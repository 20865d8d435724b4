//! Fragments framed for the air.

use crate::{Fragments, MAX_FIELD, Refusal, raw, told};
use std::fmt;
use std::iter::FusedIterator;
use std::ops::Deref;

/// Ends a fragment that is shorter than its field; no marker.
pub const TERMINATOR: u8 = 0x14;

/// A frame has so many bytes more than its field.
const EXTRA: usize = 3;

/// What the control byte of a frame carries.
#[derive(Clone, Copy, Debug, Default, PartialEq, Eq, Hash)]
pub struct Control {
    /// 0 to 3.
    pub reply: u8,
    /// Whether the data is compressed.
    pub compressed: bool,
    /// 0 to 7.
    pub hint: u8,
}

/// The frame of a fragment, in a lent output: field + 3 bytes.
///
/// The marker stands after a fragment that is shorter than the field. Refuses with [`Refusal::Field`], [`Refusal::Fragment`],
/// [`Refusal::Marker`], [`Refusal::Control`], [`Refusal::Output`], in this order.
///
/// ```
/// use xara::{Control, Refusal};
///
/// let fragment = [0x40, 0x00, 0x10, 0x40];
/// let mut out = [0; 8];
/// let frame = xara::build_frame(5, &fragment, Control::default(), 0x01, &mut out)?;
/// assert_eq!(frame, [0x40, 0x00, 0x10, 0x40, 0x14, 0x00, 0x52, 0x42]);
/// assert_eq!(xara::build_frame(5, &fragment, Control::default(), 0x14, &mut out), Err(Refusal::Marker));
/// # Ok::<(), Refusal>(())
/// ```
pub fn build_frame<'a>(
    field: usize,
    data: &[u8],
    control: Control,
    marker: u8,
    out: &'a mut [u8],
) -> Result<&'a [u8], Refusal> {
    let Control { reply, compressed, hint } = control;
    let control = raw::XaraControl { reply, compressed: u8::from(compressed), hint };
    let a = raw::xara_build_frame(field, data, control, marker, out);
    let n = told(a.ok, a.refusal, a.value)?;
    Ok(&out[..n])
}

/// A frame. It reads as its bytes.
#[derive(Clone, Copy)]
pub struct Frame {
    bytes: [u8; MAX_FIELD + EXTRA],
    len: usize,
}

impl Deref for Frame {
    type Target = [u8];

    fn deref(&self) -> &[u8] {
        &self.bytes[..self.len]
    }
}

impl AsRef<[u8]> for Frame {
    fn as_ref(&self) -> &[u8] {
        self
    }
}

impl PartialEq for Frame {
    fn eq(&self, other: &Self) -> bool {
        self[..] == other[..]
    }
}

impl Eq for Frame {}

impl fmt::Debug for Frame {
    fn fmt(&self, f: &mut fmt::Formatter<'_>) -> fmt::Result {
        write!(f, "Frame({:02X?})", &self[..])
    }
}

/// The frames of a message; made by [`Fragments::frames`].
///
/// ```
/// use xara::{Control, Mask};
///
/// let message = [0x40, 0xAC, 0xB7, 0x01, 0x00, 0x10, 0x40];
/// let mut frames = xara::fragments(&message, 5, Mask::Hf)?.frames(Control::default(), 0x01)?;
/// assert_eq!(frames.len(), 2);
/// assert_eq!(frames.next().unwrap()[..], [0xC0, 0x40, 0xAC, 0xB7, 0x01, 0x01, 0xA3, 0x8C]);
/// # Ok::<(), xara::Refusal>(())
/// ```
#[derive(Clone, Debug)]
pub struct Frames<'a> {
    fragments: Fragments<'a>,
    control: Control,
    marker: u8,
}

impl<'a> Frames<'a> {
    /// Control and marker are tried on one fragment: what is accepted of one is accepted of all.
    pub(crate) fn new(fragments: Fragments<'a>, control: Control, marker: u8) -> Result<Self, Refusal> {
        let frames = Frames { fragments, control, marker };
        frames.framed(&[0])?;
        Ok(frames)
    }

    /// The frame of fragment k of the message, counted from 0, as for one that has to be sent again.
    pub fn get(&self, k: usize) -> Option<Frame> {
        self.framed(&self.fragments.get(k)?).ok()
    }

    fn framed(&self, fragment: &[u8]) -> Result<Frame, Refusal> {
        let mut bytes = [0; MAX_FIELD + EXTRA];
        let len = build_frame(self.fragments.field(), fragment, self.control, self.marker, &mut bytes)?.len();
        Ok(Frame { bytes, len })
    }
}

impl Iterator for Frames<'_> {
    type Item = Frame;

    fn next(&mut self) -> Option<Frame> {
        let fragment = self.fragments.next()?;
        self.framed(&fragment).ok()
    }

    fn nth(&mut self, n: usize) -> Option<Frame> {
        let fragment = self.fragments.nth(n)?;
        self.framed(&fragment).ok()
    }

    fn size_hint(&self) -> (usize, Option<usize>) {
        self.fragments.size_hint()
    }
}

impl ExactSizeIterator for Frames<'_> {}

impl FusedIterator for Frames<'_> {}
