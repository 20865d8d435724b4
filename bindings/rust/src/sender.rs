//! Messages cut into fragments.

use crate::{Control, Frames, Mask, Refusal, raw, told};
use std::fmt;
use std::iter::FusedIterator;
use std::ops::Deref;

/// The smallest field: a fragment has at most field bytes.
pub const MIN_FIELD: usize = 3;
/// The largest field.
pub const MAX_FIELD: usize = 512;

/// How many fragments a message of so many bytes takes: 1 up to field bytes.
///
/// Refuses with [`Refusal::Field`], [`Refusal::TooLong`], in this order.
///
/// ```
/// assert_eq!(xara::count_for_field(5, 5), Ok(1));
/// assert_eq!(xara::count_for_field(9, 5), Ok(3));
/// ```
pub fn count_for_field(total: usize, field: usize) -> Result<usize, Refusal> {
    let a = raw::xara_count_for_field(total, field);
    told(a.ok, a.refusal, a.value)
}

/// Fragment k of a message, counted from 0, in a lent output.
///
/// Of several fragments each before the last has exactly field bytes, the last at least 2. One fragment alone is the message. As
/// many bytes as the field has are enough for every fragment. Refuses with [`Refusal::Field`], [`Refusal::Empty`],
/// [`Refusal::TooLong`], [`Refusal::FirstByte`], [`Refusal::Count`], [`Refusal::Number`], [`Refusal::Output`], in this order.
///
/// ```
/// use xara::{Mask, Refusal};
///
/// let message = [0x40, 0xAC, 0xB7, 0x01, 0x00, 0x10, 0x40];
/// let mut out = [0; 5];
/// assert_eq!(xara::fragment(&message, 5, Mask::Hf, 0, &mut out)?.len(), 5);
/// assert_eq!(xara::fragment(&message, 5, Mask::Hf, 1, &mut out)?, [0x40, 0x00, 0x10, 0x40]);
/// assert_eq!(xara::fragment(&message, 5, Mask::Hf, 2, &mut out), Err(Refusal::Number));
/// # Ok::<(), Refusal>(())
/// ```
pub fn fragment<'a>(
    message: &[u8],
    field: usize,
    mask: Mask,
    k: usize,
    out: &'a mut [u8],
) -> Result<&'a [u8], Refusal> {
    let a = raw::xara_fragment(message, field, mask.byte(), k, out);
    let n = told(a.ok, a.refusal, a.value)?;
    Ok(&out[..n])
}

/// All fragments of a message, one after the other.
///
/// Refuses with [`Refusal::Field`], [`Refusal::Empty`], [`Refusal::TooLong`], [`Refusal::FirstByte`], [`Refusal::Count`], in
/// this order. What is accepted has its exact count of fragments. Of several each before the last has exactly field bytes, the last at
/// least 2, so that slots can be booked from the count.
///
/// ```
/// use xara::Mask;
///
/// let message = [0x40, 0xAC, 0xB7, 0x01, 0x00, 0x10, 0x40];
/// let fragments = xara::fragments(&message, 5, Mask::Hf)?;
/// assert_eq!(fragments.len(), 2);
/// let all: Vec<Vec<u8>> = fragments.map(|fragment| fragment.to_vec()).collect();
/// assert_eq!(all, [vec![0xC0, 0x40, 0xAC, 0xB7, 0x01], vec![0x40, 0x00, 0x10, 0x40]]);
///
/// let lengths = |message: &[u8], field| -> Result<Vec<usize>, xara::Refusal> {
///     Ok(xara::fragments(message, field, Mask::Hf)?.map(|fragment| fragment.len()).collect())
/// };
/// assert_eq!(lengths(&[0x21; 24], 10)?, [10, 10, 7]);
/// assert_eq!(lengths(&[0x21; 24], 24)?, [24]);
/// assert_eq!(lengths(&[0x21; 9], 5)?, [5, 5, 2]);
/// # Ok::<(), xara::Refusal>(())
/// ```
pub fn fragments(message: &[u8], field: usize, mask: Mask) -> Result<Fragments<'_>, Refusal> {
    fragment(message, field, mask, 0, &mut [0; MAX_FIELD])?;
    let count = count_for_field(message.len(), field)?;
    Ok(Fragments { message, field, mask, next: 0, count })
}

/// A fragment. It reads as its bytes.
#[derive(Clone, Copy)]
pub struct Fragment {
    bytes: [u8; MAX_FIELD],
    len: usize,
}

impl Deref for Fragment {
    type Target = [u8];

    fn deref(&self) -> &[u8] {
        &self.bytes[..self.len]
    }
}

impl AsRef<[u8]> for Fragment {
    fn as_ref(&self) -> &[u8] {
        self
    }
}

impl PartialEq for Fragment {
    fn eq(&self, other: &Self) -> bool {
        self[..] == other[..]
    }
}

impl Eq for Fragment {}

impl fmt::Debug for Fragment {
    fn fmt(&self, f: &mut fmt::Formatter<'_>) -> fmt::Result {
        write!(f, "Fragment({:02X?})", &self[..])
    }
}

/// The fragments of a message that was accepted; made by [`fragments`]. Of several each before the last has exactly field bytes, the
/// last at least 2.
#[derive(Clone, Debug)]
pub struct Fragments<'a> {
    message: &'a [u8],
    field: usize,
    mask: Mask,
    next: usize,
    count: usize,
}

impl<'a> Fragments<'a> {
    /// Fragment k of the message, counted from 0, as for one that has to be sent again.
    pub fn get(&self, k: usize) -> Option<Fragment> {
        let mut bytes = [0; MAX_FIELD];
        let len = fragment(self.message, self.field, self.mask, k, &mut bytes).ok()?.len();
        Some(Fragment { bytes, len })
    }

    /// The field that they were cut for.
    pub fn field(&self) -> usize {
        self.field
    }

    /// The frames of the fragments that are left.
    ///
    /// The marker stands after a fragment that is shorter than the field, and may be any byte but
    /// [`TERMINATOR`](crate::TERMINATOR). Refuses with [`Refusal::Marker`], [`Refusal::Control`], in this order.
    pub fn frames(self, control: Control, marker: u8) -> Result<Frames<'a>, Refusal> {
        Frames::new(self, control, marker)
    }
}

impl Iterator for Fragments<'_> {
    type Item = Fragment;

    fn next(&mut self) -> Option<Fragment> {
        let fragment = self.get(self.next)?;
        self.next += 1;
        Some(fragment)
    }

    fn nth(&mut self, n: usize) -> Option<Fragment> {
        self.next = self.next.saturating_add(n).min(self.count);
        self.next()
    }

    fn size_hint(&self) -> (usize, Option<usize>) {
        let left = self.count - self.next;
        (left, Some(left))
    }
}

impl ExactSizeIterator for Fragments<'_> {}

impl FusedIterator for Fragments<'_> {}
