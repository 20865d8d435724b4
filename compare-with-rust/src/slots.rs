//! The lengths of a message's fragments: "of several fragments each one before the last has exactly field bytes .. and .. the last
//! has at least 2" (document 02, E1). Planners book slots from the count, so the lengths are held against the count.

use crate::tally::{Kind, Row, Tally};
use crate::xara;
use answers::hex::to_hex;

/// What a list of fragments has of document 02's sentence.
#[derive(Clone, Copy, Debug, PartialEq)]
pub struct Slots {
    /// How many fragments there are.
    pub count: usize,
    /// How many before the last have exactly field bytes.
    pub full: usize,
    /// 1 where the last has at least 2 bytes, or at least 1 where it is the only one, and at most field.
    pub last: u8,
}

impl Slots {
    /// What document 02 asks of so many fragments.
    fn booked(count: usize) -> Self {
        Slots { count, full: count - 1, last: 1 }
    }

    /// What fragments of these lengths have.
    fn of(lengths: &[usize], field: usize) -> Self {
        let (last, before) = lengths.split_last().unwrap_or((&0, &[]));
        let least = if before.is_empty() { 1 } else { 2 };
        Slots {
            count: lengths.len(),
            full: before.iter().filter(|&&length| length == field).count(),
            last: u8::from((least..=field).contains(last)),
        }
    }
}

/// A message that both sides accept, to be cut for this field under this mask.
#[derive(Clone, Copy)]
pub struct Booking<'a> {
    pub message: &'a [u8],
    pub field: usize,
    pub mask: u8,
}

impl Booking<'_> {
    /// Whether the Rust's fragments have the lengths that are booked from its count, and those that we hand out have them, too.
    pub fn compare(self, kind: Kind, split: &[Vec<u8>], tally: &mut Tally) -> bool {
        let theirs: Vec<usize> = split.iter().map(Vec::len).collect();
        tally.slots(&theirs, self.field);
        let count = answers::count(self.message.len(), self.field).expect("a message that is accepted");
        let same = self.compare_one(kind, count, "the Rust's", &theirs, tally);
        self.compare_one(kind, count, "ours", &self.handed_out(), tally) && same
    }

    fn compare_one(self, kind: Kind, count: usize, whose: &str, lengths: &[usize], tally: &mut Tally) -> bool {
        let Booking { message, field, mask } = self;
        let told = || format!("lengths of {whose}: {lengths:?}\nsplit {field} {mask:02X} {}", to_hex(message));
        tally.compare(kind, Row::of(Slots::booked(count)), Row::of(Slots::of(lengths, field)), told)
    }

    /// The lengths of the fragments that our sender hands out, up to its first refusal.
    fn handed_out(self) -> Vec<usize> {
        let mut out = vec![0; self.field];
        let numbers = 0..=self.message.len();
        let answers = numbers.map(|k| xara::fragment(self.message, self.field, self.mask, k, &mut out));
        answers.take_while(|answer| answer.ok == 1).map(|answer| answer.value).collect()
    }
}

#[cfg(test)]
mod tests {
    use super::*;

    fn as_booked(lengths: &[usize], field: usize) -> bool {
        Slots::of(lengths, field) == Slots::booked(lengths.len())
    }

    #[test]
    fn lengths_as_booked() {
        assert!(as_booked(&[5, 5, 2], 5));
        assert!(as_booked(&[5, 5, 5], 5));
        assert!(as_booked(&[1], 5), "a message of one byte");
        assert!(as_booked(&[5], 5));
    }

    #[test]
    fn other_lengths() {
        assert!(!as_booked(&[5, 3, 4], 5), "a middle fragment that is not full");
        assert!(!as_booked(&[4, 5, 3], 5), "a first fragment that is not full");
        assert!(!as_booked(&[4, 4, 4], 5), "equal parts");
        assert!(!as_booked(&[5, 5, 1], 5), "a last fragment of one byte");
        assert!(!as_booked(&[5, 5, 6], 5), "a last fragment over the field");
        assert!(!as_booked(&[6, 2], 5), "a first fragment over the field");
        assert!(!as_booked(&[0], 5), "an empty fragment");
        assert!(!as_booked(&[6], 5), "one fragment over the field");
        assert_ne!(Slots::of(&[], 5), Slots::booked(1), "no fragment");
        assert_ne!(Slots::of(&[5, 5], 5), Slots::booked(3), "a fragment less than the count");
    }
}
