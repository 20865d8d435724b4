//! A call that reads an input and writes the bytes of its answer to an output.

use crate::lent::{Input, Lent};
use crate::spoil::Parts;
use crate::tally::{Kind, Row, Tally};

/// The call, and what is to be expected of it.
pub struct Writing<'a, T> {
    pub kind: Kind,
    pub input: Input<'a>,
    /// The bytes to write, or a refusal.
    pub expected: Result<&'a [u8], u8>,
    /// The struct that tells a length or a refusal.
    pub answer: &'a dyn Fn(Result<usize, u8>) -> T,
    pub call: &'a dyn Fn(&mut [u8], &mut [u8]) -> T,
    /// The input for a reader of a difference.
    pub told: &'a dyn Fn() -> String,
}

impl<T: Parts> Writing<'_, T> {
    /// The call with each of these outputs: whether all is as expected.
    pub fn compare(mut self, outputs: impl IntoIterator<Item = Lent>, tally: &mut Tally) -> bool {
        outputs.into_iter().fold(true, |same, out| self.once(out, tally) && same)
    }

    fn once(&mut self, mut out: Lent, tally: &mut Tally) -> bool {
        let (answer, bytes) = out.after(self.expected);
        let ours = (self.call)(&mut self.input.lent, out.part());
        let expected = Row { answer: (self.answer)(answer), written: &bytes, read: self.input.kept };
        let ours = Row { answer: ours, written: &out.bytes, read: &self.input.lent };
        tally.compare(self.kind, expected, ours, || format!("{}\n{}", (self.told)(), out.told()))
    }
}
