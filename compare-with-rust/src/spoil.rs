//! Rows that are spoiled on purpose, one part after the other, to see that each such change is found.

use crate::conserved::Balance;
use crate::slots::Slots;
use crate::tally::{KINDS, Row, same};
use crate::xara::{Answer, Decoded, Encoded, Fresh, Keeping, Kept, Preview, Pushed, Receiver, Summary};
use std::any::type_name;
use std::collections::BTreeMap;
use std::fmt::Debug;

/// An answer whose fields can be changed one at a time.
pub trait Parts: Copy + Debug + PartialEq {
    const NAMES: &'static [&'static str];

    /// Changes the field of this number.
    fn spoil(&mut self, part: usize);
}

/// A field. Of a byte the highest bit is changed: a flag that was true is still no 0 then.
trait Field {
    fn change(&mut self);
}

impl Field for u8 {
    fn change(&mut self) {
        *self ^= 0x80;
    }
}

impl Field for usize {
    fn change(&mut self) {
        *self ^= 1;
    }
}

impl Field for u64 {
    fn change(&mut self) {
        *self ^= 1;
    }
}

impl Field for u128 {
    fn change(&mut self) {
        *self ^= 1;
    }
}

/// The parts of a struct: the way to each, with the places in lists.
macro_rules! parts {
    ($type:ident: $($($field:ident $([$place:literal])?).+),+ $(,)?) => {
        impl Parts for $type {
            const NAMES: &'static [&'static str] = &[$(stringify!($($field $([$place])?).+)),+];

            fn spoil(&mut self, part: usize) {
                let fields: [fn(&mut Self) -> &mut dyn Field; Self::NAMES.len()] =
                    [$(|answer| &mut answer.$($field $([$place])?).+),+];
                fields[part](self).change();
            }
        }
    };
}

/// The parts of a struct that has tallies: its other fields, and the way to the struct that they are in.
macro_rules! tallies_parts {
    ($type:ident: $($($field:ident).+),+; $($way:ident.)*) => {
        parts!(
            $type: $($($field).+),+, $($way.)* tallies.offered, $($way.)* tallies.more, $($way.)* tallies.done,
            $($way.)* tallies.wrong_length, $($way.)* tallies.no_fragment, $($way.)* tallies.overflow,
            $($way.)* tallies.limit, $($way.)* tallies.check
        );
    };
}

/// The parts of a struct that has a receiver: its other fields.
macro_rules! receiver_parts {
    ($type:ident: $($field:ident),+) => {
        tallies_parts!(
            $type: $($field),+, receiver.held, receiver.nfrag, receiver.count, receiver.crc_mask, receiver.overflow;
            receiver.
        );
    };
}

/// The parts of a struct that has kept states: its other fields, and the way to the slots. It goes through their places one after the
/// other, with the parts that it has so far.
macro_rules! kept_parts {
    ($type:ident: $($field:ident,)*; $($way:ident.)*) => {
        kept_parts!(@ $type [$($field,)*] [$($way.)*] 0 1 2 3 4 5 6 7);
    };
    (@ $type:ident [$($parts:tt)*] [$($way:tt)*] $place:literal $($places:literal)*) => {
        kept_parts!(@ $type [
            $($parts)* $($way)* slots[$place].len,
            $($way)* slots[$place].name[0], $($way)* slots[$place].name[1], $($way)* slots[$place].name[2],
            $($way)* slots[$place].name[3], $($way)* slots[$place].name[4], $($way)* slots[$place].name[5],
            $($way)* slots[$place].name[6], $($way)* slots[$place].name[7],
            $($way)* slots[$place].receiver.held, $($way)* slots[$place].receiver.nfrag,
            $($way)* slots[$place].receiver.count, $($way)* slots[$place].receiver.crc_mask,
            $($way)* slots[$place].receiver.overflow, $($way)* slots[$place].receiver.tallies.offered,
            $($way)* slots[$place].receiver.tallies.more, $($way)* slots[$place].receiver.tallies.done,
            $($way)* slots[$place].receiver.tallies.wrong_length, $($way)* slots[$place].receiver.tallies.no_fragment,
            $($way)* slots[$place].receiver.tallies.overflow, $($way)* slots[$place].receiver.tallies.limit,
            $($way)* slots[$place].receiver.tallies.check,
        ] [$($way)*] $($places)*);
    };
    (@ $type:ident [$($parts:tt)*] [$($way:tt)*]) => {
        parts!($type: $($parts)*);
    };
}

parts!(Answer: ok, refusal, value);
parts!(Slots: count, full, last);
tallies_parts!(Receiver: held, nfrag, count, crc_mask, overflow;);
receiver_parts!(Fresh: ok, refusal);
receiver_parts!(Pushed: kind, refusal, cause, length);
tallies_parts!(Balance: sum;);
kept_parts!(Kept: ;);
kept_parts!(Keeping: ok, refusal, place,; kept.);
parts!(Encoded: ok, refusal, aprs_type, length);
parts!(Summary: ok, refusal, aprs_type, ui, digis);
parts!(Decoded: ok, refusal, command, length);
parts!(Preview: ok, refusal, length, count);

/// A CRC.
impl Parts for u16 {
    const NAMES: &'static [&'static str] = &["value"];

    fn spoil(&mut self, _: usize) {
        *self ^= 1;
    }
}

const WRITTEN: &str = "bytes written";
const READ: &str = "bytes read";

/// How often a part was spoiled, and how often that was found.
#[derive(Clone, Copy, Default)]
struct Times {
    spoiled: u64,
    found: u64,
}

/// The parts of each kind of row, by kind, type of the answer and name; a part that was not spoiled yet stands there, too.
#[derive(Default)]
pub struct Spoiled {
    turn: [usize; KINDS],
    parts: BTreeMap<(usize, &'static str, &'static str), Times>,
}

impl Spoiled {
    /// Spoils a row that is as expected in the next of its parts, and looks whether that is found.
    pub fn row<T: Parts>(&mut self, kind: usize, expected: &Row<T>, ours: &Row<T>) {
        let turn = self.turn[kind];
        self.turn[kind] += 1;
        let parts = [(WRITTEN, ours.written.is_empty()), (READ, ours.read.is_empty())];
        let bytes = parts.iter().filter(|(_, empty)| !empty).map(|&(name, _)| name);
        let names: Vec<&'static str> = T::NAMES.iter().copied().chain(bytes).collect();
        for &name in &names {
            self.parts.entry((kind, type_name::<T>(), name)).or_default();
        }
        let part = turn % names.len();
        let found = !same(expected, &spoiled(ours, part, names[part], place(turn, names.len())).borrowed());
        let times = self.parts.entry((kind, type_name::<T>(), names[part])).or_default();
        times.spoiled += 1;
        times.found += u64::from(found);
    }

    /// A line for each kind of row, and how many kinds were spoiled in all their parts and found each time.
    pub fn table(&self, names: &[&str; KINDS]) -> (String, usize) {
        let mut text = String::new();
        let mut found = 0;
        for (kind, name) in names.iter().enumerate() {
            let parts: Vec<_> = self.parts.iter().filter(|((k, _, _), _)| *k == kind).collect();
            let missed = parts.iter().filter(|(_, times)| times.spoiled == 0 || times.found < times.spoiled);
            let missed: Vec<_> = missed.map(|((_, answer, part), _)| format!("{part} of {answer}")).collect();
            let times: u64 = parts.iter().map(|(_, times)| times.spoiled).sum();
            text += &format!("{name:<18}spoiled {times} times in {} parts, ", parts.len());
            if parts.is_empty() || !missed.is_empty() {
                text += &format!("NOT FOUND: {}\n", missed.join(", "));
            } else {
                text += "each time found\n";
                found += 1;
            }
        }
        (text, found)
    }
}

/// The place of a byte to spoil: by turns the next from the first on, and one that is spread over all.
fn place(turn: usize, parts: usize) -> usize {
    let round = turn / parts;
    if round.is_multiple_of(2) { round / 2 } else { turn }
}

/// A row with bytes of its own.
struct Owned<T> {
    answer: T,
    written: Vec<u8>,
    read: Vec<u8>,
}

impl<T: Copy> Owned<T> {
    fn borrowed(&self) -> Row<'_, T> {
        Row { answer: self.answer, written: &self.written, read: &self.read }
    }
}

/// A row with one part changed; of bytes, the one at this place, counted round.
fn spoiled<T: Parts>(row: &Row<T>, part: usize, name: &str, place: usize) -> Owned<T> {
    let mut row = Owned { answer: row.answer, written: row.written.to_vec(), read: row.read.to_vec() };
    let change = |bytes: &mut Vec<u8>| {
        let place = place % bytes.len();
        bytes[place] ^= 1;
    };
    match name {
        WRITTEN => change(&mut row.written),
        READ => change(&mut row.read),
        _ => row.answer.spoil(part),
    }
    row
}

#[cfg(test)]
mod tests {
    use super::*;
    use crate::xara::{Heard, MAX_NAME, Tallies};

    /// Every field that a struct shows has a name here, and each is changed by its number.
    fn every_field<T: Parts>(answer: T) {
        let shown = format!("{answer:?}");
        let labels = |words: &str| shown.matches(words).count();
        let inner: usize = ["receiver: ", "tallies: ", "kept: ", "slots: "].map(labels).iter().sum();
        let bytes = labels("name: ") * (MAX_NAME - 1);
        assert_eq!(labels(": ") - inner + bytes, T::NAMES.len(), "{shown}");
        for part in 0..T::NAMES.len() {
            let mut changed = answer;
            changed.spoil(part);
            assert_ne!(changed, answer);
            changed.spoil(part);
            assert_eq!(changed, answer);
        }
    }

    #[test]
    fn fields() {
        every_field(Answer::of(Ok(7)));
        every_field(Slots { count: 3, full: 2, last: 1 });
        every_field(Receiver::default());
        every_field(Fresh::of(Err(9)));
        every_field(Pushed::of(Heard::Done(7), Receiver::default()));
        every_field(Balance::of(Tallies::default()));
        every_field(Kept::default());
        every_field(Keeping::of(Ok(7), Kept::default()));
        every_field(Encoded::of(Ok((7, 1))));
        every_field(Summary::of(Ok((1, 7, true))));
        every_field(Decoded::of(Err(7)));
        every_field(Preview::of(Ok((7, 2))));
    }

    /// A struct with a field that is not compared.
    #[derive(Clone, Copy, Debug)]
    struct Careless {
        seen: u8,
        overlooked: u8,
    }

    impl PartialEq for Careless {
        fn eq(&self, other: &Self) -> bool {
            self.seen == other.seen
        }
    }

    parts!(Careless: seen, overlooked);

    #[test]
    fn a_field_that_is_not_compared() {
        let names = std::array::from_fn(|_| "row");
        let row = Row { answer: Careless { seen: 1, overlooked: 1 }, written: &[], read: &[] };
        let mut spoiled = Spoiled::default();
        spoiled.row(0, &row, &row);
        assert_eq!(spoiled.table(&names).1, 0, "the second field was not spoiled yet");
        spoiled.row(0, &row, &row);
        let (text, found) = spoiled.table(&names);
        assert_eq!(found, 0);
        assert!(text.contains("NOT FOUND: overlooked of "), "{text}");
    }

    #[test]
    fn bytes_that_are_compared() {
        let names = std::array::from_fn(|_| "row");
        let row = Row { answer: 7u16, written: &[1, 2], read: &[3] };
        let mut spoiled = Spoiled::default();
        for _ in 0..3 {
            spoiled.row(0, &row, &row);
        }
        assert_eq!(spoiled.table(&names).1, 1);
    }
}
