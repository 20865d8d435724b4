//! Compares what is expected with what our side did, and counts.

use crate::met::{ByName, Call, Met};
use crate::previews::Prices;
use crate::spoil::{Parts, Spoiled};
use crate::tallies::{self, Ends};
use crate::xara::{Heard, Tallies};
use std::collections::BTreeMap;

/// What is compared: a call of each kind, the lengths of fragments, states, what tallies add up to, and the messages that are completed
/// after a return.
#[derive(Clone, Copy)]
pub enum Kind {
    Crc,
    Count,
    Fragment,
    Slots,
    Frame,
    New,
    Push,
    Join,
    Reset,
    State,
    MadeUp,
    Conserved,
    KeptNone,
    Keep,
    Return,
    Drop,
    Completed,
    KeptMadeUp,
    Encode,
    Summary,
    Decode,
    DecodeMended,
    Readings,
    PlainBack,
    Preview,
    PreviewSent,
    Journey,
}

/// How many kinds there are.
pub const KINDS: usize = 27;

const ROWS: [&str; KINDS] = [
    "crc",
    "count",
    "fragment",
    "fragment lengths",
    "frame",
    "receiver new",
    "receiver push",
    "receiver join",
    "receiver reset",
    "receiver state",
    "receiver made up",
    "receiver tallies",
    "kept none",
    "keep",
    "return",
    "drop",
    "completed message",
    "kept made up",
    "encode",
    "summary",
    "decode",
    "decode mended",
    "both readings",
    "plain comes back",
    "preview",
    "preview as sent",
    "journey",
];

/// What is compared of a call: its answer in every field, all bytes that it could write, and those that it was lent to read.
pub struct Row<'a, T> {
    pub answer: T,
    pub written: &'a [u8],
    pub read: &'a [u8],
}

impl<T> Row<'_, T> {
    /// The row of a call that is lent no bytes.
    pub fn of(answer: T) -> Self {
        Row { answer, written: &[], read: &[] }
    }
}

pub fn same<T: PartialEq>(a: &Row<T>, b: &Row<T>) -> bool {
    a.answer == b.answer && a.written == b.written && a.read == b.read
}

/// How many differences are written out with their inputs.
const SHOWN: u64 = 5;

/// How many fragments were met, and the most of one message.
#[derive(Default)]
struct Cut {
    times: u64,
    most: usize,
}

#[derive(Default)]
pub struct Tally {
    compared: [u64; KINDS],
    differ: [u64; KINDS],
    spoiled: Option<Spoiled>,
    histories: u64,
    heard: [u64; tallies::NAMES.len()],
    made_up_refused: u64,
    made_up_answered: u64,
    ends: Ends,
    by_name: ByName,
    every_room: u64,
    cut: BTreeMap<Result<u8, u8>, Cut>,
    several: u64,
    shortest_last: u64,
    full_last: u64,
    coded: BTreeMap<Result<u8, u8>, u64>,
    decoded: BTreeMap<Result<u8, u8>, u64>,
    longest: usize,
    misread: u64,
    changed: BTreeMap<Result<u8, u8>, u64>,
    prices: Prices,
    decoded_journeys: u64,
    unchanged_journeys: u64,
    unchanged_mended: u64,
}

impl Tally {
    /// A tally that spoils each row that is as expected, too, and counts how often that is found.
    pub fn spoiling() -> Self {
        Tally { spoiled: Some(Spoiled::default()), ..Tally::default() }
    }

    /// Whether a row is as expected. The input is asked for only where it is not.
    pub fn compare<T: Parts>(
        &mut self,
        kind: Kind,
        expected: Row<T>,
        ours: Row<T>,
        input: impl FnOnce() -> String,
    ) -> bool {
        self.compared[kind as usize] += 1;
        if same(&expected, &ours) {
            if let Some(spoiled) = &mut self.spoiled {
                spoiled.row(kind as usize, &expected, &ours);
            }
            return true;
        }
        self.differ[kind as usize] += 1;
        if self.differ() <= SHOWN {
            println!("{} differs", ROWS[kind as usize]);
            println!("expected {:?}\nours     {:?}", expected.answer, ours.answer);
            told_difference("bytes written", expected.written, ours.written);
            told_difference("bytes lent to be read", expected.read, ours.read);
            println!("{}", input());
        }
        false
    }

    /// Where rows are spoiled: a line for each kind, and whether every kind was found.
    pub fn spoiled(&self) -> Option<(String, bool)> {
        let (text, found) = self.spoiled.as_ref()?.table(&ROWS);
        Some((format!("{text}{found} of {KINDS} kinds of rows found where they are spoiled\n"), found == KINDS))
    }

    /// Counts the histories whose tallies were compared with the answers, and these answers.
    pub fn conserved(&mut self, answers: Tallies) {
        self.histories += 1;
        for (all, more) in self.heard.iter_mut().zip(answers.numbers()) {
            *all += more;
        }
    }

    /// Counts the calls on states and stores that a caller made up.
    pub fn made_up(&mut self, before: Tallies, heard: Heard, after: Tallies) {
        match heard {
            Heard::Refused(_) => self.made_up_refused += 1,
            _ => self.made_up_answered += 1,
        }
        self.ends.note(before, heard, after);
    }

    /// Counts the answers of the calls on kept states: accepted, or a refusal.
    pub fn by_name(&mut self, call: Call, refusal: Option<u8>) {
        self.by_name.answered(call, refusal);
    }

    /// Counts what a list of operations on kept states met.
    pub fn met(&mut self, met: Met) {
        self.by_name.met(met);
    }

    /// Counts the calls that were given every output length from 0 on.
    pub fn every_room(&mut self) {
        self.every_room += 1;
    }

    /// Counts the fragments under each mask, by their place in the message from 1 on, and the refusals of the sender.
    pub fn cut(&mut self, mask: u8, place: Result<usize, u8>) {
        let cut = self.cut.entry(place.map(|_| mask)).or_default();
        cut.times += 1;
        cut.most = cut.most.max(place.unwrap_or_default());
    }

    /// Counts the messages of several fragments by their last one: the shortest that there is has 2 bytes, the longest is full.
    pub fn slots(&mut self, lengths: &[usize], field: usize) {
        if let [_, .., last] = lengths {
            self.several += 1;
            self.shortest_last += u64::from(*last == 2);
            self.full_last += u64::from(*last == field);
        }
    }

    /// Counts the types and the refusals of the coder.
    pub fn coded(&mut self, met: Result<u8, u8>) {
        *self.coded.entry(met).or_default() += 1;
    }

    /// Counts the commands and the refusals of the decoder, with the most bytes that it answered.
    pub fn decoded(&mut self, met: Result<u8, u8>, length: usize) {
        *self.decoded.entry(met).or_default() += 1;
        self.longest = self.longest.max(length);
    }

    /// Counts the original answers that hold a call as which a WIDE token is misread.
    pub fn misread(&mut self, misread: bool) {
        self.misread += u64::from(misread);
    }

    /// Counts the answers that differ between the two readings, by what the original one is.
    pub fn readings(&mut self, original: Result<u8, u8>, differ: bool) {
        if differ {
            *self.changed.entry(original).or_default() += 1;
        }
    }

    /// Counts the prices and the refusals of previews.
    pub fn priced(&mut self, field: usize, mask: u8, expected: Result<(usize, usize), u8>) {
        self.prices.note(field, mask, expected);
    }

    /// Counts the journeys at whose end a message is decoded, and those whose data is then what it was, in each reading.
    pub fn arrived(&mut self, original: bool, mended: bool) {
        self.decoded_journeys += 1;
        self.unchanged_journeys += u64::from(original);
        self.unchanged_mended += u64::from(mended);
    }

    /// What a run must meet and did not: each answer in the histories, each end of each tally on made-up states, and what there is of
    /// kept states and of previews.
    pub fn unmet(&self) -> Vec<String> {
        let heard = tallies::NAMES.iter().zip(self.heard);
        let answers = heard.filter(|&(_, times)| times == 0).map(|(name, _)| format!("{name} in a history"));
        let ends = self.ends.unmet().map(|words| format!("{words} for each tally at 2^64 - 1"));
        answers.chain(ends).chain(self.by_name.unmet()).chain(self.prices.unmet()).collect()
    }

    pub fn compared(&self) -> u64 {
        self.compared.iter().sum()
    }

    pub fn differ(&self) -> u64 {
        self.differ.iter().sum()
    }

    /// A row for each kind, then what was answered.
    pub fn table(&self) -> String {
        let mut text = String::new();
        for (row, name) in ROWS.iter().enumerate() {
            text += &format!("{name:<18}{:>12} compared", self.compared[row]);
            if self.differ[row] > 0 {
                text += &format!(", {} differ", self.differ[row]);
            }
            text += "\n";
        }
        let heard: Vec<_> = tallies::NAMES.iter().zip(self.heard).map(|(name, n)| format!("{n} {name}")).collect();
        text += &format!("histories: {} from fresh, tallies held against their answers: ", self.histories);
        text += &format!("{}\n", heard.join(", "));
        text += &format!("made up: {} answered, {} refused\n", self.made_up_answered, self.made_up_refused);
        text += &format!("for each tally at 2^64 - 1, at least: {}\n", self.ends.told());
        text += &self.by_name.told();
        text += &format!("with every output length from 0: {} calls\n", self.every_room);
        text += &format!("cut: {}\n", told_cut(&self.cut));
        text += &format!(
            "of several fragments: {} messages, the last has 2 bytes in {} and field bytes in {}\n",
            self.several, self.shortest_last, self.full_last
        );
        text += &format!("coded: {}\n", told("type", &self.coded));
        text += &format!("decoded: {}, at most {} bytes\n", told("command", &self.decoded), self.longest);
        text += &format!(
            "both readings: {} answers differ ({}), of {} that hold a WIDE call with SSID 10 or 11\n",
            self.changed.values().sum::<u64>(),
            told("command", &self.changed),
            self.misread
        );
        text += &self.prices.told();
        text + &format!(
            "journeys: {} decoded, {} unchanged, {} unchanged in the mended reading\n",
            self.decoded_journeys, self.unchanged_journeys, self.unchanged_mended
        )
    }
}

/// How often each value and each refusal was met.
fn told(value: &str, met: &BTreeMap<Result<u8, u8>, u64>) -> String {
    let words = met.iter().map(|(answer, times)| match answer {
        Ok(v) => format!("{value} {v} {times} times"),
        Err(refusal) => format!("refused {refusal} {times} times"),
    });
    words.collect::<Vec<_>>().join(", ")
}

/// How often a fragment was met under each mask, with the most of one message, and how often each refusal.
fn told_cut(met: &BTreeMap<Result<u8, u8>, Cut>) -> String {
    let words = met.iter().map(|(answer, Cut { times, most })| match answer {
        Ok(mask) => format!("mask {mask:02X} {times} times, at most {most} fragments"),
        Err(refusal) => format!("refused {refusal} {times} times"),
    });
    words.collect::<Vec<_>>().join(", ")
}

fn told_difference(what: &str, expected: &[u8], ours: &[u8]) {
    if let Some(place) = first_difference(expected, ours) {
        println!("{what} differ from place {place} on");
    }
}

/// The first place where two lists of bytes are not the same.
fn first_difference(a: &[u8], b: &[u8]) -> Option<usize> {
    let common = a.iter().zip(b).position(|(x, y)| x != y);
    common.or((a.len() != b.len()).then(|| a.len().min(b.len())))
}

#[cfg(test)]
mod tests {
    use super::*;

    fn differ(expected: Row<u16>, ours: Row<u16>) -> u64 {
        let mut tally = Tally::default();
        let same = tally.compare(Kind::Crc, expected, ours, String::new);
        assert_eq!(tally.compared(), 1);
        assert_eq!(tally.differ(), u64::from(!same));
        tally.differ()
    }

    fn row<'a>(answer: u16, written: &'a [u8], read: &'a [u8]) -> Row<'a, u16> {
        Row { answer, written, read }
    }

    #[test]
    fn equal() {
        assert_eq!(differ(row(1, &[2, 3], &[4]), row(1, &[2, 3], &[4])), 0);
    }

    #[test]
    fn another_answer() {
        assert_eq!(differ(row(1, &[2, 3], &[4]), row(0, &[2, 3], &[4])), 1);
    }

    #[test]
    fn another_last_byte() {
        assert_eq!(differ(row(1, &[2, 3], &[]), row(1, &[2, 4], &[])), 1);
        assert_eq!(first_difference(&[2, 3], &[2, 4]), Some(1));
    }

    #[test]
    fn a_byte_too_many() {
        assert_eq!(differ(row(1, &[2], &[]), row(1, &[2, 3], &[])), 1);
        assert_eq!(first_difference(&[2], &[2, 3]), Some(1));
    }

    /// A run must meet each answer in its histories: one that met no limit says so.
    #[test]
    fn an_answer_that_was_not_met() {
        let mut tally = Tally::default();
        tally.conserved(Tallies::of([9, 3, 1, 1, 1, 2, 0, 1]));
        let unmet = tally.unmet();
        let unmet: Vec<_> = unmet.iter().filter(|text| text.ends_with("in a history")).collect();
        assert_eq!(unmet, ["limit in a history"]);
    }

    #[test]
    fn an_input_that_was_changed() {
        assert_eq!(differ(row(1, &[], &[2, 3]), row(1, &[], &[0, 3])), 1);
    }
}
