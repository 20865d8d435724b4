//! What a run must meet of kept states: each answer of each call, and what lists of operations come to.

use std::collections::BTreeMap;

/// A call on kept states.
#[derive(Clone, Copy, Debug, PartialEq, Eq, PartialOrd, Ord)]
pub enum Call {
    Keep,
    Return,
    Drop,
}

/// Why a name is refused with 20.
#[derive(Clone, Copy, Debug, PartialEq, Eq, PartialOrd, Ord)]
pub enum Name {
    Empty,
    TooLong,
    NotKept,
}

/// What a list of operations comes to.
#[derive(Clone, Copy, Debug, PartialEq, Eq, PartialOrd, Ord)]
pub enum Met {
    KeptInAMessage,
    KeptInOverflow,
    KeptFullStore,
    FourMasks,
    NameWithAZeroMore,
    Replaced,
    ReplacedOfEight,
    DroppedPlace,
    FlagShownOtherwise,
    Refused20(Call, Name),
    Refused20OfEight,
    Refused21,
    Completed,
    CompletedAgain,
    CompletedAfterAnotherMask,
    CompletedInAnotherStore,
    OtherMaskEnded,
}

/// What a run must meet, and how it is told.
const MUST: [(Met, &str); 24] = [
    (Met::KeptInAMessage, "keep in the middle of a message"),
    (Met::KeptInOverflow, "keep in overflow"),
    (Met::KeptFullStore, "keep with more than 4,500 bytes held"),
    (Met::FourMasks, "four masks kept at once"),
    (Met::NameWithAZeroMore, "a name kept beside the same with a zero after it"),
    (Met::Replaced, "name replaced"),
    (Met::ReplacedOfEight, "name replaced where eight are kept"),
    (Met::DroppedPlace, "new name at a dropped place with later ones free, too"),
    (Met::FlagShownOtherwise, "kept overflow shown as another byte than 1"),
    (Met::Refused20(Call::Keep, Name::Empty), "keep refused 20, empty name"),
    (Met::Refused20(Call::Keep, Name::TooLong), "keep refused 20, long name"),
    (Met::Refused20(Call::Return, Name::Empty), "return refused 20, empty name"),
    (Met::Refused20(Call::Return, Name::TooLong), "return refused 20, long name"),
    (Met::Refused20(Call::Return, Name::NotKept), "return refused 20, name not kept"),
    (Met::Refused20(Call::Drop, Name::Empty), "drop refused 20, empty name"),
    (Met::Refused20(Call::Drop, Name::TooLong), "drop refused 20, long name"),
    (Met::Refused20(Call::Drop, Name::NotKept), "drop refused 20, name not kept"),
    (Met::Refused20OfEight, "keep refused 20 where eight are kept"),
    (Met::Refused21, "keep refused 21"),
    (Met::Completed, "message completed after a return"),
    (Met::CompletedAgain, "message completed after another return to it"),
    (Met::CompletedAfterAnotherMask, "message completed after a return from another mask"),
    (Met::CompletedInAnotherStore, "message completed after a return to another store"),
    (Met::OtherMaskEnded, "end of a message cut under another mask after a return"),
];

/// The answers that each call must give: accepted, or a refusal.
const ANSWERS: [(Call, &[Option<u8>]); 3] = [
    (Call::Keep, &[None, Some(17), Some(9), Some(20), Some(21)]),
    (Call::Return, &[None, Some(17), Some(9), Some(20)]),
    (Call::Drop, &[None, Some(17), Some(9), Some(20)]),
];

/// How often each answer was given, and how often each of the rest was met.
#[derive(Default)]
pub struct ByName {
    answers: BTreeMap<(Call, Option<u8>), u64>,
    met: BTreeMap<Met, u64>,
}

impl ByName {
    pub fn answered(&mut self, call: Call, refusal: Option<u8>) {
        *self.answers.entry((call, refusal)).or_default() += 1;
    }

    pub fn met(&mut self, met: Met) {
        *self.met.entry(met).or_default() += 1;
    }

    /// What a run must meet, and how often it did.
    fn times(&self) -> impl Iterator<Item = (String, u64)> {
        let answers = ANSWERS.into_iter().flat_map(|(call, answers)| answers.iter().map(move |&answer| (call, answer)));
        let answers = answers.map(|key| (answer_told(key), self.answers.get(&key)));
        let met = MUST.into_iter().map(|(met, words)| (words.to_string(), self.met.get(&met)));
        answers.chain(met).map(|(words, times)| (words, times.copied().unwrap_or_default()))
    }

    pub fn unmet(&self) -> impl Iterator<Item = String> {
        self.times().filter(|&(_, times)| times == 0).map(|(words, _)| words)
    }

    pub fn told(&self) -> String {
        let words: Vec<_> = self.times().map(|(words, times)| format!("{words} {times} times")).collect();
        format!("kept states: {}\n", words.join(", "))
    }
}

fn answer_told((call, refusal): (Call, Option<u8>)) -> String {
    let call = format!("{call:?}").to_lowercase();
    refusal.map_or(format!("{call} accepted"), |refusal| format!("{call} refused {refusal}"))
}

#[cfg(test)]
mod tests {
    use super::*;

    /// Nothing is met at first, and what is left out is seen.
    #[test]
    fn left_out() {
        let mut by_name = ByName::default();
        assert_eq!(by_name.unmet().count(), 13 + MUST.len());
        for (call, answers) in ANSWERS {
            answers.iter().for_each(|&answer| by_name.answered(call, answer));
        }
        assert_eq!(by_name.unmet().count(), MUST.len());
        MUST[1..].iter().for_each(|&(met, _)| by_name.met(met));
        assert!(by_name.unmet().eq([MUST[0].1]));
    }
}
