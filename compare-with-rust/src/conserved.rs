//! "Offered = More + Done + the sum of the five Dropped tallies, for every list of pushes, joins and resets from fresh, offered
//! being the number of pushes and joins in it that were not refused, and every other tally that of its answers." (document 02,
//! E12) The answers that came back are counted here by themselves: nothing here knows why a fragment is dropped.

use crate::xara::{Pushed, Tallies};
use std::collections::BTreeMap;

/// How often each answer came back from a receiver since it was new, by kind and cause.
#[derive(Clone, Default)]
pub struct Answers(BTreeMap<(u8, u8), u64>);

/// A receiver's tallies, and the sum of all but offered.
#[derive(Clone, Copy, Debug, PartialEq)]
pub struct Balance {
    pub tallies: Tallies,
    pub sum: u128,
}

impl Answers {
    pub fn note(&mut self, answer: Pushed) {
        *self.0.entry((answer.kind, answer.cause)).or_default() += 1;
    }

    fn times(&self, kind: u8, cause: u8) -> u64 {
        self.0.get(&(kind, cause)).copied().unwrap_or_default()
    }

    /// How many calls were not refused.
    fn offered(&self) -> u64 {
        self.0.iter().filter(|&(&(kind, _), _)| kind != 0).map(|(_, times)| times).sum()
    }

    /// The tallies that belong to these answers.
    pub fn tallies(&self) -> Tallies {
        Tallies {
            offered: self.offered(),
            more: self.times(2, 0),
            done: self.times(3, 0),
            wrong_length: self.times(1, 1),
            no_fragment: self.times(1, 2),
            overflow: self.times(1, 3),
            limit: self.times(1, 4),
            check: self.times(1, 5),
        }
    }

    /// What a receiver that gave these answers must have.
    pub fn balance(&self) -> Balance {
        Balance { tallies: self.tallies(), sum: self.offered().into() }
    }
}

impl Balance {
    /// What a receiver with these tallies has.
    pub fn of(tallies: Tallies) -> Self {
        let [_, answered @ ..] = tallies.numbers();
        Balance { tallies, sum: answered.map(u128::from).iter().sum() }
    }
}

#[cfg(test)]
mod tests {
    use super::*;
    use crate::xara::{Cause, Heard, Receiver};

    /// Answers of a history.
    fn answers(heard: &[Heard]) -> Answers {
        let mut answers = Answers::default();
        heard.iter().for_each(|&heard| answers.note(Pushed::of(heard, Receiver::default())));
        answers
    }

    const HEARD: [Heard; 5] = [
        Heard::More,
        Heard::Refused(8),
        Heard::Done(7),
        Heard::Dropped(Cause::WrongLength),
        Heard::Dropped(Cause::Check),
    ];

    #[test]
    fn tallies_that_add_up() {
        assert_eq!(answers(&HEARD).balance(), Balance::of(Tallies::of([4, 1, 1, 1, 0, 0, 0, 1])));
    }

    #[test]
    fn tallies_that_do_not() {
        let balance = answers(&HEARD).balance();
        assert_ne!(balance, Balance::of(Tallies::of([5, 1, 1, 1, 0, 0, 0, 1])), "a refused call that counts");
        assert_ne!(balance, Balance::of(Tallies::of([4, 1, 1, 1, 0, 0, 0, 0])), "a drop that does not");
        assert_ne!(balance, Balance::of(Tallies::of([4, 1, 1, 1, 0, 0, 1, 0])), "a drop under another cause");
    }

    /// An answer of an unknown cause is offered, and no tally takes it: the sum does not add up.
    #[test]
    fn an_unknown_cause() {
        let mut answers = answers(&HEARD);
        answers.note(Pushed { cause: 6, ..Pushed::of(Heard::Dropped(Cause::Check), Receiver::default()) });
        let balance = answers.balance();
        assert_ne!(balance, Balance::of(balance.tallies));
    }
}
