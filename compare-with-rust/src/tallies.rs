//! A receiver's eight tallies by their places: those that a caller makes up, and how often calls met one at its largest number.

use crate::xara::{Heard, Tallies};
use answers::random::Random;
use std::collections::BTreeMap;

/// The tallies in their order.
pub const NAMES: [&str; 8] = ["offered", "more", "done", "wrong length", "no fragment", "overflow", "limit", "check"];

/// The largest number, and the one before it.
const LAST: [u64; 2] = [u64::MAX, u64::MAX - 1];

/// Other numbers that a caller hands in: the one before these, and those around the ends of 32 and of 63 bits.
const OTHERS: [u64; 6] = [u64::MAX - 2, (1 << 32) - 1, 1 << 32, (1 << 63) - 1, 1 << 63, (1 << 63) + 1];

impl Tallies {
    pub const fn of(numbers: [u64; NAMES.len()]) -> Self {
        let [offered, more, done, wrong_length, no_fragment, overflow, limit, check] = numbers;
        Tallies { offered, more, done, wrong_length, no_fragment, overflow, limit, check }
    }

    pub fn numbers(self) -> [u64; NAMES.len()] {
        let Tallies { offered, more, done, wrong_length, no_fragment, overflow, limit, check } = self;
        [offered, more, done, wrong_length, no_fragment, overflow, limit, check]
    }
}

/// Tallies that a caller makes up: small ones, and half the time one of them, or several, at an edge.
pub fn made_up(r: &mut Random) -> Tallies {
    let mut numbers = NAMES.map(|_| r.below(1_000) as u64);
    let edges = [0, 0, 0, 0, 1, 1, 1, 2 + r.below(7)][r.below(8)];
    for _ in 0..edges {
        numbers[r.below(NAMES.len())] = edge(r);
    }
    Tallies::of(numbers)
}

/// One of the two last numbers, half the time, or another edge.
fn edge(r: &mut Random) -> u64 {
    if r.below(2) == 0 { LAST[r.below(LAST.len())] } else { OTHERS[r.below(OTHERS.len())] }
}

/// Each tally alone at the largest number, and at the one before it.
pub fn each_alone() -> impl Iterator<Item = Tallies> {
    LAST.into_iter().flat_map(|number| {
        (0..NAMES.len()).map(move |place| {
            let mut numbers = [0; NAMES.len()];
            numbers[place] = number;
            Tallies::of(numbers)
        })
    })
}

/// What is met where a tally is counted up to the largest number. All else that is met is a refusal.
const COUNTED: u8 = 0;

/// What each tally must meet, and how it is told.
const ENDS: [(u8, &str); 5] =
    [(COUNTED, "counted up to it"), (27, "refused 27"), (8, "refused 8"), (9, "refused 9"), (17, "refused 17")];

/// How often each tally was counted up to the largest number, and how often each refusal was met while it alone stood there.
#[derive(Default)]
pub struct Ends(BTreeMap<(u8, usize), u64>);

impl Ends {
    /// Notes a call by the tallies before it, its answer, and the tallies after it.
    pub fn note(&mut self, before: Tallies, heard: Heard, after: Tallies) {
        let (end, places) = match heard {
            Heard::Refused(refusal) => (refusal, alone(largest(before))),
            _ => (COUNTED, largest(after)),
        };
        for place in places {
            *self.0.entry((end, place)).or_default() += 1;
        }
    }

    /// How often each tally met this at least.
    fn least(&self, end: u8) -> u64 {
        let times = |place| self.0.get(&(end, place)).copied().unwrap_or_default();
        (0..NAMES.len()).map(times).min().unwrap_or_default()
    }

    pub fn told(&self) -> String {
        ENDS.map(|(end, words)| format!("{words} in {} calls", self.least(end))).join(", ")
    }

    /// What some tally never met.
    pub fn unmet(&self) -> impl Iterator<Item = &'static str> {
        ENDS.iter().filter(|&&(end, _)| self.least(end) == 0).map(|&(_, words)| words)
    }
}

/// The places of the tallies that are at the largest number.
fn largest(tallies: Tallies) -> Vec<usize> {
    let numbers = tallies.numbers();
    (0..NAMES.len()).filter(|&place| numbers[place] == u64::MAX).collect()
}

/// A place that is the only one; else none.
fn alone(places: Vec<usize>) -> Vec<usize> {
    if places.len() == 1 { places } else { Vec::new() }
}

#[cfg(test)]
mod tests {
    use super::*;
    use std::collections::BTreeSet;

    /// Each edge is drawn in each place, and half the time all are small.
    #[test]
    fn drawn() {
        let mut r = Random::new(1, "tallies");
        let drawn: Vec<_> = (0..10_000).map(|_| made_up(&mut r).numbers()).collect();
        let all: BTreeSet<_> = drawn.iter().flat_map(|numbers| numbers.iter().copied().enumerate()).collect();
        let mut edges = LAST.into_iter().chain(OTHERS).flat_map(|edge| (0..8).map(move |place| (place, edge)));
        assert!(edges.all(|edge| all.contains(&edge)));
        let small = drawn.iter().filter(|numbers| numbers.iter().all(|&n| n < 1_000)).count();
        assert!((4_500..5_500).contains(&small), "{small}");
    }

    /// Every tally must meet every end: nothing is met at first, and one tally that is left out is seen.
    #[test]
    fn ends() {
        let mut ends = Ends::default();
        assert_eq!(ends.unmet().count(), ENDS.len());
        let (full, last): (Vec<_>, Vec<_>) = each_alone().partition(|tallies| tallies.numbers().contains(&u64::MAX));
        for (&after, &before) in full.iter().zip(&last).take(7) {
            ends.note(before, Heard::More, after);
            [27, 8, 9, 17].iter().for_each(|&refusal| ends.note(after, Heard::Refused(refusal), after));
        }
        assert_eq!(ends.unmet().count(), ENDS.len(), "the last tally is left out");
        ends.note(last[7], Heard::More, full[7]);
        assert!(ends.unmet().eq(["refused 27", "refused 8", "refused 9", "refused 17"]));
        ends.note(full[7], Heard::Refused(27), full[7]);
        assert!(ends.unmet().eq(["refused 8", "refused 9", "refused 17"]));
        ends.note(last[7], Heard::Refused(8), last[7]);
        assert!(ends.unmet().eq(["refused 8", "refused 9", "refused 17"]), "8 without a full tally");
    }
}
