//! Kept states that a caller makes up, drawn and written down, with lent bytes, stores and names of any length. All goes by document
//! 02's words.

use crate::kept::{self, Desk};
use crate::lent::Lent;
use crate::made_up;
use crate::rules::kept::LENT;
use crate::tallies;
use crate::tally::{Kind, Tally};
use crate::xara::{Kept, KeptSlot, MAX_NAME, PLACES, Receiver, Tallies};
use answers::random::Random;
use answers::{MASKS, MAX_MESSAGE};

/// A call by name on made-up states, with so many bytes of a store and so many lent ones.
#[derive(Clone)]
struct Case {
    kept: Kept,
    receiver: Receiver,
    store: usize,
    lent: usize,
    name: Vec<u8>,
}

impl Case {
    /// What no check refuses but that of the name: another state in each of these places, and another one to keep.
    fn of(places: impl IntoIterator<Item = usize>, name: &[u8]) -> Self {
        let mut kept = Kept::default();
        for place in places {
            kept.slots[place] = KeptSlot::of(own_name(place), own_state(place));
        }
        Case { kept, receiver: own_state(PLACES), store: MAX_MESSAGE, lent: LENT, name: name.to_vec() }
    }

    /// The case with its eight kept states and the one to keep changed in one of them; the last number is the one to keep.
    fn changed(&self, who: usize, change: impl FnOnce(&mut Receiver)) -> Self {
        let mut case = self.clone();
        change(case.kept.slots.get_mut(who).map_or(&mut case.receiver, |slot| &mut slot.receiver));
        case
    }

    /// The case on both sides, each with a store and lent bytes of its own.
    fn desks<'a>(&self, sides: [&'a mut [Lent; 2]; 2]) -> [Desk<'a>; 2] {
        sides.map(|[store, lent]| Desk { kept: self.kept, receiver: self.receiver, store, lent })
    }

    /// All three calls, each on the same kept states. A keep gets another store than the one that the return wrote.
    fn run(&self, r: &mut Random, tally: &mut Tally) {
        let mut ours = [Lent::new(r, self.store), Lent::new(r, self.lent)];
        let mut other = ours.clone();
        kept::return_to(Kind::KeptMadeUp, self.desks([&mut ours, &mut other]), &self.name, tally);
        kept::drop_name(Kind::KeptMadeUp, self.desks([&mut ours, &mut other]), &self.name, tally);
        let store = Lent::new(r, self.store);
        (ours[0], other[0]) = (store.clone(), store);
        kept::keep(Kind::KeptMadeUp, self.desks([&mut ours, &mut other]), &self.name, tally);
    }
}

/// Eight names of 1 to 8 bytes.
fn own_name(place: usize) -> &'static [u8] {
    &b"slot bhz"[..=place]
}

/// A state that is accepted, another for each number.
fn own_state(number: usize) -> Receiver {
    let tallies = Tallies::of(std::array::from_fn(|k| (100 * number + k) as u64));
    let (held, nfrag, count) = (10 * number + 1, number + 1, number as u8);
    Receiver { held, nfrag, count, ..Receiver::idle(MASKS[number % MASKS.len()], tallies) }
}

pub fn written_down(r: &mut Random, tally: &mut Tally) {
    all_places(r, tally);
    all_masks(r, tally);
    all_states(r, tally);
    all_lengths(r, tally);
    all_sizes(r, tally);
    all_names(r, tally);
    one_name_twice(r, tally);
    all_flags(r, tally);
    all_tallies(r, tally);
}

/// Who has a state: each place, and after them the receiver that is handed in.
const STATES: usize = PLACES + 1;

/// A name that is not among the eight.
const NEW: &[u8] = b"new";

/// Every choice of taken places, with a new name and with each of the eight.
fn all_places(r: &mut Random, tally: &mut Tally) {
    for taken in 0..1 << PLACES {
        let places = || (0..PLACES).filter(move |place| taken >> place & 1 == 1);
        Case::of(places(), NEW).run(r, tally);
        (0..PLACES).for_each(|place| Case::of(places(), own_name(place)).run(r, tally));
    }
}

/// Every byte as the mask of each state, with a name that is accepted and with an empty one.
fn all_masks(r: &mut Random, tally: &mut Tally) {
    for mask in 0..=255 {
        for who in 0..STATES {
            for name in [own_name(3), &[]] {
                Case::of(0..PLACES, name).changed(who, |state| state.crc_mask = mask).run(r, tally);
            }
        }
    }
}

/// Each edge of a state in each of the states, alone, and with a mask that is refused in each.
fn all_states(r: &mut Random, tally: &mut Tally) {
    let held = [0, 4_999, 5_000, 5_001, usize::MAX].map(|held| (held, 1));
    let nfrag = [0, 254, 255, 256, usize::MAX].map(|nfrag| (1, nfrag));
    for (held, nfrag) in held.into_iter().chain(nfrag) {
        for who in 0..STATES {
            let case =
                Case::of(0..PLACES, own_name(5)).changed(who, |state| *state = Receiver { held, nfrag, ..*state });
            case.run(r, tally);
            (0..STATES).for_each(|other| case.changed(other, |state| state.crc_mask = 0xF1).run(r, tally));
        }
    }
}

/// Each length that a slot may say of its name, with states that are accepted and with those that are not.
fn all_lengths(r: &mut Random, tally: &mut Tally) {
    let changes: [fn(&mut Receiver); 4] =
        [|_| {}, |state| state.held = 5_001, |state| state.nfrag = 256, |state| state.crc_mask = 0xF1];
    for len in [0, 1, 2, 7, 8, 9, 255, 256, 1 << 32, usize::MAX - 7, usize::MAX] {
        for place in 0..PLACES {
            for change in changes {
                for name in [NEW, own_name(place), own_name(len.wrapping_sub(1) % PLACES)] {
                    let mut case = Case::of(0..PLACES, name).changed(place, change);
                    case.kept.slots[place].len = len;
                    case.kept.slots[place].name = r.bytes(MAX_NAME).try_into().expect("eight bytes");
                    case.run(r, tally);
                }
            }
        }
    }
}

/// Each size of the store and of the lent bytes with each length of a name, where none, seven and eight are kept, with a mask that is
/// refused and without one.
fn all_sizes(r: &mut Random, tally: &mut Tally) {
    for (store, lent) in
        [0, 4_999, 5_000, 5_001].iter().flat_map(|&store| [0, 39_999, 40_000, 40_001].map(|lent| (store, lent)))
    {
        for (length, kept) in (0..=MAX_NAME + 2).flat_map(|length| [0, 7, 8].map(|kept| (length, kept))) {
            let case = Case { store, lent, ..Case::of(0..kept, &b"slot bhz##"[..length]) };
            case.run(r, tally);
            case.changed(PLACES, |state| state.crc_mask = 0x00).run(r, tally);
        }
    }
}

/// Names of each length, each asked for as it is, with one bit changed, shorter, and longer by what stands after it in the slot.
fn all_names(r: &mut Random, tally: &mut Tally) {
    for len in 1..=MAX_NAME {
        let place = r.below(PLACES);
        let eight = if r.below(2) == 0 { [0; MAX_NAME] } else { r.bytes(MAX_NAME).try_into().expect("eight bytes") };
        let mut case = Case::of((0..PLACES).filter(|&other| other != place), &eight[..len]);
        case.kept.slots[place] = KeptSlot { len, name: eight, receiver: own_state(place) };
        let longer = [&eight[..], &[0]].concat();
        let lengths = [len - 1, len, len + 1].map(|length| longer[..length].to_vec());
        let changed = (0..8 * len).map(|bit| {
            let mut name = eight[..len].to_vec();
            name[bit / 8] ^= 1 << (bit % 8);
            name
        });
        lengths.into_iter().chain(changed).for_each(|name| Case { name, ..case.clone() }.run(r, tally));
    }
}

/// Two places with one name, which differ after it, with the rest taken and with the rest free.
fn one_name_twice(r: &mut Random, tally: &mut Tally) {
    for (first, second) in (0..PLACES).flat_map(|first| (0..first).map(move |second| (first, second))) {
        for kept in [0, PLACES] {
            let mut case = Case::of(0..kept, b"twice");
            for place in [first, second] {
                case.kept.slots[place] = KeptSlot::of(b"twice", own_state(place));
                case.kept.slots[place].name[7] = place as u8;
            }
            case.run(r, tally);
        }
    }
}

/// Bytes of a flag in each of the states, where the call is accepted and where it is refused, also in a place that is free.
fn all_flags(r: &mut Random, tally: &mut Tally) {
    for (flag, who) in [0, 1, 2, 255].iter().flat_map(|&flag| (0..STATES).map(move |who| (flag, who))) {
        for name in [own_name(who.min(7)), own_name(0), NEW, &[]] {
            let mut case = Case::of(0..PLACES, name).changed(who, |state| state.overflow = flag);
            case.run(r, tally);
            if let Some(slot) = case.kept.slots.get_mut(who) {
                slot.len = 0;
            }
            case.run(r, tally);
        }
    }
}

/// Each tally alone at the largest number, and at the one before it, in each of the states: no call on kept states refuses that.
fn all_tallies(r: &mut Random, tally: &mut Tally) {
    for tallies in tallies::each_alone() {
        for who in 0..STATES {
            Case::of(0..PLACES, own_name(2)).changed(who, |state| state.tallies = tallies).run(r, tally);
        }
    }
}

/// Some kept states, of which one in four times one state is any, with a name and sizes that are mostly accepted.
pub fn drawn(r: &mut Random, tally: &mut Tally) {
    let mut case = Case::of([], &some_name(r));
    case.receiver = some_state(r);
    for slot in &mut case.kept.slots {
        *slot = KeptSlot { receiver: some_state(r), ..KeptSlot::of(&some_name(r), Receiver::default()) };
        if r.below(3) == 0 {
            slot.len = [0, 9, 255, usize::MAX, r.number() as usize][r.below(5)];
            slot.receiver = made_up::state(r);
        }
    }
    if r.below(4) == 0 {
        case = case.changed(r.below(STATES), |state| *state = made_up::state(r));
    }
    match r.below(32) {
        0 => case.store = [0, 4_999, 5_001, r.below(6_000)][r.below(4)],
        1 => case.lent = [0, 39_999, 40_001, r.below(50_000)][r.below(4)],
        2 => case.name = r.bytes(9),
        3 => case.name.clear(),
        _ => {}
    }
    case.run(r, tally);
}

/// A name of few letters, so that it is often met again.
fn some_name(r: &mut Random) -> Vec<u8> {
    let len = [1, 1, 2, 7, 8, 8][r.below(6)];
    let mut name = vec![b'A'; len];
    name[len - 1] = r.one_of(b"AB\0\xFF");
    name
}

/// A state that is accepted.
fn some_state(r: &mut Random) -> Receiver {
    let held = [0, 1, 4_999, 5_000, r.below(5_001)][r.below(5)];
    let nfrag = [0, 1, 254, 255, r.below(256)][r.below(5)];
    let overflow = [0, 0, 1, r.byte()][r.below(4)];
    Receiver { held, nfrag, count: r.byte(), crc_mask: r.one_of(&MASKS), overflow, tallies: tallies::made_up(r) }
}

#[cfg(test)]
mod tests {
    use super::*;

    /// What a keep, a return and a drop are refused with; all else is as the rules have it.
    fn refusals(case: &Case) -> [Option<u8>; 3] {
        let (mut tally, mut r) = (Tally::default(), Random::new(1, "worked"));
        let mut ours = [Lent::new(&mut r, case.store), Lent::new(&mut r, case.lent)];
        let mut other = ours.clone();
        let kind = Kind::KeptMadeUp;
        let keep = kept::keep(kind, case.desks([&mut ours, &mut other]), &case.name, &mut tally);
        let back = kept::return_to(kind, case.desks([&mut ours, &mut other]), &case.name, &mut tally);
        let free = kept::drop_name(kind, case.desks([&mut ours, &mut other]), &case.name, &mut tally);
        assert_eq!(tally.differ(), 0);
        [keep.map(|answer| answer.refusal), back.map(|answer| answer.refusal), free.map(|answer| answer.refusal)]
    }

    fn with_mask(name: &[u8], crc_mask: u8) -> Case {
        Case::of([0], name).changed(PLACES, |state| state.crc_mask = crc_mask)
    }

    /// Of the state that is handed in: only a keep has one.
    #[test]
    fn states_handed_in() {
        assert_eq!(refusals(&with_mask(b"s", 0xF0)), [Some(0); 3]);
        assert_eq!(refusals(&with_mask(b"", 0xF1)), [Some(9), Some(20), Some(20)]);
        let many = with_mask(b"s", 0xF1).changed(PLACES, |state| state.nfrag = 256);
        assert_eq!(refusals(&many), [Some(17), Some(0), Some(0)]);
    }

    /// Of a state that is kept, and of the lent bytes.
    #[test]
    fn states_kept() {
        let case = Case::of([0, 6], b"s");
        let kept = case.changed(6, |state| state.crc_mask = 0x00);
        assert_eq!(refusals(&kept), [Some(9); 3]);
        assert_eq!(refusals(&Case { lent: 39_999, ..kept.clone() }), [Some(17); 3]);
        assert_eq!(refusals(&Case { store: 4_999, ..kept }), [Some(17), Some(17), Some(9)]);
        let mut free = case.changed(6, |state| *state = Receiver { held: 5_001, crc_mask: 0x00, ..*state });
        assert_eq!(refusals(&free), [Some(17); 3]);
        free.kept.slots[6].len = 9;
        assert_eq!(refusals(&free), [Some(0); 3], "a free place may hold anything");
    }
}
