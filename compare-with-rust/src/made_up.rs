//! States and stores that a caller makes up, drawn and written down. What is refused changes nothing, all else goes by document
//! 01's rules.

use crate::histories;
use crate::lent::Input;
use crate::masks;
use crate::rules::{self, Call};
use crate::tallies;
use crate::tally::{Kind, Row, Tally};
use crate::xara::{Heard, Pushed, Receiver, Tallies};
use answers::random::Random;
use answers::{MASKS, MAX_MESSAGE};

/// Some state.
pub fn state(r: &mut Random) -> Receiver {
    let held = [0, 1, 4_999, 5_000, r.below(5_001), r.below(5_001), 5_001, usize::MAX][r.below(8)];
    let nfrag = [0, 1, 254, 255, r.below(256), r.below(256), 256, usize::MAX][r.below(8)];
    let crc_mask = masks::some(r, 8);
    let overflow = if r.below(2) == 0 { 0 } else { r.byte() };
    Receiver { held, nfrag, count: r.byte(), crc_mask, overflow, tallies: tallies::made_up(r) }
}

/// Some state and store, and a few calls on them.
pub fn calls(r: &mut Random, tally: &mut Tally) {
    let state = state(r);
    let size = if r.below(8) == 0 { [0, 4_999, 5_001, r.below(6_000)][r.below(4)] } else { MAX_MESSAGE };
    let mut pair = MadeUp::new(state, r.bytes(size));
    for _ in 0..4 {
        let field =
            if r.below(8) == 0 { r.one_of(&[0, 1, 2]).into() } else { [3, 5, 20, 512, 513, usize::MAX][r.below(6)] };
        let length = if r.below(4) == 0 { r.below(20) } else { field.min(512) + 3 };
        let f = r.bytes(length);
        if r.below(2) == 0 {
            pair.call(Call::Push(&f, field), tally);
        } else {
            pair.call(Call::Join(&f, r.below(length + 2)), tally);
        }
        if r.below(8) == 0 {
            pair.reset(tally);
        }
    }
}

/// Tallies of a new receiver, and tallies of which the last is at the largest number.
const NONE: Tallies = Tallies::of([0; 8]);
const FULL: Tallies = Tallies::of([0, 0, 0, 0, 0, 0, 0, u64::MAX]);

/// Every byte as a mask: of a new receiver, and of one that a caller made up, alone and with refusals before and after 9.
pub fn all_masks(r: &mut Random, tally: &mut Tally) {
    for mask in 0..=255 {
        histories::new(Kind::New, mask, r, tally);
        let (plain, full) = (Receiver::idle(mask, NONE), Receiver::idle(mask, FULL));
        join_and_push(plain, MAX_MESSAGE, 3, r, tally);
        join_and_push(plain, MAX_MESSAGE, 2, r, tally);
        join_and_push(full, MAX_MESSAGE, 3, r, tally);
        join_and_push(full, MAX_MESSAGE - 1, 2, r, tally);
    }
}

/// Every length of a store to 5,001: all but 5,000 are refused with 17, also where 27 is refused after it.
pub fn all_stores(r: &mut Random, tally: &mut Tally) {
    for size in 0..=MAX_MESSAGE + 1 {
        let mask = r.one_of(&MASKS);
        join_and_push(Receiver::idle(mask, NONE), size, 3, r, tally);
        join_and_push(Receiver::idle(mask, FULL), size, 3, r, tally);
    }
}

/// Each tally alone at the largest number and at the one before it, with every state, store and call that is written down below:
/// these have every answer among them, and every refusal alone and before others.
pub fn all_tallies(r: &mut Random, tally: &mut Tally) {
    for tallies in tallies::each_alone() {
        let states = written_states(tallies);
        let stores = [MAX_MESSAGE, MAX_MESSAGE - 1];
        let all = states.iter().flat_map(|&state| stores.map(|size| MadeUp::new(state, vec![r.byte(); size])));
        all.for_each(|pair| each_call(&pair, tally));
    }
}

/// With these tallies: nothing held, an overflow, the most bytes held, the most fragments, and two check bytes, of which one is
/// wrong at least; then states that are refused for their mask, their bytes and their fragments.
fn written_states(tallies: Tallies) -> [Receiver; 9] {
    let idle = Receiver::idle(0xF0, tallies);
    [
        idle,
        Receiver { overflow: 1, ..idle },
        Receiver { held: 5_000, nfrag: 1, ..idle },
        Receiver { held: 1, nfrag: 255, ..idle },
        Receiver { held: 1, nfrag: 1, count: 0x00, ..idle },
        Receiver { held: 1, nfrag: 1, count: 0xF0, ..idle },
        Receiver { crc_mask: 0xF1, ..idle },
        Receiver { held: 5_001, ..idle },
        Receiver { nfrag: 256, ..idle },
    ]
}

/// Joins of a fragment with more after it, of a last one, of none, of more bytes than there are, and without a second byte;
/// pushes of the first three, of two wrong lengths, and of three fields that are refused.
const CALLS: [Call; 13] = [
    Call::Join(&[0x80, 0x00, 0x41], 3),
    Call::Join(&[0x01], 1),
    Call::Join(&[0x40], 0),
    Call::Join(&[0x40], 2),
    Call::Join(&[0xC0], 1),
    Call::Push(&[0x80, 0x00, 0x41, 0x01, 0x00, 0x00], 3),
    Call::Push(&[0x01, 0x14, 0x00, 0x00, 0x00, 0x00], 3),
    Call::Push(&[0x01, 0x00, 0x00, 0x00, 0x00, 0x00], 3),
    Call::Push(&[0x01, 0x14, 0x00, 0x00, 0x00], 3),
    Call::Push(&[], 3),
    Call::Push(&[0x01, 0x14, 0x00, 0x00, 0x00], 2),
    Call::Push(&[0x01, 0x14, 0x00, 0x00, 0x00, 0x00], 513),
    Call::Push(&[], usize::MAX),
];

/// Each of the calls on this receiver, once more after that, and once more after a reset.
fn each_call(pair: &MadeUp, tally: &mut Tally) {
    for call in CALLS {
        let mut pair = pair.clone();
        pair.call(call, tally);
        pair.call(call, tally);
        pair.reset(tally);
        pair.call(call, tally);
    }
}

/// A join and a push of this field, with a store of this size.
fn join_and_push(state: Receiver, size: usize, field: usize, r: &mut Random, tally: &mut Tally) {
    let mut pair = MadeUp::new(state, vec![r.byte(); size]);
    pair.call(Call::Join(&[0x80, 0x00, 0x41], 3), tally);
    pair.call(Call::Push(&[0x41, 0x14, 0x00, 0x00, 0x00, 0x00], field), tally);
}

/// Our receiver from a made-up state and store, and both as the rules have them.
#[derive(Clone)]
struct MadeUp {
    ours: Receiver,
    store: Vec<u8>,
    state: Receiver,
    expected: Vec<u8>,
}

impl MadeUp {
    fn new(state: Receiver, store: Vec<u8>) -> Self {
        MadeUp { ours: state, expected: store.clone(), store, state }
    }

    /// Our answer to a call.
    fn call(&mut self, call: Call, tally: &mut Tally) -> Heard {
        let before = self.ours;
        let mut input = Input::new(call.bytes());
        let (answer, state) = rules::answer(self.state, &mut self.expected, call);
        let ours = call.on(before, &mut self.store, &mut input);
        tally.made_up(self.state.tallies, answer, state.tallies);
        (self.ours, self.state) = (ours.receiver, state);
        let expected = Row { answer: Pushed::of(answer, state), written: &self.expected, read: input.kept };
        let row = Row { answer: ours, written: &self.store, read: &input.lent };
        tally
            .compare(Kind::MadeUp, expected, row, || format!("{before:?}\nstore of {}, {call:02X?}", self.store.len()));
        ours.heard()
    }

    fn reset(&mut self, tally: &mut Tally) {
        let before = self.ours;
        self.state = rules::reset(self.state);
        self.ours = before.reset();
        let expected = Row { answer: self.state, written: &self.expected, read: &[] };
        let ours = Row { answer: self.ours, written: &self.store, read: &[] };
        tally.compare(Kind::Reset, expected, ours, || format!("{before:?}"));
    }
}

#[cfg(test)]
mod tests {
    use super::*;

    /// Our answers to these calls, one after the other, on a state with a store of 5,000 bytes. All else is as the rules have it.
    fn heard<const N: usize>(state: Receiver, calls: [Call; N]) -> [Heard; N] {
        let mut tally = Tally::default();
        let mut pair = MadeUp::new(state, vec![0; MAX_MESSAGE]);
        let heard = calls.map(|call| pair.call(call, &mut tally));
        assert_eq!(tally.differ(), 0);
        heard
    }

    const JOIN: Call = Call::Join(&[0x01], 1);
    const PUSH: Call = Call::Push(&[0x01], 2);

    #[test]
    fn a_full_tally_comes_last() {
        let state = Receiver::idle(0xF0, FULL);
        assert_eq!(heard(state, [JOIN, PUSH]), [Heard::Refused(27), Heard::Refused(8)]);
        assert_eq!(heard(Receiver { crc_mask: 0xF1, ..state }, [JOIN, PUSH]), [Heard::Refused(9); 2]);
        assert_eq!(heard(Receiver { nfrag: 256, ..state }, [JOIN, PUSH]), [Heard::Refused(17); 2]);
    }

    #[test]
    fn the_last_count() {
        let state = Receiver::idle(0xF0, Tallies { offered: u64::MAX - 1, ..NONE });
        assert_eq!(heard(state, [JOIN, JOIN]), [Heard::Done(1), Heard::Refused(27)]);
    }
}
