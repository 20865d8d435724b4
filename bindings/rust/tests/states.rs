//! Receiver states that no call leads to, and stores of another length.

use xara::{Cause, Heard, Mask, RX_BUFFER, Refusal, State, Tallies};

const SENTINEL: u8 = 0xA5;

/// A receiver that holds nothing, with tallies that a caller made up and a cause.
fn counting(mask: Mask) -> State {
    let tallies =
        Tallies { offered: 3, more: 1, done: 4, wrong_length: 1, no_fragment: 5, overflow: 9, limit: 2, check: 6 };
    State { tallies, cause: Some(Cause::Check), ..State::new(mask) }
}

/// A push and a join are refused with this, and nothing is changed.
fn refused(state: State, size: usize, refusal: Refusal) {
    let mut store = vec![SENTINEL; size];
    let mut after = state;
    assert_eq!(after.push(&mut store, &[0x41; 8], 5), Err(refusal));
    assert_eq!(after.join(&mut store, &[0x41; 8], 8), Err(refusal));
    assert_eq!(after, state);
    assert_eq!(store, vec![SENTINEL; size]);
}

#[test]
fn stores_of_another_length() {
    for size in [0, 1, 4999, 5001, 10_000] {
        refused(counting(Mask::Hf), size, Refusal::State);
        refused(State { crc_mask: 0, ..counting(Mask::Hf) }, size, Refusal::State);
    }
}

#[test]
fn more_than_can_be_held_or_counted() {
    for over in [1, 2, 4096, usize::MAX - 5000] {
        for overflow in [false, true] {
            let fresh = State { overflow, ..counting(Mask::Fm) };
            refused(State { held: 5000 + over, ..fresh }, RX_BUFFER, Refusal::State);
            refused(State { nfrag: 255 + over, ..fresh }, RX_BUFFER, Refusal::State);
            refused(State { held: 5000 + over, nfrag: 255 + over, crc_mask: 1, ..fresh }, RX_BUFFER, Refusal::State);
        }
    }
}

#[test]
fn masks_that_are_none() {
    for crc_mask in (0..=255).filter(|&b| Mask::from_byte(b).is_none()) {
        let fresh = State { crc_mask, ..counting(Mask::Hf) };
        refused(State { held: 5000, nfrag: 255, count: 1, overflow: true, ..fresh }, RX_BUFFER, Refusal::Mask);
        refused(fresh, RX_BUFFER, Refusal::Mask);
    }
}

#[test]
fn fields_that_are_none() {
    let mut store = vec![SENTINEL; RX_BUFFER];
    for field in [0, 1, 2, 513, usize::MAX - 2, usize::MAX] {
        let mut state = State { held: 7, nfrag: 3, ..counting(Mask::Hf) };
        assert_eq!(state.push(&mut store, &[0x41; 8], field), Err(Refusal::Field));
        assert_eq!(state, State { held: 7, nfrag: 3, ..counting(Mask::Hf) });
    }
    assert_eq!(store, vec![SENTINEL; RX_BUFFER]);
}

/// What document 01 says of a fragment of three bytes that goes on, whatever the state holds.
fn expected(state: State) -> (Heard<usize>, State, Option<usize>) {
    let mut tallies = state.tallies;
    tallies.offered += 1;
    if state.overflow {
        tallies.overflow += 1;
        return (Heard::Dropped, State { tallies, cause: Some(Cause::Overflow), ..state }, None);
    }
    let base = state.held.max(1);
    let tail = if state.held == 0 { 1 } else { 2 };
    let nfrag = if state.held == 0 { 0 } else { state.nfrag };
    let count = if state.held == 0 { 0x42 } else { state.count };
    if base + tail > 5000 || nfrag >= 255 {
        tallies.limit += 1;
        let after = State { held: 0, nfrag: 0, count, overflow: true, tallies, cause: Some(Cause::Limit), ..state };
        return (Heard::Dropped, after, None);
    }
    tallies.more += 1;
    (Heard::More, State { held: base + tail, nfrag: nfrag + 1, count, tallies, cause: None, ..state }, Some(base))
}

/// A fragment of three bytes that goes on, joined to a state that a caller made up, against the rules.
fn joined(mut state: State) {
    let f = [0xC1, 0x42, 0x43];
    let held = state.held;
    let (heard, after, place) = expected(state);
    let mut bytes = vec![SENTINEL; RX_BUFFER];
    if let Some(base) = place {
        let tail = if held == 0 { &f[2..] } else { &f[1..] };
        bytes[base..base + tail.len()].copy_from_slice(tail);
    }
    if place.is_some() && held == 0 {
        bytes[0] = f[0];
    }
    let mut store = vec![SENTINEL; RX_BUFFER];
    assert_eq!(state.join(&mut store, &f, 3), Ok(heard));
    assert_eq!((state, store), (after, bytes));
}

#[test]
fn states_that_are_made_up() {
    for held in [0, 1, 2, 2500, 4997, 4998, 4999, 5000] {
        for nfrag in [0, 1, 2, 128, 253, 254, 255] {
            for (mask, overflow) in Mask::ALL.into_iter().flat_map(|mask| [(mask, false), (mask, true)]) {
                joined(State { held, nfrag, count: 7, overflow, ..counting(mask) });
            }
        }
    }
}

#[test]
fn reset_of_any_state() {
    for held in [0, 5000, 5001, usize::MAX] {
        for crc_mask in 0..=255 {
            let kept = State { count: 9, crc_mask, ..counting(Mask::Hf) };
            let mut state = State { held, nfrag: held, overflow: true, ..kept };
            state.reset();
            assert_eq!(state, State { cause: None, ..kept });
        }
    }
}
