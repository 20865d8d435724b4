//! Where fragments went: what counts as what, that the tallies leave nothing out, and tallies up to the largest 64-bit number.

mod calls;

use calls::{Call, FIRST, LAST, MESSAGE, Numbers, Said, mapped, said, tallies};
use xara::{Cause, Heard, Mask, RX_BUFFER, RX_MAX_FRAGMENTS, Reassembler, Refusal, State, Tallies};

const SENTINEL: u8 = 0xA5;
/// The last frame of document 01's message with a byte changed.
const DAMAGED: [u8; 8] = [0x40, 0x00, 0x10, 0x41, 0x14, 0x00, 0x52, 0x42];
const FRESH: State = State::new(Mask::Hf);

fn push(frame: &[u8], field: usize) -> Call {
    Call::Push(frame.to_vec(), field)
}

fn join(f: &[u8], n: usize) -> Call {
    Call::Join(f.to_vec(), n)
}

/// Calls one after the other from a new receiver on: the answer, the cause and the tallies after each.
fn worked_examples() -> Vec<(Call, Said, Option<Cause>, [u64; 8])> {
    let (more, dropped) = (Some(Ok(Heard::More)), Some(Ok(Heard::Dropped)));
    let done = Some(Ok(Heard::Done(MESSAGE.to_vec())));
    let zeros = |n| [&[0x80, 0x00][..], &vec![0; n]].concat();
    vec![
        (push(&FIRST, 5), more.clone(), None, [1, 1, 0, 0, 0, 0, 0, 0]),
        (push(&LAST, 5), done, None, [2, 1, 1, 0, 0, 0, 0, 0]),
        (push(&[0x40], 5), dropped.clone(), Some(Cause::WrongLength), [3, 1, 1, 1, 0, 0, 0, 0]),
        (push(&[0x40], 2), Some(Err(Refusal::Field)), Some(Cause::WrongLength), [3, 1, 1, 1, 0, 0, 0, 0]),
        (join(&[0x40], 0), dropped.clone(), Some(Cause::NoFragment), [4, 1, 1, 1, 1, 0, 0, 0]),
        (join(&[0x40], 2), dropped.clone(), Some(Cause::NoFragment), [5, 1, 1, 1, 2, 0, 0, 0]),
        (join(&[0xC0], 1), dropped.clone(), Some(Cause::NoFragment), [6, 1, 1, 1, 3, 0, 0, 0]),
        (Call::Reset, None, None, [6, 1, 1, 1, 3, 0, 0, 0]),
        (push(&FIRST, 5), more.clone(), None, [7, 2, 1, 1, 3, 0, 0, 0]),
        (push(&DAMAGED, 5), dropped.clone(), Some(Cause::Check), [8, 2, 1, 1, 3, 0, 0, 1]),
        (join(&zeros(4999), 5001), more, None, [9, 3, 1, 1, 3, 0, 0, 1]),
        (join(&zeros(5000), 5002), dropped.clone(), Some(Cause::Limit), [10, 3, 1, 1, 3, 0, 1, 1]),
        (join(&[0x81], 1), dropped.clone(), Some(Cause::Overflow), [11, 3, 1, 1, 3, 1, 1, 1]),
        (join(&[0x01], 1), dropped, Some(Cause::Overflow), [12, 3, 1, 1, 3, 2, 1, 1]),
    ]
}

#[test]
fn worked_examples_hold() {
    let mut receiver = Reassembler::new(Mask::Hf);
    assert_eq!((receiver.tallies(), receiver.cause()), (Tallies::default(), None));
    for (k, (call, answer, cause, counted)) in worked_examples().into_iter().enumerate() {
        assert_eq!(said(&mut receiver, &call), answer, "call {k}");
        assert_eq!((receiver.cause(), receiver.tallies()), (cause, tallies(counted)), "call {k}");
    }
}

/// Why document 01 has a receiver drop the n first bytes of f, or `None` where it does not.
fn cause_of_join(receiver: &Reassembler, f: &[u8], n: usize) -> Option<Cause> {
    let State { held, nfrag, count, crc_mask, overflow, .. } = receiver.state();
    if n == 0 || n > f.len() {
        return Some(Cause::NoFragment);
    }
    if overflow {
        return Some(Cause::Overflow);
    }
    let (goes_on, begins) = (f[0] >= 0x80, held == 0);
    if goes_on && begins && f.len() < 2 {
        return Some(Cause::NoFragment);
    }
    let tail = if goes_on && begins { &f[2..n.max(2)] } else { &f[1..n] };
    if held.max(1) + tail.len() > RX_BUFFER || (!begins && nfrag >= RX_MAX_FRAGMENTS) {
        return Some(Cause::Limit);
    }
    if goes_on || begins {
        return None;
    }
    let message = [&f[..1], &receiver.held()[1..], tail].concat();
    let bits = (xara::crc16_genibus(&message) >> 8) as u8;
    ((bits ^ count) & crc_mask != 0).then_some(Cause::Check)
}

/// The same of a frame: its fragment is all of the field where its control byte is odd, else what stands before the last 14.
fn cause_of_push(receiver: &Reassembler, frame: &[u8], field: usize) -> Option<Cause> {
    if frame.len() != field + 3 {
        return Some(Cause::WrongLength);
    }
    let full = frame[field] % 2 == 1;
    let n = if full { Some(field) } else { frame[..field].iter().rposition(|&byte| byte == 0x14) };
    cause_of_join(receiver, frame, n.unwrap_or(0))
}

/// What is to be answered to a call, and the cause after it.
fn expected(receiver: &Reassembler, call: &Call) -> (Option<Result<Heard<()>, Refusal>>, Option<Cause>) {
    let (bytes, cause) = match call {
        Call::Reset => return (None, None),
        Call::Push(_, 2) => return (Some(Err(Refusal::Field)), receiver.cause()),
        Call::Push(frame, field) => (frame, cause_of_push(receiver, frame, *field)),
        Call::Join(f, n) => (f, cause_of_join(receiver, f, *n)),
    };
    let taken_in = if bytes.first() >= Some(&0x80) { Heard::More } else { Heard::Done(()) };
    (Some(Ok(if cause.is_some() { Heard::Dropped } else { taken_in })), cause)
}

/// An answer without its message.
fn kind<T>(heard: Heard<T>) -> Heard<()> {
    mapped(heard, |_| ())
}

/// The count with one more answer.
fn one_more(mut count: [u64; 8], heard: Heard<()>, cause: Option<Cause>) -> [u64; 8] {
    let taken_in = if heard == Heard::More { 1 } else { 2 };
    let place = cause.map_or(taken_in, |cause| 2 + usize::from(cause.number()));
    count[0] += 1;
    count[place] += 1;
    count
}

/// Random calls of a new receiver, with a count of its answers that is kept apart: that count.
fn history(numbers: &mut Numbers, mask: Mask, most: usize, ends: usize) -> [u64; 8] {
    let (mut receiver, mut count) = (Reassembler::new(mask), [0; 8]);
    for _ in 0..3000 {
        let call = numbers.call(most, ends);
        let (answer, cause) = expected(&receiver, &call);
        let said = said(&mut receiver, &call).map(|said| said.map(kind));
        assert_eq!((said, receiver.cause()), (answer, cause), "{call:?}");
        if let Some(Ok(heard)) = answer {
            count = one_more(count, heard, cause);
        }
        let now = receiver.tallies();
        assert_eq!(now, tallies(count), "{call:?}");
        assert_eq!(now.offered, now.more + now.done + now.dropped());
    }
    count
}

/// With large fragments a message meets the limit of 5,000 bytes, with small ones that of 255 fragments.
#[test]
fn nothing_is_left_out() {
    let mut numbers = Numbers(0x9E37_79B9_7F4A_7C15);
    for (most, ends) in [(500, 20), (5, 300)] {
        let mut all = [0; 8];
        for mask in Mask::ALL {
            let count = history(&mut numbers, mask, most, ends);
            all = std::array::from_fn(|place| all[place] + count[place]);
        }
        assert!(all.iter().all(|&met| met >= 5), "some answer is rare: {all:?}");
    }
}

/// Tallies that a caller made up, with this one at a place.
fn made_up(place: usize, tally: u64) -> [u64; 8] {
    let mut all = [3, 1, 4, 1, 5, 9, 2, 6];
    all[place] = tally;
    all
}

/// Pushes at a field and joins are refused with this, idle ones too, and nothing is changed. A join has no field.
fn refused(state: State, field: usize, refusal: Refusal) {
    let mut store = vec![SENTINEL; RX_BUFFER];
    for n in 0..=8 {
        let mut after = state;
        assert_eq!(after.push(&mut store, &[0x41; 8][..n], field), Err(refusal));
        if refusal != Refusal::Field {
            assert_eq!(after.join(&mut store, &[0x41; 7], n), Err(refusal));
        }
        assert_eq!(after, state);
    }
    assert_eq!(store, vec![SENTINEL; RX_BUFFER]);
}

/// With check at the largest 64-bit number, and with offered one below it.
#[test]
fn worked_examples_of_full_tallies() {
    let full = State { tallies: Tallies { check: u64::MAX, ..Tallies::default() }, ..FRESH };
    refused(full, 5, Refusal::Tally);
    refused(full, 2, Refusal::Field);
    refused(State { crc_mask: 0xF1, ..full }, 2, Refusal::Mask);
    refused(State { crc_mask: 0xF1, nfrag: 256, ..full }, 2, Refusal::State);
    let mut near = State { tallies: Tallies { offered: u64::MAX - 1, ..Tallies::default() }, ..FRESH };
    assert_eq!(near.join(&mut [0; RX_BUFFER], &[0x01], 1), Ok(Heard::Done(1)));
    assert_eq!(near.tallies, Tallies { offered: u64::MAX, done: 1, ..Tallies::default() });
    refused(near, 5, Refusal::Tally);
}

/// Each tally alone that is full is refused, whatever the state, and is so after a reset, which keeps it.
#[test]
fn full_tallies() {
    for place in 0..8 {
        let full = State { tallies: tallies(made_up(place, u64::MAX)), cause: Some(Cause::Limit), ..FRESH };
        let states = [full, State { held: 5000, nfrag: 255, count: 7, ..full }, State { overflow: true, ..full }];
        for mut state in states {
            refused(state, 5, Refusal::Tally);
            let kept = State { cause: None, count: state.count, ..full };
            state.reset();
            assert_eq!(state, kept);
            refused(state, 5, Refusal::Tally);
        }
    }
}

/// Every set of the four faults, with each tally that may be full: 17 comes first, then 9, 8 and 27.
#[test]
fn order_of_refusals() {
    for (faults, place) in (1..16).flat_map(|faults| (0..8).map(move |place| (faults, place))) {
        let [over, mask, field, full] = [8, 4, 2, 1].map(|fault| faults & fault != 0);
        let state = State {
            held: if over { 5001 } else { 5 },
            crc_mask: if mask { 0xF1 } else { 0xF0 },
            tallies: tallies(made_up(place, if full { u64::MAX } else { 0 })),
            ..FRESH
        };
        let refusals = [(over, Refusal::State), (mask, Refusal::Mask), (field, Refusal::Field), (full, Refusal::Tally)];
        let (_, first) = refusals.into_iter().find(|(is, _)| *is).expect("a fault");
        refused(state, if field { 2 } else { 5 }, first);
        if first == Refusal::Field && full {
            refused(state, 5, Refusal::Tally);
        }
    }
}

/// An answer, with its cause where it is dropped, and a state and a call that lead to it.
type Answer = (Heard<usize>, Option<Cause>, State, Call);

fn each_answer() -> [Answer; 7] {
    let held = State { held: 2, nfrag: 1, ..FRESH };
    let dropped = |cause, state, call| (Heard::Dropped, Some(cause), state, call);
    [
        (Heard::More, None, FRESH, join(&[0xC1, 0x42, 0x43], 3)),
        (Heard::Done(1), None, FRESH, join(&[0x01], 1)),
        dropped(Cause::WrongLength, held, push(&[0x40; 7], 5)),
        dropped(Cause::NoFragment, held, push(&[0x40; 8], 5)),
        dropped(Cause::Overflow, State { overflow: true, ..held }, join(&[0x80], 1)),
        dropped(Cause::Limit, State { held: 5000, ..held }, join(&[0x80, 0x00], 2)),
        dropped(Cause::Check, held, join(&[0x01], 1)),
    ]
}

/// An answer is counted in tallies that are not full. The next call is refused where that has made one full, else it is counted.
fn counted_once((heard, cause, before, call): Answer, all: [u64; 8]) {
    let (mut state, mut store) = (State { tallies: tallies(all), ..before }, vec![SENTINEL; RX_BUFFER]);
    let answer = match call {
        Call::Push(frame, field) => state.push(&mut store, &frame, field),
        Call::Join(f, n) => state.join(&mut store, &f, n),
        Call::Reset => unreachable!("a reset has no answer"),
    };
    let count = one_more(all, kind(heard), cause);
    assert_eq!((answer, state.cause, state.tallies), (Ok(heard), cause, tallies(count)));
    if count.contains(&u64::MAX) {
        refused(state, 5, Refusal::Tally);
    } else {
        assert_eq!(state.join(&mut store, &[], 0), Ok(Heard::Dropped));
        assert_eq!(state.tallies, tallies(one_more(count, Heard::Dropped, Some(Cause::NoFragment))));
    }
}

/// Each answer with each tally alone that can take just one more, and with all eight.
#[test]
fn the_last_of_each() {
    let alone = (0..8).map(|place| made_up(place, u64::MAX - 1));
    for all in alone.chain([[u64::MAX - 1; 8]]) {
        each_answer().into_iter().for_each(|answer| counted_once(answer, all));
    }
}

/// The sum of the five, which stops at the largest 64-bit number.
#[test]
fn dropped_by_all_causes() {
    assert_eq!(tallies([1 << 50, 1 << 40, 1 << 30, 1, 10, 100, 1000, 10_000]).dropped(), 11_111);
    for place in 3..8 {
        let mut all = [0; 8];
        all[place] = u64::MAX;
        assert_eq!(tallies(all).dropped(), u64::MAX);
        all[if place == 3 { 7 } else { 3 }] = 1;
        assert_eq!(tallies(all).dropped(), u64::MAX);
    }
}

#[test]
fn eight_tallies_in_a_line() {
    let line = "offered 36, more 1, done 2, dropped: 3 wrong length, 4 no fragment, 5 overflow, 6 limit, 7 check";
    assert_eq!(tallies([36, 1, 2, 3, 4, 5, 6, 7]).to_string(), line);
}
