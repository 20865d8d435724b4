//! One receiver of ours with its store, and the source's receiver beside it. Each call goes to both.

use crate::conserved::{Answers, Balance};
use crate::lent::{Input, Lent};
use crate::rules::{self, Call};
use crate::tally::{Kind, Row, Tally};
use crate::xara::{self, Heard, Pushed};
use answers::Answer;
use answers::hex::to_hex;

pub struct Pair {
    ours: xara::Receiver,
    store: Lent,
    history: History,
}

/// All that a receiver was called with since it was new, and what that leads to.
#[derive(Clone)]
pub struct History {
    mask: u8,
    source: answers::Receiver,
    /// The state as it must be, by document 01's rules, with document 02's tallies; `state` compares ours with the source's own.
    expected: xara::Receiver,
    /// The store as it must be: every byte that no call may have written is as it was at the start.
    store: Lent,
    /// All calls, as requests to the oracle's line program.
    calls: Vec<Request>,
    /// What ours answered to them.
    answers: Answers,
}

#[derive(Clone)]
enum Request {
    Push(usize, Vec<u8>),
    Join(usize, Vec<u8>),
    Reset,
}

impl History {
    /// No call yet, with a store that holds what it holds.
    fn new(mask: u8, expected: xara::Receiver, store: Lent) -> Self {
        let (calls, answers) = (Vec::new(), Answers::default());
        History { mask, source: answers::Receiver::new(mask), expected, store, calls, answers }
    }

    pub fn state(&self) -> xara::Receiver {
        self.expected
    }

    /// An overflow as this byte, which is not 0.
    pub fn show_flag(&mut self, byte: u8) {
        if self.expected.overflow != 0 {
            self.expected.overflow = byte;
        }
    }

    /// The rules' answer and state. The source must agree with the answer, but for the cause, of which it says nothing. Into the
    /// expected store go the bytes that the call may write. What the rules refuse does not go to the source.
    fn expect(&mut self, call: Call) -> Pushed {
        let (ruled, state) = rules::answer(self.expected, self.store.part(), call);
        self.expected = state;
        let answer = match (ruled, call) {
            (Heard::Refused(_), _) => return Pushed::of(ruled, state),
            (_, Call::Push(frame, field)) => self.source.push(frame, field),
            (_, Call::Join(f, n)) => self.source.join(f, n),
        };
        let agreed = match answer {
            Answer::Dropped => matches!(ruled, Heard::Dropped(_)),
            Answer::More => ruled == Heard::More,
            Answer::Done(message) => {
                self.store.part()[..message.len()].copy_from_slice(&message);
                ruled == Heard::Done(message.len())
            }
        };
        assert!(agreed, "the source, and document 01's rules, which say {ruled:?}, on {call:02X?}");
        Pushed::of(ruled, state)
    }

    /// All calls as requests to the oracle's line program.
    pub fn told(&self) -> String {
        let mut text = format!("new a {:02X}", self.mask);
        for call in &self.calls {
            text += &match call {
                Request::Push(field, frame) => format!("\npush a {field} {}", to_hex(frame)),
                Request::Join(n, f) => format!("\njoin a {n} {}", to_hex(f)),
                Request::Reset => "\nreset a".to_string(),
            };
        }
        text
    }
}

impl Pair {
    /// Both receivers new, with a store that holds what it holds.
    pub fn new(mask: u8, ours: xara::Receiver, store: Lent) -> Self {
        Pair { ours, history: History::new(mask, ours, store.clone()), store }
    }

    pub fn held(&self) -> usize {
        self.ours.held
    }

    /// The first bytes of our store.
    pub fn message(&self, length: usize) -> &[u8] {
        &self.store.seen()[..length]
    }

    /// Any byte but 0 is an overflow: an overflow is shown to the next call as this one.
    pub fn show_overflow(&mut self, byte: u8) {
        for receiver in [&mut self.ours, &mut self.history.expected] {
            if receiver.overflow != 0 && byte != 0 {
                receiver.overflow = byte;
            }
        }
    }

    pub fn push(&mut self, field: usize, frame: &[u8], tally: &mut Tally) {
        self.call(Kind::Push, Call::Push(frame, field), tally);
    }

    pub fn join(&mut self, n: usize, f: &[u8], tally: &mut Tally) {
        self.call(Kind::Join, Call::Join(f, n), tally);
    }

    /// A push or a join: what it is expected to answer, where all is so.
    pub fn call(&mut self, kind: Kind, call: Call, tally: &mut Tally) -> Option<Heard> {
        let mut input = Input::new(call.bytes());
        let ours = call.on(self.ours, self.store.part(), &mut input);
        let expected = self.history.expect(call);
        self.history.answers.note(ours);
        self.ours = ours.receiver;
        self.history.calls.push(match call {
            Call::Push(frame, field) => Request::Push(field, frame.to_vec()),
            Call::Join(f, n) => Request::Join(n, f.to_vec()),
        });
        let row = Row { answer: expected, written: &self.history.store.bytes, read: input.kept };
        let ours = Row { answer: ours, written: &self.store.bytes, read: &input.lent };
        tally.compare(kind, row, ours, || self.history.told()).then_some(expected.heard())
    }

    pub fn reset(&mut self, tally: &mut Tally) {
        let History { source, expected, calls, .. } = &mut self.history;
        source.reset();
        self.ours = self.ours.reset();
        *expected = rules::reset(*expected);
        calls.push(Request::Reset);
        let expected = Row { answer: self.history.expected, written: &self.history.store.bytes, read: &[] };
        let ours = Row { answer: self.ours, written: &self.store.bytes, read: &[] };
        tally.compare(Kind::Reset, expected, ours, || self.history.told());
    }

    /// Our state, with the bytes held, against the source's own. An overflow may be any byte but 0 here, since a caller may
    /// show it so. The source has no tallies: those expected are the rules'.
    pub fn state(&self, tally: &mut Tally) {
        let source = self.history.source.state();
        let overflow = if source.overflow { self.ours.overflow.max(1) } else { 0 };
        let expected = xara::Receiver {
            held: source.held.len(),
            nfrag: source.fragments,
            count: source.check,
            crc_mask: source.mask,
            overflow,
            tallies: self.history.expected.tallies,
        };
        let held = self.store.seen().get(..self.ours.held).unwrap_or_default();
        let expected = Row { answer: expected, written: &source.held, read: &[] };
        let ours = Row { answer: self.ours, written: held, read: &[] };
        tally.compare(Kind::State, expected, ours, || self.history.told() + "\nstate a");
    }

    /// Our tallies at the end of a history against the answers that came back since the receiver was new.
    pub fn conserved(&self, tally: &mut Tally) {
        let expected = self.history.answers.balance();
        let ours = Balance::of(self.ours.tallies);
        tally.conserved(expected.tallies);
        tally.compare(Kind::Conserved, Row::of(expected), Row::of(ours), || self.history.told());
    }

    pub fn history(&self) -> &History {
        &self.history
    }

    pub fn mask(&self) -> u8 {
        self.history.mask
    }

    pub fn store(&self) -> &Lent {
        &self.store
    }

    /// Another store, which the receiver that there is must not be called with.
    pub fn lend(&mut self, store: Lent) {
        self.history.store = store.clone();
        self.store = store;
    }

    /// Both receivers go on with the history up to a keeping: ours from the state that came back. The store that the rules wrote must
    /// be the one that was kept.
    pub fn resume(&mut self, history: History, ours: xara::Receiver) {
        let written = self.history.store.clone();
        assert!(history.store.seen() == written.seen(), "the rules, and the store that was kept");
        self.history = History { store: written, ..history };
        self.ours = ours;
    }

    /// Our state and store, and both as they must be.
    pub fn sides(&mut self) -> [(xara::Receiver, &mut Lent); 2] {
        [(self.ours, &mut self.store), (self.history.expected, &mut self.history.store)]
    }
}

#[cfg(test)]
mod tests {
    use super::*;
    use crate::histories;
    use crate::xara::Cause;
    use answers::hex::from_hex;
    use answers::random::Random;

    /// A new receiver under F0, and what was compared of it.
    struct Worked {
        pair: Pair,
        tally: Tally,
    }

    impl Worked {
        fn new() -> Self {
            let mut tally = Tally::default();
            let pair = histories::new(Kind::New, 0xF0, &mut Random::new(1, "worked"), &mut tally);
            Worked { pair: pair.expect("the mask is accepted"), tally }
        }

        /// Our answer, which is also the source's and the rules', and our tallies, which are also the rules'.
        fn call(&mut self, call: Call) -> (Heard, [u64; 8]) {
            let kind = if matches!(call, Call::Push(..)) { Kind::Push } else { Kind::Join };
            let heard = self.pair.call(kind, call, &mut self.tally).expect("both sides answer the same");
            (heard, self.tallies())
        }

        fn push(&mut self, hex: &str, field: usize) -> (Heard, [u64; 8]) {
            self.call(Call::Push(&from_hex(hex).expect("capital hexadecimal"), field))
        }

        fn tallies(&self) -> [u64; 8] {
            self.pair.ours.tallies.numbers()
        }
    }

    /// A message is heard, then frames and fragments that are dropped or refused before they are joined.
    fn first_part(worked: &mut Worked) {
        let none = Heard::Dropped(Cause::NoFragment);
        assert_eq!(worked.push("C040ACB70101A38C", 5), (Heard::More, [1, 1, 0, 0, 0, 0, 0, 0]));
        assert_eq!(worked.push("4000104014005242", 5), (Heard::Done(7), [2, 1, 1, 0, 0, 0, 0, 0]));
        assert_eq!(worked.pair.message(7), [0x40, 0xAC, 0xB7, 0x01, 0x00, 0x10, 0x40]);
        assert_eq!(worked.push("40", 5), (Heard::Dropped(Cause::WrongLength), [3, 1, 1, 1, 0, 0, 0, 0]));
        assert_eq!(worked.push("40", 2), (Heard::Refused(8), [3, 1, 1, 1, 0, 0, 0, 0]));
        assert_eq!(worked.call(Call::Join(&[0x40], 0)), (none, [4, 1, 1, 1, 1, 0, 0, 0]));
        assert_eq!(worked.call(Call::Join(&[0x40], 2)), (none, [5, 1, 1, 1, 2, 0, 0, 0]));
        assert_eq!(worked.call(Call::Join(&[0xC0], 1)), (none, [6, 1, 1, 1, 3, 0, 0, 0]));
    }

    /// A message whose check fails, one that is too long, and what is heard of it after that.
    fn second_part(worked: &mut Worked) {
        let joined = |zeros: usize| [vec![0x80, 0x00], vec![0x00; zeros]].concat();
        let overflow = Heard::Dropped(Cause::Overflow);
        assert_eq!(worked.push("C040ACB70101A38C", 5), (Heard::More, [7, 2, 1, 1, 3, 0, 0, 0]));
        assert_eq!(worked.push("4000104114005242", 5), (Heard::Dropped(Cause::Check), [8, 2, 1, 1, 3, 0, 0, 1]));
        assert_eq!(worked.call(Call::Join(&joined(4_999), 5_001)), (Heard::More, [9, 3, 1, 1, 3, 0, 0, 1]));
        let limit = worked.call(Call::Join(&joined(5_000), 5_002));
        assert_eq!(limit, (Heard::Dropped(Cause::Limit), [10, 3, 1, 1, 3, 0, 1, 1]));
        assert_eq!(worked.call(Call::Join(&[0x81], 1)), (overflow, [11, 3, 1, 1, 3, 1, 1, 1]));
        assert_eq!(worked.call(Call::Join(&[0x01], 1)), (overflow, [12, 3, 1, 1, 3, 2, 1, 1]));
    }

    #[test]
    fn a_worked_history() {
        let mut worked = Worked::new();
        assert_eq!(worked.tallies(), [0; 8]);
        first_part(&mut worked);
        worked.pair.reset(&mut worked.tally);
        assert_eq!(worked.tallies(), [6, 1, 1, 1, 3, 0, 0, 0]);
        second_part(&mut worked);
        worked.pair.conserved(&mut worked.tally);
        assert_eq!(worked.tally.differ(), 0);
    }
}
