//! Receivers that are kept under names and returned to: the worked example, random journeys against a model, and refusals.

mod calls;

use calls::{Call, FIRST, LAST, MESSAGE, Numbers, Said, mapped, said, tallies};
use xara::{
    Cause, Channels, Control, Heard, KEPT, KEPT_STORE, Kept, MAX_NAME, Mask, RX_BUFFER, Reassembler, Refusal, State,
};

/// Two channels are left with the same message half heard, under F0 and under F8, and the first is returned to.
#[test]
fn worked_example() {
    let (mut channels, mut receiver) = (Channels::new(), Reassembler::new(Mask::Hf));
    assert_eq!(receiver.push(&FIRST, 5), Ok(Heard::More));
    assert_eq!(channels.keep(&receiver, b"net"), Ok(0));
    receiver = Reassembler::new(Mask::Fm);
    assert_eq!(receiver.push(&LAST, 5), Ok(Heard::Done(&LAST[..4])));
    assert_eq!(receiver.push(&FIRST, 5), Ok(Heard::More));
    assert_eq!(channels.keep(&receiver, b"fm"), Ok(1));
    assert_eq!(channels.return_to(b"net", &mut receiver), Ok(()));
    assert_eq!(receiver.push(&LAST, 5), Ok(Heard::Done(&MESSAGE[..])));
    assert_eq!(receiver.tallies(), tallies([2, 1, 1, 0, 0, 0, 0, 0]));
    assert_eq!(channels.drop_name(b"net"), Ok(0));
    assert_eq!(channels.return_to(b"net", &mut receiver), Err(Refusal::Name));
    assert_eq!(channels.keep(&receiver, b"x"), Ok(0));
    for place in 2..KEPT {
        assert_eq!(channels.keep(&receiver, &[place as u8]), Ok(place));
    }
    assert_eq!(channels.keep(&receiver, b"ninth"), Err(Refusal::Kept));
    assert_eq!(channels.keep(&receiver, b"fm"), Ok(1));
    for name in [&b""[..], b"ninebytes"] {
        assert_eq!(channels.keep(&receiver, name), Err(Refusal::Name));
    }
    assert!(channels.names().eq([&b"x"[..], b"fm", &[2], &[3], &[4], &[5], &[6], &[7]]));
}

/// The start of the same over lent bytes, with what is written there.
#[test]
fn worked_example_over_lent_bytes() {
    let (mut kept, mut lent, mut store) = (Kept::none(), vec![0xA5; KEPT_STORE], vec![0x5A; RX_BUFFER]);
    let mut state = State::new(Mask::Hf);
    assert_eq!(state.push(&mut store, &FIRST, 5), Ok(Heard::More));
    assert_eq!(kept.keep(&state, &store, &mut lent, b"net"), Ok(0));
    let whole = [&[0xC0, 0xAC, 0xB7, 0x01], &[0x5A; RX_BUFFER - 4][..], &[0xA5; KEPT_STORE - RX_BUFFER]].concat();
    assert_eq!((&lent, kept.slots[0].state), (&whole, state));
    assert_eq!((kept.slots[0].len, kept.slots[0].name), (3, *b"net\0\0\0\0\0"));
    assert_eq!(kept.slots[1..], Kept::none().slots[1..]);
    store.fill(0);
    assert_eq!(kept.return_to(&mut store, &lent, b"net"), Ok(state));
    assert_eq!((&store[..], &lent), (&whole[..RX_BUFFER], &whole));
    assert_eq!(kept.drop_name(&lent, b"net"), Ok(0));
    assert_eq!((kept, lent), (Kept::default(), whole));
}

/// What happens at an operator's desk.
#[derive(Debug)]
enum Step {
    Call(Call),
    Tune(Mask),
    Keep(Vec<u8>),
    Return(Vec<u8>),
    Drop(Vec<u8>),
}

/// What comes of it: an answer to a call, or a place; a return answers with place 0, and a tuning with nothing.
#[derive(Debug, PartialEq)]
enum Answer {
    Heard(Said),
    Named(Result<usize, Refusal>),
}

/// What can be seen at a desk: the receiver's state, what it holds, and the names.
type Sight = (State, Vec<u8>, Vec<Vec<u8>>);

trait Desk {
    fn step(&mut self, step: &Step) -> Answer;
    fn sight(&self) -> Sight;
}

fn listed<'a>(names: impl Iterator<Item = &'a [u8]>) -> Vec<Vec<u8>> {
    names.map(<[u8]>::to_vec).collect()
}

/// A receiver and channels that own their bytes.
struct Owned {
    receiver: Reassembler,
    channels: Channels,
}

impl Desk for Owned {
    fn step(&mut self, step: &Step) -> Answer {
        match step {
            Step::Call(call) => return Answer::Heard(said(&mut self.receiver, call)),
            Step::Tune(mask) => self.receiver = Reassembler::new(*mask),
            Step::Keep(name) => return Answer::Named(self.channels.keep(&self.receiver, name)),
            Step::Return(name) => {
                return Answer::Named(self.channels.return_to(name, &mut self.receiver).map(|()| 0));
            }
            Step::Drop(name) => return Answer::Named(self.channels.drop_name(name)),
        }
        Answer::Heard(None)
    }

    fn sight(&self) -> Sight {
        (self.receiver.state(), self.receiver.held().to_vec(), listed(self.channels.names()))
    }
}

/// A state and kept states with lent bytes. Each channel is heard with the same store, which nobody clears.
struct Lent {
    state: State,
    store: Vec<u8>,
    kept: Kept,
    lent: Vec<u8>,
}

impl Lent {
    fn said(&mut self, call: &Call) -> Said {
        let heard = match call {
            Call::Push(frame, field) => self.state.push(&mut self.store, frame, *field),
            Call::Join(f, n) => self.state.join(&mut self.store, f, *n),
            Call::Reset => {
                self.state.reset();
                return None;
            }
        };
        Some(heard.map(|heard| mapped(heard, |n| self.store[..n].to_vec())))
    }

    /// A keep writes the whole store to its place, and no other byte.
    fn keep(&mut self, name: &[u8]) -> Result<usize, Refusal> {
        let (store, mut after) = (self.store.clone(), self.lent.clone());
        let place = self.kept.keep(&self.state, &self.store, &mut self.lent, name);
        if let Ok(place) = place {
            after[place * RX_BUFFER..][..RX_BUFFER].copy_from_slice(&store);
        }
        assert!((&self.store, &self.lent) == (&store, &after), "bytes of a keep: {place:?}");
        place
    }

    /// A return writes the whole store from the place of the name, and no kept byte.
    fn return_to(&mut self, name: &[u8]) -> Result<(), Refusal> {
        let (mut store, kept) = (self.store.clone(), self.kept);
        let state = self.kept.return_to(&mut self.store, &self.lent, name);
        if let Ok(state) = state {
            let place = kept.slots.iter().position(|slot| slot.kept_name() == Some(name)).expect("the name is kept");
            store.copy_from_slice(&self.lent[place * RX_BUFFER..][..RX_BUFFER]);
            self.state = state;
        }
        assert!((&self.store, self.kept) == (&store, kept), "bytes of a return: {state:?}");
        state.map(|_| ())
    }

    /// A drop writes no lent byte.
    fn drop_name(&mut self, name: &[u8]) -> Result<usize, Refusal> {
        let lent = self.lent.clone();
        let place = self.kept.drop_name(&self.lent, name);
        assert!(self.lent == lent, "bytes of a drop: {place:?}");
        place
    }
}

impl Desk for Lent {
    fn step(&mut self, step: &Step) -> Answer {
        match step {
            Step::Call(call) => return Answer::Heard(self.said(call)),
            Step::Tune(mask) => self.state = State::new(*mask),
            Step::Keep(name) => return Answer::Named(self.keep(name)),
            Step::Return(name) => return Answer::Named(self.return_to(name).map(|()| 0)),
            Step::Drop(name) => return Answer::Named(self.drop_name(name)),
        }
        Answer::Heard(None)
    }

    fn sight(&self) -> Sight {
        (self.state, self.store[..self.state.held].to_vec(), listed(self.kept.names()))
    }
}

/// A receiver's history: its mask, and all calls since it was new.
#[derive(Clone)]
struct History {
    mask: Mask,
    calls: Vec<Call>,
}

impl History {
    fn new(mask: Mask) -> Self {
        History { mask, calls: Vec::new() }
    }

    /// A receiver that has heard it all.
    fn receiver(&self) -> Reassembler {
        let mut receiver = Reassembler::new(self.mask);
        for call in &self.calls {
            said(&mut receiver, call);
        }
        receiver
    }
}

/// What the request says, with histories in the place of states: to keep is to note a history under a name, and to return is to
/// hear it all again with a new receiver.
struct Model {
    history: History,
    receiver: Reassembler,
    kept: [Option<(Vec<u8>, History)>; KEPT],
}

impl Model {
    fn place(&self, name: &[u8]) -> Option<usize> {
        self.kept.iter().position(|kept| kept.as_ref().is_some_and(|(its, _)| its == name))
    }

    fn keep(&mut self, name: &[u8]) -> Result<usize, Refusal> {
        if name.is_empty() || name.len() > 8 {
            return Err(Refusal::Name);
        }
        let free = self.kept.iter().position(Option::is_none);
        let place = self.place(name).or(free).ok_or(Refusal::Kept)?;
        self.kept[place] = Some((name.to_vec(), self.history.clone()));
        Ok(place)
    }

    fn return_to(&mut self, name: &[u8]) -> Result<usize, Refusal> {
        let place = self.place(name).ok_or(Refusal::Name)?;
        let (_, history) = self.kept[place].clone().expect("a name is there");
        self.receiver = history.receiver();
        self.history = history;
        Ok(0)
    }

    fn drop_name(&mut self, name: &[u8]) -> Result<usize, Refusal> {
        let place = self.place(name).ok_or(Refusal::Name)?;
        self.kept[place] = None;
        Ok(place)
    }
}

impl Desk for Model {
    fn step(&mut self, step: &Step) -> Answer {
        match step {
            Step::Call(call) => {
                self.history.calls.push(call.clone());
                return Answer::Heard(said(&mut self.receiver, call));
            }
            Step::Tune(mask) => {
                self.history = History::new(*mask);
                self.receiver = self.history.receiver();
            }
            Step::Keep(name) => return Answer::Named(self.keep(name)),
            Step::Return(name) => return Answer::Named(self.return_to(name)),
            Step::Drop(name) => return Answer::Named(self.drop_name(name)),
        }
        Answer::Heard(None)
    }

    fn sight(&self) -> Sight {
        let names = self.kept.iter().flatten().map(|(name, _)| &name[..]);
        (self.receiver.state(), self.receiver.held().to_vec(), listed(names))
    }
}

/// Names that are easily taken for one another, more than eight, and two that are none.
const NAMES: [&[u8]; 14] = [
    b"A",
    b"A\0",
    b"\0A",
    b"AB",
    b"ABC",
    b"\0",
    b"\0\0",
    b"B",
    b"ABCDEFG",
    b"ABCDEFGH",
    b"ABCDEFGI",
    b"\0\0\0\0\0\0\0\0",
    b"",
    b"ABCDEFGHI",
];

/// A step: mostly calls, of large fragments or of small ones, and each of the others now and then.
fn random_step(numbers: &mut Numbers, most: usize, ends: usize) -> Step {
    let name = NAMES[numbers.next(NAMES.len())].to_vec();
    match numbers.next(40) {
        0 => Step::Tune(Mask::ALL[numbers.next(7)]),
        1..=5 => Step::Keep(name),
        6..=9 => Step::Return(name),
        10 | 11 => Step::Drop(name),
        _ => Step::Call(numbers.call(most, ends)),
    }
}

/// How often a journey met what it is about.
#[derive(Debug, Default)]
struct Met {
    kept: usize,
    returned_to: usize,
    dropped: usize,
    names_refused: usize,
    full: usize,
    /// Messages that were half heard at a return and are done.
    completed: usize,
    /// Those that were half heard and go over the limit of 5,000 bytes.
    over: usize,
    half_heard: bool,
}

impl Met {
    fn count(&mut self, step: &Step, answer: &Answer, state: State) {
        match (step, answer) {
            (_, Answer::Named(Err(Refusal::Name))) => self.names_refused += 1,
            (_, Answer::Named(Err(_))) => self.full += 1,
            (Step::Keep(_), _) => self.kept += 1,
            (Step::Return(_), _) => self.returned_to += 1,
            (Step::Drop(_), _) => self.dropped += 1,
            (_, Answer::Heard(Some(Ok(Heard::Done(_))))) => self.completed += usize::from(self.half_heard),
            (Step::Call(_), _) if state.cause == Some(Cause::Limit) => self.over += usize::from(self.half_heard),
            _ => {}
        }
        let returned = matches!((step, answer), (Step::Return(_), Answer::Named(Ok(_))));
        self.half_heard = state.held > 0 && (self.half_heard || returned);
    }

    fn rarest(&self) -> usize {
        let Met { kept, returned_to, dropped, names_refused, full, completed, over, half_heard: _ } = *self;
        kept.min(returned_to).min(dropped).min(names_refused).min(full).min(completed).min(over)
    }
}

/// Each answer, and all that is seen after it, is the model's.
fn journey(numbers: &mut Numbers, most: usize, ends: usize, met: &mut Met) {
    let history = History::new(Mask::Hf);
    let mut model = Model { receiver: history.receiver(), history, kept: [const { None }; KEPT] };
    let mut owned = Owned { receiver: Reassembler::new(Mask::Hf), channels: Channels::default() };
    let (store, lent) = (vec![0xA5; RX_BUFFER], (0..KEPT_STORE).map(|i| (i * 7) as u8).collect());
    let mut bytes = Lent { state: State::new(Mask::Hf), store, kept: Kept::none(), lent };
    for k in 0..1500 {
        let step = random_step(numbers, most, ends);
        let expected = (model.step(&step), model.sight());
        met.count(&step, &expected.0, model.receiver.state());
        assert_eq!((owned.step(&step), owned.sight()), expected, "step {k}: {step:?}");
        assert_eq!((bytes.step(&step), bytes.sight()), expected, "step {k}: {step:?}");
    }
}

/// With short messages, and with long ones, some of which meet the limit.
#[test]
fn every_answer_is_that_of_the_history() {
    let (mut numbers, mut met) = (Numbers(0x9E37_79B9_7F4A_7C15), Met::default());
    for (most, ends) in [(40, 3), (500, 20)] {
        for _ in 0..12 {
            journey(&mut numbers, most, ends, &mut met);
        }
    }
    assert!(met.rarest() >= 20, "something is rare: {met:?}");
}

/// A message on each of eight channels, a frame of each in turn with one receiver: all are completed.
#[test]
fn eight_messages_at_once() {
    let (mut channels, mut receiver, field) = (Channels::new(), Reassembler::default(), 40);
    let masks: Vec<Mask> = Mask::ALL.into_iter().chain([Mask::Hf]).collect();
    let message = |channel: usize| (0..100).map(|i| ((channel * 31 + i * 7) % 128) as u8).collect::<Vec<u8>>();
    for k in 0..3 {
        for (channel, &mask) in masks.iter().enumerate() {
            let (name, message) = ([channel as u8], message(channel));
            let frames = xara::fragments(&message, field, mask).and_then(|all| all.frames(Control::default(), 0x01));
            let frame = frames.expect("the message is sent").nth(k).expect("it has three frames");
            if k == 0 {
                receiver = Reassembler::new(mask);
            } else {
                assert_eq!(channels.return_to(&name, &mut receiver), Ok(()));
            }
            let answer = if k < 2 { Heard::More } else { Heard::Done(&message[..]) };
            assert_eq!(receiver.push(&frame, field), Ok(answer), "channel {channel}");
            assert_eq!(channels.keep(&receiver, &name), Ok(channel));
        }
    }
    assert!(channels.kept().slots.iter().all(|slot| slot.state.tallies == tallies([3, 2, 1, 0, 0, 0, 0, 0])));
}

/// A clone and what it is of go their own ways.
#[test]
fn clones() {
    let (mut channels, mut receiver) = (Channels::new(), Reassembler::new(Mask::Hf));
    assert_eq!(receiver.push(&FIRST, 5), Ok(Heard::More));
    assert_eq!(channels.keep(&receiver, b"net"), Ok(0));
    let mut other = channels.clone();
    assert_eq!(other.keep(&Reassembler::new(Mask::Fm), b"net"), Ok(0));
    assert_eq!(other.keep(&receiver, b"fm"), Ok(1));
    assert!(channels.names().eq([b"net"]) && other.names().eq([&b"net"[..], b"fm"]));
    assert_eq!(channels.return_to(b"net", &mut receiver), Ok(()));
    assert_eq!(receiver.push(&LAST, 5), Ok(Heard::Done(&MESSAGE[..])));
    assert_eq!(other.return_to(b"net", &mut receiver), Ok(()));
    assert_eq!(receiver.state(), State::new(Mask::Fm));
}

/// A state in the middle of a message, with tallies and a cause that a caller made up.
fn middle(k: usize) -> State {
    let counted = tallies([3, 1, 4, 1, 5, 9, 2, k as u64]);
    State { held: 4 + k, nfrag: 1, tallies: counted, cause: Some(Cause::Check), ..State::new(Mask::Hf) }
}

/// Eight states under the names A to H, and their bytes.
fn eight_kept() -> (Kept, Vec<u8>) {
    let (mut kept, mut lent) = (Kept::none(), vec![0; KEPT_STORE]);
    for k in 0..KEPT {
        let place = kept.keep(&middle(k), &[k as u8; RX_BUFFER], &mut lent, &[b'A' + k as u8]);
        assert_eq!(place, Ok(k));
    }
    (kept, lent)
}

#[derive(Clone, Copy, Debug, PartialEq)]
enum By {
    Keep,
    Return,
    Drop,
}

/// Where something is wrong: in a size, in the state that is handed in, or in one that is kept.
#[derive(Clone, Copy, Debug)]
enum Wrong {
    Store,
    Lent,
    HandedIn,
    Slot(usize),
}

impl Wrong {
    fn is_met(self, by: By) -> bool {
        match self {
            Wrong::Store => by != By::Drop,
            Wrong::HandedIn => by == By::Keep,
            Wrong::Lent | Wrong::Slot(_) => true,
        }
    }
}

/// A call by name, with a size or a state that is refused with 17 and with a mask that is refused with 9.
#[derive(Clone, Copy, Debug)]
struct Case {
    by: By,
    size: Option<Wrong>,
    mask: Option<Wrong>,
    name: &'static [u8],
    full: bool,
}

impl Case {
    /// 17 comes first, then 9, 20 and 21.
    fn refusal(self) -> Option<Refusal> {
        let met = |wrong: Option<Wrong>| wrong.is_some_and(|wrong| wrong.is_met(self.by));
        match self.name {
            _ if met(self.size) => Some(Refusal::State),
            _ if met(self.mask) => Some(Refusal::Mask),
            b"H" => None,
            b"new" if self.by == By::Keep => self.full.then_some(Refusal::Kept),
            _ => Some(Refusal::Name),
        }
    }

    /// The call is refused so, and changes nothing then.
    fn run(self, mut kept: Kept, mut lent: Vec<u8>) {
        let (mut state, mut store) = (middle(9), vec![0xA5; RX_BUFFER]);
        if !self.full {
            kept.slots[4].len = 0;
        }
        match self.size {
            Some(Wrong::Store) => drop(store.pop()),
            Some(Wrong::Lent) => drop(lent.pop()),
            Some(Wrong::HandedIn) => state.held = 5001,
            Some(Wrong::Slot(k)) => kept.slots[k].state.nfrag = 256,
            None => {}
        }
        match self.mask {
            Some(Wrong::HandedIn) => state.crc_mask = 0xF1,
            Some(Wrong::Slot(k)) => kept.slots[k].state.crc_mask = 0x00,
            _ => {}
        }
        let before = (kept, store.clone(), lent.clone());
        let refusal = match self.by {
            By::Keep => kept.keep(&state, &store, &mut lent, self.name).err(),
            By::Return => kept.return_to(&mut store, &lent, self.name).err(),
            By::Drop => kept.drop_name(&lent, self.name).err(),
        };
        assert_eq!(refusal, self.refusal(), "{self:?}");
        assert!(refusal.is_none() || (kept, store, lent) == before, "{self:?} changes something");
    }
}

/// Whichever state has the fault.
#[test]
fn order_of_refusals() {
    let (kept, lent) = eight_kept();
    let states = [Wrong::HandedIn, Wrong::Slot(0), Wrong::Slot(3), Wrong::Slot(7)].map(Some);
    for size in [None, Some(Wrong::Store), Some(Wrong::Lent)].into_iter().chain(states) {
        for mask in [None].into_iter().chain(states) {
            for name in [&b"H"[..], b"new", b"", b"ninebytes"] {
                for (by, full) in [By::Keep, By::Return, By::Drop].into_iter().flat_map(|by| [(by, true), (by, false)])
                {
                    Case { by, size, mask, name, full }.run(kept, lent.clone());
                }
            }
        }
    }
}

/// What may be held and counted, and every mask, of a state that is handed in and of one that is kept.
#[test]
fn states_at_their_limits() {
    let (kept, lent) = eight_kept();
    let limits = [(5000, 255, 0xF0), (5001, 0, 0xF0), (0, 256, 0xF0), (usize::MAX, usize::MAX, 0xF0)];
    for (held, nfrag, crc_mask) in limits.into_iter().chain((0..=255).map(|crc_mask| (3, 1, crc_mask))) {
        let refusal = match Mask::from_byte(crc_mask) {
            _ if held > 5000 || nfrag > 255 => Some(Refusal::State),
            mask => mask.is_none().then_some(Refusal::Mask),
        };
        let state = State { held, nfrag, crc_mask, ..middle(0) };
        let (mut after, mut odd, mut bytes, mut store) = (kept, kept, lent.clone(), vec![0xA5; RX_BUFFER]);
        assert_eq!(after.keep(&state, &store, &mut bytes, b"D").err(), refusal, "{state:?}");
        odd.slots[3].state = state;
        assert_eq!(odd.return_to(&mut store, &lent, b"D"), refusal.map_or(Ok(state), Err), "{state:?}");
        assert_eq!(odd.drop_name(&lent, b"A").err(), refusal, "{state:?}");
    }
}

/// Bytes of every length around the right one.
#[test]
fn sizes() {
    let (mut kept, lent) = eight_kept();
    for size in [0, 1, RX_BUFFER, 35_000, 39_999, 40_001, 45_000] {
        let (mut store, mut other) = (vec![0xA5; RX_BUFFER], vec![0x5A; size]);
        assert_eq!(kept.keep(&middle(0), &store, &mut other, b"A"), Err(Refusal::State));
        assert_eq!(kept.return_to(&mut store, &other, b"A"), Err(Refusal::State));
        assert_eq!(kept.drop_name(&other, b"A"), Err(Refusal::State));
        assert_eq!((store, other), (vec![0xA5; RX_BUFFER], vec![0x5A; size]));
    }
    for size in [0, 1, 4999, 5001, KEPT_STORE] {
        let (mut store, mut after) = (vec![0xA5; size], lent.clone());
        assert_eq!(kept.keep(&middle(0), &store, &mut after, b"A"), Err(Refusal::State));
        assert_eq!(kept.return_to(&mut store, &after, b"A"), Err(Refusal::State));
        assert_eq!((store, &after), (vec![0xA5; size], &lent));
    }
    assert_eq!(kept, eight_kept().0);
}

/// A slot with a name of another length is free, whatever it holds, and of two with one name the first counts.
#[test]
fn slots_that_are_made_up() {
    let (mut kept, mut lent) = eight_kept();
    let (mut store, rubbish) =
        (vec![0xA5; RX_BUFFER], State { held: usize::MAX, nfrag: 256, crc_mask: 0, ..middle(0) });
    for (k, len) in [(2, 0), (3, MAX_NAME + 1), (4, usize::MAX)] {
        kept.slots[k].len = len;
        kept.slots[k].state = rubbish;
        assert_eq!(kept.slots[k].kept_name(), None);
        assert_eq!(kept.return_to(&mut store, &lent, &[b'A' + k as u8]), Err(Refusal::Name));
    }
    kept.slots[1].name = *b"Hidden..";
    kept.slots[6].name = *b"Habcdefg";
    assert!(kept.names().eq([b"A", b"H", b"F", b"H", b"H"]));
    for k in [1, 6, 7] {
        assert_eq!(kept.return_to(&mut store, &lent, b"H"), Ok(middle(k)));
        assert_eq!(store, [k as u8; RX_BUFFER]);
        assert_eq!(kept.keep(&middle(k), &store, &mut lent, b"H"), Ok(k));
        assert_eq!(kept.slots[k].name, *b"H\0\0\0\0\0\0\0");
        assert_eq!(kept.drop_name(&lent, b"H"), Ok(k));
        assert_eq!(kept.slots[k], Kept::none().slots[k]);
    }
    assert_eq!(kept.return_to(&mut store, &lent, b"H"), Err(Refusal::Name));
    for k in [1, 2, 3, 4, 6, 7] {
        assert_eq!(kept.keep(&middle(k), &store, &mut lent, &[k as u8]), Ok(k));
    }
    assert_eq!(kept.keep(&middle(0), &store, &mut lent, b"new"), Err(Refusal::Kept));
}

/// A state with a full tally is kept and returned to, and refuses as before.
#[test]
fn full_tallies() {
    let (mut kept, mut lent) = eight_kept();
    for place in 0..8 {
        let mut all = [3, 1, 4, 1, 5, 9, 2, 6];
        all[place] = u64::MAX;
        let (full, mut store) = (State { tallies: tallies(all), ..middle(0) }, vec![0xA5; RX_BUFFER]);
        assert_eq!(kept.keep(&full, &store, &mut lent, &[b'A' + place as u8]), Ok(place));
        store.fill(0);
        let mut back = kept.return_to(&mut store, &lent, &[b'A' + place as u8]).expect("it is kept");
        assert_eq!((back, &store), (full, &vec![0xA5; RX_BUFFER]));
        assert_eq!(back.join(&mut store, &[0x01], 1), Err(Refusal::Tally));
    }
}
