//! Lists of all operations of a receiver that is kept and returned to: an operator hears messages under several masks, and leaves
//! them half heard. The Rust has no such calls: clones of its receivers are kept in a map of names.

use crate::histories;
use crate::kept::{self, Desk};
use crate::lent::Lent;
use crate::masks;
use crate::met::{Call, Met, Name};
use crate::names::{Left, Names};
use crate::receiver::Pair;
use crate::rules::kept::LENT;
use crate::tally::{Kind, Row, Tally};
use crate::xara::{Answer, Fresh, Heard, Keeping, Kept, MAX_NAME, PLACES};
use answers::random::Random;
use answers::{MASKS, MAX_MESSAGE, most};

/// A message of which some fragments were heard, and no other fragment since.
#[derive(Clone)]
pub struct Hearing {
    message: Vec<u8>,
    field: usize,
    /// Whether it was cut under the receiver's mask: else its check may fail.
    own_mask: bool,
    /// The fragments to come, the last first.
    rest: Vec<Vec<u8>>,
    /// What the returns to it had of what a run must meet.
    met: Vec<Met>,
}

/// A receiver, its kept states, and both as they must be.
struct Channels {
    pair: Pair,
    kept: Kept,
    lent: Lent,
    names: Names,
    expected_lent: Lent,
    hearing: Option<Hearing>,
}

/// How often a list drops names: in some never, so that eight are kept.
const DROPS: [usize; 3] = [0, 2, 6];

/// Some operations. What is not as expected ends the list.
pub fn operations(r: &mut Random, tally: &mut Tally) {
    let drops = DROPS[r.below(DROPS.len())];
    let Some(mut channels) = Channels::new(r, tally) else { return };
    for _ in 0..40 + r.below(100) {
        if channels.operation(drops, r, tally).is_none() {
            return;
        }
        channels.between_operations(r, tally);
    }
    channels.pair.state(tally);
    channels.pair.conserved(tally);
}

impl Channels {
    /// A new receiver of any accepted mask, and nothing kept.
    fn new(r: &mut Random, tally: &mut Tally) -> Option<Self> {
        let pair = histories::new(Kind::New, r.one_of(&MASKS), r, tally)?;
        let (kept, lent) = (kept::none(tally)?, Lent::new(r, LENT));
        let (names, expected_lent) = (Names::default(), lent.clone());
        Some(Channels { pair, kept, lent, names, expected_lent, hearing: None })
    }

    /// Some operation; none where it is not as expected.
    fn operation(&mut self, drops: usize, r: &mut Random, tally: &mut Tally) -> Option<()> {
        match r.below(26 + drops) {
            0..9 => self.hear(r, tally),
            9 => self.disturb(r, tally),
            10 => self.traffic(r, tally),
            11 => self.overflow(r, tally),
            12 => self.reset(tally),
            13..16 => self.renew(r, tally),
            16..22 => self.keep(&some_name(&self.names, 2, r), tally).map(drop),
            22..26 => self.leave_and_return(r, tally),
            _ => self.drop_name(&some_name(&self.names, 6, r), tally).map(drop),
        }
    }

    /// Some of the fragments to come, of a new message where none is half heard.
    fn hear(&mut self, r: &mut Random, tally: &mut Tally) -> Option<()> {
        if self.hearing.is_none() {
            self.reset(tally)?;
            let own = self.pair.mask();
            let mask = if r.below(4) == 0 { r.one_of(&MASKS) } else { own };
            self.hearing = Some(Hearing { own_mask: mask == own, ..Hearing::new(mask, r) });
        }
        let to_come = self.hearing.as_ref().map_or(0, |hearing| hearing.rest.len());
        (0..=r.below(to_come)).try_for_each(|_| self.hear_one(r, tally))
    }

    /// The next fragment of the message, in a frame that could be sent: with no marker of 14.
    fn hear_one(&mut self, r: &mut Random, tally: &mut Tally) -> Option<()> {
        let hearing = self.hearing.as_mut()?;
        let (fragment, field) = (hearing.rest.pop()?, hearing.field);
        let last = hearing.rest.is_empty();
        let heard = histories::heard(&mut self.pair, fragment, field, r.byte() & 0x0F, r, tally)?;
        if last {
            self.completed(heard, tally);
        }
        Some(())
    }

    /// The last fragment of a message was heard: it must be Done, with the bytes that were sent.
    fn completed(&mut self, heard: Heard, tally: &mut Tally) {
        let Some(Hearing { message, own_mask, met, .. }) = self.hearing.take() else { return };
        if !own_mask {
            met.first().iter().for_each(|_| tally.met(Met::OtherMaskEnded));
            return;
        }
        let length = if let Heard::Done(length) = heard { Ok(length) } else { Err(0) };
        let bytes = self.pair.message(length.unwrap_or_default());
        let expected = Row { answer: Answer::of(Ok(message.len())), written: &message, read: &[] };
        let ours = Row { answer: Answer::of(length), written: bytes, read: &[] };
        if tally.compare(Kind::Completed, expected, ours, || self.pair.history().told()) {
            met.into_iter().for_each(|met| tally.met(met));
        }
    }

    /// Some frames of two senders, with faults among them.
    fn traffic(&mut self, r: &mut Random, tally: &mut Tally) -> Option<()> {
        self.hearing = None;
        let calls = 1 + r.below(12);
        histories::traffic(&mut self.pair, calls, r, tally);
        Some(())
    }

    /// Something that does not belong to the message.
    fn disturb(&mut self, r: &mut Random, tally: &mut Tally) -> Option<()> {
        self.hearing = None;
        let Hearing { field, rest, .. } = Hearing::new(r.one_of(&MASKS), r);
        histories::fault(&mut self.pair, rest.into_iter().next()?, field, r, tally);
        Some(())
    }

    /// A fragment that is too long, with more after it.
    fn overflow(&mut self, r: &mut Random, tally: &mut Tally) -> Option<()> {
        self.hearing = None;
        let fragment = vec![0x80 | r.byte(); MAX_MESSAGE + 2];
        self.pair.join(fragment.len(), &fragment, tally);
        Some(())
    }

    fn reset(&mut self, tally: &mut Tally) -> Option<()> {
        self.hearing = None;
        self.pair.reset(tally);
        Some(())
    }

    /// A new receiver of any mask, over the same store, or over another one.
    fn renew(&mut self, r: &mut Random, tally: &mut Tally) -> Option<()> {
        let mask = masks::some(r, 32);
        if let Some(fresh) = histories::fresh(Kind::New, mask, tally) {
            self.hearing = None;
            let store = if r.below(2) == 0 { Lent::new(r, MAX_MESSAGE) } else { self.pair.store().clone() };
            self.pair = Pair::new(mask, fresh, store);
        }
        Some(())
    }

    /// The receiver with its kept states, on our side and as they must be.
    fn desks(&mut self) -> [Desk<'_>; 2] {
        let expected = self.names.kept();
        let [ours, other] = self.pair.sides();
        [
            Desk { kept: self.kept, receiver: ours.0, store: ours.1, lent: &mut self.lent },
            Desk { kept: expected, receiver: other.0, store: other.1, lent: &mut self.expected_lent },
        ]
    }

    /// What a keep or a drop answers, which must be what comes of the map of names.
    fn answered(&mut self, call: Call, name: &[u8], answer: Keeping, place: Result<usize, u8>, tally: &mut Tally) {
        assert_eq!(answer, Keeping::of(place, self.names.kept()), "the rules, and the map of names");
        self.kept = answer.kept;
        note_refusal(call, name, place.err(), tally);
    }

    /// The receiver is kept under a name.
    fn keep(&mut self, name: &[u8], tally: &mut Tally) -> Option<Keeping> {
        let (known, free) = (self.names.get(name).is_some(), self.names.free());
        let answer = kept::keep(Kind::Keep, self.desks(), name, tally)?;
        let place = self.names.keep(name, self.pair.history(), self.hearing.clone());
        self.answered(Call::Keep, name, answer, place, tally);
        let state = self.pair.history().state();
        let with_a_zero = self.names.get(&[name, &[0]].concat()).is_some();
        let met = [
            (place.is_ok() && self.hearing.is_some(), Met::KeptInAMessage),
            (place.is_ok() && state.overflow != 0, Met::KeptInOverflow),
            (place.is_ok() && state.held > 4_500, Met::KeptFullStore),
            (place.is_ok() && self.names.masks() >= 4, Met::FourMasks),
            (place.is_ok() && with_a_zero, Met::NameWithAZeroMore),
            (place.is_ok() && known, Met::Replaced),
            (place.is_ok() && known && free.is_empty(), Met::ReplacedOfEight),
            (place.is_ok() && !known && free.len() > 1 && PLACES - free[0] > free.len(), Met::DroppedPlace),
            (place == Err(20) && free.is_empty(), Met::Refused20OfEight),
            (place == Err(21), Met::Refused21),
        ];
        met.iter().filter(|(is_met, _)| *is_met).for_each(|&(_, met)| tally.met(met));
        Some(answer)
    }

    /// A return, half the time in another store than the one that was left, and half the time the message is completed at once.
    fn leave_and_return(&mut self, r: &mut Random, tally: &mut Tally) -> Option<()> {
        let name = some_name(&self.names, 7, r);
        let other_store = self.names.get(&name).is_some() && r.below(2) == 0;
        if other_store {
            self.pair.lend(Lent::new(r, MAX_MESSAGE));
        }
        self.return_to(&name, other_store, tally)?;
        if r.below(2) == 0 {
            while self.hearing.is_some() {
                self.hear(r, tally)?;
            }
        }
        Some(())
    }

    /// The receiver goes on with the history up to the keeping.
    fn return_to(&mut self, name: &[u8], other_store: bool, tally: &mut Tally) -> Option<Fresh> {
        let answer = kept::return_to(Kind::Return, self.desks(), name, tally)?;
        let left = self.names.return_to(name);
        let state = left.as_ref().map(|left| left.history.state()).map_err(|&refusal| refusal);
        assert_eq!(answer, Fresh::of(state), "the rules, and the map of names");
        note_refusal(Call::Return, name, state.err(), tally);
        let Ok(Left { history, hearing, returns, .. }) = left else { return Some(answer) };
        let met = [
            (true, Met::Completed),
            (returns > 0, Met::CompletedAgain),
            (history.state().crc_mask != self.pair.history().state().crc_mask, Met::CompletedAfterAnotherMask),
            (other_store, Met::CompletedInAnotherStore),
        ];
        let met = met.into_iter().filter(|(is_met, _)| *is_met).map(|(_, met)| met);
        self.hearing = hearing.map(|hearing| Hearing { met: met.collect(), ..hearing });
        self.pair.resume(history, answer.receiver);
        self.pair.state(tally);
        Some(answer)
    }

    fn drop_name(&mut self, name: &[u8], tally: &mut Tally) -> Option<Keeping> {
        let answer = kept::drop_name(Kind::Drop, self.desks(), name, tally)?;
        let place = self.names.drop_name(name);
        self.answered(Call::Drop, name, answer, place, tally);
        Some(answer)
    }

    /// What is compared after every call; then every overflow, also a kept one, is shown to the next call as any byte.
    fn between_operations(&mut self, r: &mut Random, tally: &mut Tally) {
        histories::between_calls(&mut self.pair, r, tally);
        let byte = r.byte().max(1);
        self.names.show_flags(byte);
        for slot in self.kept.slots.iter_mut().filter(|slot| slot.receiver.overflow != 0) {
            slot.receiver.overflow = byte;
            if byte > 1 {
                tally.met(Met::FlagShownOtherwise);
            }
        }
    }
}

impl Hearing {
    /// A message of any length that is to be heard under this mask, few of them long ones.
    fn new(mask: u8, r: &mut Random) -> Self {
        let long = r.below(5) == 0;
        let field = [3 + r.below(8), 3 + r.below(510)][r.below(2)].max(if long { 300 } else { 0 });
        let fragments = most(mask).min(if long { 17 } else { 6 });
        let longest = (fragments * (field - 1)).min(MAX_MESSAGE);
        let length = if long { longest - r.below(60) } else { 1 + r.below(longest) };
        let message = histories::message(length, r);
        let mut rest = answers::split(&message, field, mask);
        rest.reverse();
        Hearing { message, field, own_mask: true, rest, met: Vec::new() }
    }
}

/// Names, some of which are equal but for one byte, for their length, or for a zero more.
const NAMES: [&[u8]; 12] = [
    b"A",
    b"A\0",
    b"B",
    b"\0",
    b"net",
    b"nat",
    b"channel",
    b"channel1",
    b"channel2",
    b"Channel1",
    b"\0\0\0\0\0\0\0\0",
    b"\xFF\xFF\xFF\xFF\xFF\xFF\xFF\xFF",
];

/// One of the kept names so many times in eight, else one of the list; or, now and then, an empty one or one that is too long.
fn some_name(names: &Names, known: usize, r: &mut Random) -> Vec<u8> {
    let kept = names.names();
    let name =
        if kept.is_empty() || r.below(8) >= known { NAMES[r.below(NAMES.len())] } else { kept[r.below(kept.len())] };
    let mut name = name.to_vec();
    match r.below(12) {
        0 => name.clear(),
        1 => name.resize(MAX_NAME + 1 + r.below(2), r.byte()),
        _ => {}
    }
    name
}

/// Counts why a name was refused with 20.
fn note_refusal(call: Call, name: &[u8], refusal: Option<u8>, tally: &mut Tally) {
    let why = match name.len() {
        0 => Name::Empty,
        1..=MAX_NAME => Name::NotKept,
        _ => Name::TooLong,
    };
    if refusal == Some(20) {
        tally.met(Met::Refused20(call, why));
    }
}

#[cfg(test)]
mod tests {
    use super::*;
    use crate::rules::Call as Frame;
    use answers::hex::from_hex;

    const FIRST: &str = "C040ACB70101A38C";
    const LAST: &str = "4000104014005242";

    /// An operator under F0 with nothing kept, and what was compared.
    struct Worked {
        channels: Channels,
        tally: Tally,
    }

    impl Worked {
        fn new() -> Self {
            let (mut tally, mut r) = (Tally::default(), Random::new(1, "worked"));
            let mut channels = Channels::new(&mut r, &mut tally).expect("nothing differs");
            channels.pair = histories::new(Kind::New, 0xF0, &mut r, &mut tally).expect("the mask is accepted");
            Worked { channels, tally }
        }

        /// A new receiver in the store that there is.
        fn renew(&mut self, mask: u8) {
            let fresh = histories::fresh(Kind::New, mask, &mut self.tally).expect("the mask is accepted");
            self.channels.pair = Pair::new(mask, fresh, self.channels.pair.store().clone());
        }

        /// A push of a frame with a field of 5: our answer, which is also the source's and the rules'.
        fn push(&mut self, frame: &str) -> Heard {
            let frame = from_hex(frame).expect("capital hexadecimal");
            let heard = self.channels.pair.call(Kind::Push, Frame::Push(&frame, 5), &mut self.tally);
            heard.expect("both sides answer the same")
        }

        /// Our answer to a keep, which is also that of the map of names and of the rules.
        fn keep(&mut self, name: &[u8]) -> Result<usize, u8> {
            self.channels.keep(name, &mut self.tally).expect("both sides answer the same").told()
        }

        fn return_to(&mut self, name: &[u8]) -> Result<[u64; 8], u8> {
            let answer = self.channels.return_to(name, false, &mut self.tally).expect("both sides answer the same");
            answer.told().map(|receiver| receiver.tallies.numbers())
        }

        fn drop_name(&mut self, name: &[u8]) -> Result<usize, u8> {
            self.channels.drop_name(name, &mut self.tally).expect("both sides answer the same").told()
        }

        fn lent(&self) -> &[u8] {
            self.channels.lent.seen()
        }

        fn tallies(&self) -> [u64; 8] {
            self.channels.pair.history().state().tallies.numbers()
        }
    }

    /// A message is left half heard for another channel, and completed after the return.
    #[test]
    fn a_message_half_heard() {
        let mut worked = Worked::new();
        assert_eq!(worked.push(FIRST), Heard::More);
        assert_eq!(worked.keep(b"net"), Ok(0));
        assert_eq!(worked.lent()[..4], [0xC0, 0xAC, 0xB7, 0x01]);
        worked.renew(0xF8);
        assert_eq!(worked.push(LAST), Heard::Done(4));
        assert_eq!(worked.channels.pair.message(4), [0x40, 0x00, 0x10, 0x40]);
        assert_eq!(worked.push(FIRST), Heard::More);
        assert_eq!(worked.keep(b"fm"), Ok(1));
        assert_eq!(worked.return_to(b"net"), Ok([1, 1, 0, 0, 0, 0, 0, 0]));
        assert_eq!(worked.push(LAST), Heard::Done(7));
        assert_eq!(worked.channels.pair.message(7), [0x40, 0xAC, 0xB7, 0x01, 0x00, 0x10, 0x40]);
        assert_eq!(worked.tallies(), [2, 1, 1, 0, 0, 0, 0, 0]);
        assert_eq!(worked.return_to(b"fm"), Ok([2, 1, 1, 0, 0, 0, 0, 0]));
        assert_eq!(worked.channels.pair.message(4), [0xC0, 0xAC, 0xB7, 0x01]);
        worked.channels.pair.conserved(&mut worked.tally);
        assert_eq!(worked.tally.differ(), 0);
    }

    /// The places of names, and the refusals of names alone.
    #[test]
    fn places_and_names() {
        let mut worked = Worked::new();
        assert_eq!([&b"net"[..], b"fm"].map(|name| worked.keep(name)), [Ok(0), Ok(1)]);
        let before = worked.lent().to_vec();
        assert_eq!(worked.drop_name(b"net"), Ok(0));
        assert_eq!(worked.lent(), before);
        assert_eq!([worked.return_to(b"net").err(), worked.drop_name(b"net").err()], [Some(20); 2]);
        assert_eq!(worked.keep(b"x"), Ok(0));
        let six = [&b"A"[..], b"A\0", b"c", b"d", b"e", b"12345678"];
        assert_eq!(six.map(|name| worked.keep(name)), [2, 3, 4, 5, 6, 7].map(Ok));
        assert_eq!(worked.keep(b"ninth"), Err(21));
        assert_eq!(worked.keep(b"fm"), Ok(1));
        assert_eq!([&b""[..], b"123456789"].map(|name| worked.keep(name)), [Err(20); 2]);
        assert_eq!([&b""[..], b"123456789"].map(|name| worked.drop_name(name)), [Err(20); 2]);
        assert_eq!(worked.tally.differ(), 0);
    }
}
