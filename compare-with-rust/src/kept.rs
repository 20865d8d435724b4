//! The calls on kept states: each goes to ours and to the rules, and all that it answers, writes and is lent is compared.

use crate::lent::{Input, Lent};
use crate::met::Call;
use crate::rules;
use crate::tally::{Kind, Row, Tally};
use crate::xara::{Fresh, Keeping, Kept, Receiver};

/// What a call on kept states is lent, on one side: the receiver with its store, and the kept states with the bytes for their stores.
pub struct Desk<'a> {
    pub kept: Kept,
    pub receiver: Receiver,
    pub store: &'a mut Lent,
    pub lent: &'a mut Lent,
}

/// A call for a reader of a difference: its fields are read where it is written out.
#[derive(Clone, Copy, Debug)]
#[allow(dead_code)]
struct Asked<'a> {
    call: Call,
    name: &'a [u8],
    store: usize,
    lent: usize,
    receiver: Receiver,
    kept: Kept,
}

impl Desk<'_> {
    fn asked<'a>(&self, call: Call, name: &'a [u8]) -> Asked<'a> {
        let Desk { kept, receiver, store, lent } = self;
        Asked { call, name, store: store.room(), lent: lent.room(), receiver: *receiver, kept: *kept }
    }
}

/// Nothing is kept. None where that is not as expected.
pub fn none(tally: &mut Tally) -> Option<Kept> {
    let ours = Kept::none();
    tally.compare(Kind::KeptNone, Row::of(Kept::default()), Row::of(ours), String::new).then_some(ours)
}

/// A keep on our side and on the other: the answer, where all is as expected.
pub fn keep(kind: Kind, [ours, other]: [Desk; 2], name: &[u8], tally: &mut Tally) -> Option<Keeping> {
    let (asked, mut input) = (ours.asked(Call::Keep, name), Input::new(name));
    let answer = ours.kept.keep(ours.receiver, ours.store.part(), ours.lent.part(), &mut input.lent[..]);
    let expected = rules::kept::keep(other.kept, other.receiver, other.store.seen(), other.lent.part(), name);
    tally.by_name(Call::Keep, expected.told().err());
    let expected = Row { answer: expected, written: &other.lent.bytes, read: &[name, &other.store.bytes].concat() };
    let ours = Row { answer, written: &ours.lent.bytes, read: &[&input.lent[..], &ours.store.bytes].concat() };
    tally.compare(kind, expected, ours, || format!("{asked:02X?}")).then_some(answer)
}

/// A return on both sides. The receivers that are there are not handed in.
pub fn return_to(kind: Kind, [ours, other]: [Desk; 2], name: &[u8], tally: &mut Tally) -> Option<Fresh> {
    let (asked, mut input) = (ours.asked(Call::Return, name), Input::new(name));
    let answer = ours.kept.return_to(ours.store.part(), ours.lent.part(), &mut input.lent[..]);
    let expected = rules::kept::return_to(other.kept, other.store.part(), other.lent.seen(), name);
    tally.by_name(Call::Return, expected.told().err());
    let expected = Row { answer: expected, written: &other.store.bytes, read: &[name, &other.lent.bytes].concat() };
    let ours = Row { answer, written: &ours.store.bytes, read: &[&input.lent[..], &ours.lent.bytes].concat() };
    tally.compare(kind, expected, ours, || format!("{asked:02X?}")).then_some(answer)
}

/// A drop on both sides. The receivers and their stores are not handed in.
pub fn drop_name(kind: Kind, [ours, other]: [Desk; 2], name: &[u8], tally: &mut Tally) -> Option<Keeping> {
    let (asked, mut input) = (ours.asked(Call::Drop, name), Input::new(name));
    let answer = ours.kept.drop_name(ours.lent.part(), &mut input.lent[..]);
    let expected = rules::kept::drop_name(other.kept, other.lent.seen(), name);
    tally.by_name(Call::Drop, expected.told().err());
    let expected = Row { answer: expected, written: &[], read: &[name, &other.lent.bytes].concat() };
    let ours = Row { answer, written: &[], read: &[&input.lent[..], &ours.lent.bytes].concat() };
    tally.compare(kind, expected, ours, || format!("{asked:02X?}")).then_some(answer)
}
