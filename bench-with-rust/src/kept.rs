//! The rows of kept states. The source has no such calls: beside ours stands what a gateway would do with it, which keeps clones of
//! its receivers in a map of names, eight at most. A clone copies the bytes that are held; ours copies the whole store of 5,000, so
//! rows of both sizes are here. Rows `copy, ..` have the bare copy of 5,000 bytes on the source's side, and there the answer of a
//! keep is left where it was returned, so that the call alone is timed; in the other rows it takes the place of what was kept.

use crate::inputs::{Random, message};
use crate::receivers::{CALLS, receivers};
use crate::rows::STORE;
use crate::table::{Table, same};
use crate::xara::{Heard, Kept, PLACES, Receiver};
use std::collections::HashMap;
use std::hint::black_box;
use xara_arq::kiss::{Push, Reassembler};
use xara_phy::crc::crc16_genibus;

/// The lent bytes.
const LENT: usize = 40_000;
/// A keep and a return take at most twice the time of the copy. The rows beside the map of names have no bar.
const COPY_BAR: f64 = 0.5;

/// Few bytes held, and many.
const HELD: [usize; 2] = [4, 4_999];
/// The names that are kept, and another one.
const NAMES: [&[u8]; PLACES] = [b"net", b"fm", b"A", b"relay", b"DL1ABC", b"DL1ABC-7", b"DL1ABC-8", b"channel9"];
const KNOWN: &[u8] = NAMES[6];
const NEW: &[u8] = b"DL1ABC-9";

/// A message in two fragments: so many bytes are held after the first, and the last brings one more.
struct Halves {
    message: Vec<u8>,
    first: Vec<u8>,
    last: Vec<u8>,
}

impl Halves {
    fn new(held: usize) -> Self {
        let message = message(&mut Random::new(), held + 1);
        let check = (crc16_genibus(&message) >> 8) as u8;
        let first = [&[message[0] | 0x80, check], &message[1..held]].concat();
        let last = vec![message[0], message[held]];
        Halves { message, first, last }
    }
}

/// A gateway with the source: a receiver, and clones of it.
struct Source {
    receiver: Reassembler,
    names: HashMap<Vec<u8>, Reassembler>,
}

impl Source {
    fn keep(&mut self, name: &[u8]) -> Result<(), u8> {
        if self.names.len() == PLACES && !self.names.contains_key(name) {
            return Err(21);
        }
        self.names.insert(name.to_vec(), self.receiver.clone());
        Ok(())
    }

    fn return_to(&mut self, name: &[u8]) -> Result<(), u8> {
        self.receiver = self.names.get(name).ok_or(20u8)?.clone();
        Ok(())
    }

    /// The name is there again afterwards, with the same clone.
    fn drop_name(&mut self, name: &[u8]) -> Result<(), u8> {
        let receiver = self.names.remove(name).ok_or(20u8)?;
        self.names.insert(name.to_vec(), black_box(receiver));
        Ok(())
    }

    /// The name is new again afterwards.
    fn keep_new(&mut self, name: &[u8]) -> Result<(), u8> {
        self.keep(name)?;
        self.names.remove(name);
        Ok(())
    }
}

/// A gateway with ours.
struct Ours {
    receiver: Receiver,
    store: Vec<u8>,
    kept: Kept,
    lent: Vec<u8>,
}

impl Ours {
    fn keep(&mut self, name: &[u8]) -> Result<(), u8> {
        self.keep_at(name).map(drop)
    }

    fn keep_at(&mut self, name: &[u8]) -> Result<usize, u8> {
        let answer = self.kept.keep(self.receiver, &self.store, &mut self.lent, name);
        self.kept = answer.kept;
        answer.told()
    }

    /// The answer stays where it was returned: what was kept before is kept on.
    fn keep_alone(&mut self, name: &[u8]) -> Result<(), u8> {
        let answer = self.kept.keep(self.receiver, &self.store, &mut self.lent, name);
        black_box(&answer).told().map(drop)
    }

    fn return_to(&mut self, name: &[u8]) -> Result<(), u8> {
        self.receiver = self.kept.return_to(&mut self.store, &self.lent, name).told()?;
        Ok(())
    }

    /// The name is there again afterwards, with the same state.
    fn drop_name(&mut self, name: &[u8]) -> Result<(), u8> {
        let mut answer = self.kept.drop_name(&self.lent, name);
        let place = answer.told()?;
        answer.kept.slots[place] = self.kept.slots[place];
        self.kept = black_box(answer.kept);
        Ok(())
    }

    /// The name is new again afterwards: a slot is free where its name has no bytes.
    fn keep_new(&mut self, name: &[u8]) -> Result<(), u8> {
        let place = self.keep_at(name)?;
        self.kept.slots[place].len = 0;
        Ok(())
    }
}

/// Both gateways with the first half of a message, which they have kept under so many names.
fn gateways(halves: &Halves, kept: usize) -> (Source, Ours) {
    let (receiver, ours) = receivers();
    let mut theirs = Source { receiver, names: HashMap::new() };
    let mut ours = Ours { receiver: ours, store: vec![0; STORE], kept: Kept::none(), lent: vec![0; LENT] };
    theirs.receiver.join(&halves.first, halves.first.len());
    ours.receiver = ours.receiver.join(&mut ours.store, &halves.first, halves.first.len()).receiver;
    for name in &NAMES[..kept] {
        theirs.keep(name).expect("there is a place");
        ours.keep(name).expect("there is a place");
    }
    (theirs, ours)
}

/// Both gateways must complete the message, now and after a return.
fn complete(name: &str, halves: &Halves, theirs: &mut Source, ours: &mut Ours) {
    let Halves { message, last, .. } = halves;
    for _ in 0..2 {
        let done = theirs.receiver.clone().join(last, last.len());
        same(name, message, if let Push::Done(done) = &done { done } else { &[] });
        let mut store = ours.store.clone();
        let done = ours.receiver.join(&mut store, last, last.len()).heard();
        same(name, message, if let Heard::Done(n) = done { &store[..n] } else { &[] });
        theirs.receiver.reset();
        ours.store.fill(0);
        theirs.return_to(NAMES[0]).expect("the name is kept");
        ours.return_to(NAMES[0]).expect("the name is kept");
    }
}

/// A call of both gateways by one name, where so many are kept. Both answer the same.
struct Call {
    what: &'static str,
    name: &'static [u8],
    kept: usize,
    theirs: fn(&mut Source, &[u8]) -> Result<(), u8>,
    ours: OurCall,
}

type OurCall = fn(&mut Ours, &[u8]) -> Result<(), u8>;

const CALLS_BY_NAME: [Call; 5] = [
    Call { what: "keep, known name", name: KNOWN, kept: 8, theirs: Source::keep, ours: Ours::keep },
    Call { what: "keep, new name", name: NEW, kept: 7, theirs: Source::keep_new, ours: Ours::keep_new },
    Call { what: "keep, refused 21", name: NEW, kept: 8, theirs: Source::keep, ours: Ours::keep },
    Call { what: "return", name: KNOWN, kept: 8, theirs: Source::return_to, ours: Ours::return_to },
    Call { what: "drop", name: KNOWN, kept: 8, theirs: Source::drop_name, ours: Ours::drop_name },
];

/// Keeps, returns and drops, each on what the one before it left.
pub fn by_name(table: &mut Table) {
    for (held, call) in HELD.iter().flat_map(|&held| CALLS_BY_NAME.map(|call| (held, call))) {
        let Call { what, name, kept, theirs: source, ours: call } = call;
        if !table.wants(what, held) {
            continue;
        }
        let halves = Halves::new(held);
        let (mut theirs, mut ours) = gateways(&halves, kept);
        for _ in 0..2 {
            let answers = [source(&mut theirs, name), call(&mut ours, name)];
            let [expected, answer] = answers.map(|answer| answer.err().unwrap_or_default());
            same(what, &[expected], &[answer]);
        }
        complete(what, &halves, &mut theirs, &mut ours);
        let source = move || source(black_box(&mut theirs), black_box(name));
        table.add(what, held, None, source, move || call(black_box(&mut ours), black_box(name)));
    }
}

/// A keep and a return beside the bare copy of a store.
pub fn copies(table: &mut Table) {
    let calls: [(&str, OurCall); 2] = [("copy, keep", Ours::keep_alone), ("copy, return", Ours::return_to)];
    for (what, call) in calls {
        if !table.wants(what, STORE) {
            continue;
        }
        let (_, mut ours) = gateways(&Halves::new(HELD[1]), PLACES);
        let (store, mut lent) = (ours.store.clone(), ours.lent.clone());
        call(&mut ours, KNOWN).expect("the name is kept");
        let place = 6 * STORE..7 * STORE;
        same(what, &store, &ours.lent[place.clone()]);
        same(what, &store, &ours.store);
        let source = move || black_box(&mut lent[place.clone()]).copy_from_slice(black_box(&store));
        table.add(what, STORE, Some(COPY_BAR), source, move || call(black_box(&mut ours), black_box(KNOWN)));
    }
}

/// Nothing kept, beside an empty map.
pub fn none(table: &mut Table) {
    let name = "kept none, 100 times";
    if !table.wants(name, 0) {
        return;
    }
    assert_eq!(Kept::none(), Kept::default());
    let source = || (0..CALLS).for_each(|_| drop(black_box(HashMap::<Vec<u8>, Reassembler>::new())));
    table.add(name, 0, None, source, || (0..CALLS).for_each(|_| _ = black_box(Kept::none())));
}
