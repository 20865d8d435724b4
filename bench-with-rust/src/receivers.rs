//! The rows of the receiver: messages that are done by pushes and by joins, frames that are dropped, resets and new receivers.

use crate::inputs::{Random, message};
use crate::rows::{CONTROL, MARKER, OTHER_BAR, STORE, Sending, sendings, split};
use crate::table::{Table, same};
use crate::xara::{Heard, Pushed, Receiver, Tallies};
use std::hint::black_box;
use std::rc::Rc;
use xara_arq::kiss::{HF_CRC_MASK, Push, Reassembler};
use xara_phy::hf::frame::build_frame;
use xara_phy::hf::level::Record;

/// Joins, frames that are dropped without a check, resets and new receivers. Pushes have the bars of what is sent.
const RECEIVER_BAR: f64 = 1.0;

/// Frames, or fragments.
type List = Rc<[Vec<u8>]>;

/// A new receiver of the source, which hears all of a list; the message that is done.
fn hear(list: &[Vec<u8>], mask: u8, call: impl Fn(&mut Reassembler, &[u8]) -> Push) -> Option<Vec<u8>> {
    let mut receiver = Reassembler::with_crc_mask(mask);
    let mut done = None;
    for bytes in list {
        if let Push::Done(message) = call(&mut receiver, bytes) {
            done = Some(message);
        }
    }
    done
}

/// A new receiver of ours, which hears all of a list; the length of the message, which is first in the store.
fn hear_ours(list: &[Vec<u8>], mask: u8, mut call: impl FnMut(Receiver, &[u8]) -> Pushed) -> Result<usize, u8> {
    let mut receiver = Receiver::fresh(mask).told()?;
    let mut done = 0;
    for bytes in list {
        let pushed = call(receiver, bytes);
        receiver = pushed.receiver;
        if let Heard::Done(n) = pushed.heard() {
            done = n;
        }
    }
    Ok(done)
}

/// The frames of fragments.
fn framed(fragments: &[Vec<u8>], field: usize) -> Vec<Vec<u8>> {
    fragments.iter().map(|fragment| build_frame(field + 3, fragment, CONTROL, None, MARKER)).collect()
}

/// All frames of a message.
pub fn push(table: &mut Table) {
    for Sending { name, bars: (_, bar), field, mask, message } in sendings() {
        let name = format!("push {name}");
        if !table.wants(&name, message.len()) {
            continue;
        }
        let level = Record::of_field(field);
        let frames: List = framed(&split(&message, field, mask), field).into();
        let theirs = Rc::clone(&frames);
        let mut store = vec![0; STORE];
        let source = move || {
            let level = black_box(level);
            hear(black_box(&theirs), black_box(mask), |receiver, frame| receiver.push(frame, level))
        };
        let n = hear_ours(&frames, mask, |receiver, frame| receiver.push(&mut store, frame, field));
        same(&name, &source().expect("the message is done"), &store[..n.expect("the mask is accepted")]);
        table.add(&name, message.len(), Some(bar), source, move || {
            let (field, store) = (black_box(field), black_box(&mut store));
            hear_ours(black_box(&frames), black_box(mask), |receiver, frame| receiver.push(store, frame, field))
        });
    }
}

/// The frame of one fragment that is shorter than its field, by one byte, by half and by all but two.
pub fn shorter(table: &mut Table) {
    let mut r = Random::new();
    for field in [60, 128, 300, 512] {
        for (name, length) in [("push, 1 short", field - 1), ("push, half", field / 2), ("push, 2 bytes", 2)] {
            let fragment = message(&mut r, length);
            if !table.wants(name, field) {
                continue;
            }
            let frame = build_frame(field + 3, &fragment, CONTROL, None, MARKER);
            let ((mut theirs, ours), mut store) = (receivers(), vec![0; STORE]);
            let Heard::Done(n) = ours.push(&mut store, &frame, field).heard() else { panic!("the message is done") };
            same(name, &fragment, &store[..n]);
            let (level, heard) = (Record::of_field(field), frame.clone());
            let source = move || theirs.push(black_box(&heard), black_box(level));
            table.add(name, field, Some(RECEIVER_BAR), source, move || {
                ours.push(black_box(&mut store), black_box(&frame), black_box(field))
            });
        }
    }
}

/// So many receivers hear a frame in turn, each with a store of its own: none of them is in the processor's caches.
const MANY: usize = 10_000;

pub fn in_turn(table: &mut Table) {
    let (name, field) = ("push, 10000 in turn", 60);
    if !table.wants(name, field) {
        return;
    }
    let fragment = message(&mut Random::new(), 58);
    let frame = build_frame(field + 3, &fragment, CONTROL, None, MARKER);
    let (receiver, heard) = (receivers().1, frame.clone());
    let mut theirs: Vec<Reassembler> = (0..MANY).map(|_| receivers().0).collect();
    let mut stores: Vec<Vec<u8>> = vec![vec![0; STORE]; MANY];
    let mut ours = vec![receiver; MANY];
    let Heard::Done(n) = ours[0].push(&mut stores[0], &frame, field).heard() else { panic!("the message is done") };
    same(name, &fragment, &stores[0][..n]);
    let level = Record::of_field(field);
    let (mut k, mut i) = (0, 0);
    let source = move || {
        k = (k + 1) % MANY;
        theirs[k].push(black_box(&heard), black_box(level))
    };
    table.add(name, field, Some(RECEIVER_BAR), source, move || {
        i = (i + 1) % MANY;
        let pushed = ours[i].push(&mut stores[i], black_box(&frame), black_box(field));
        ours[i] = pushed.receiver;
        pushed.heard()
    });
}

/// All fragments of a message.
pub fn join(table: &mut Table) {
    for Sending { name, field, mask, message, .. } in sendings() {
        let name = format!("join {name}");
        if !table.wants(&name, message.len()) {
            continue;
        }
        let fragments: List = split(&message, field, mask).into();
        let theirs = Rc::clone(&fragments);
        let mut store = vec![0; STORE];
        let source = move || hear(black_box(&theirs), black_box(mask), |receiver, f| receiver.join(f, f.len()));
        let n = hear_ours(&fragments, mask, |receiver, f| receiver.join(&mut store, f, f.len()));
        same(&name, &source().expect("the message is done"), &store[..n.expect("the mask is accepted")]);
        table.add(&name, message.len(), Some(RECEIVER_BAR), source, move || {
            let store = black_box(&mut store);
            hear_ours(black_box(&fragments), black_box(mask), |receiver, f| receiver.join(store, f, f.len()))
        });
    }
}

/// Frames of one message, of which some or all are dropped.
struct Dropping {
    name: &'static str,
    bytes: usize,
    bar: f64,
    /// Frames that the receiver hears before these.
    before: Vec<Vec<u8>>,
    frames: List,
    /// The tally that the row is about, and how many of the frames count there.
    tally: fn(Tallies) -> u64,
    drops: u64,
}

const FIELD: usize = 300;
const LENGTH: usize = 4800;
const TOO_LONG: usize = 5600;

/// A message of 17 frames that come too short, without a fragment, or with another last byte; and one of 19, which is too long: all
/// its frames, and those before the last where the receiver is in overflow already.
fn droppings() -> [Dropping; 5] {
    let mut r = Random::new();
    let fragments = split(&message(&mut r, LENGTH), FIELD, HF_CRC_MASK);
    let frames = framed(&fragments, FIELD);
    let long = framed(&split(&message(&mut r, TOO_LONG), FIELD, HF_CRC_MASK), FIELD);
    let more = &long[..long.len() - 1];
    let short: Vec<_> = frames.iter().map(|frame| frame[1..].to_vec()).collect();
    let empty: Vec<_> = frames.iter().map(|frame| without_fragment(frame)).collect();
    [
        Dropping::new("push wrong length", &short, |tallies| tallies.wrong_length, 17),
        Dropping::new("push no fragment", &empty, |tallies| tallies.no_fragment, 17),
        Dropping { bar: OTHER_BAR, ..Dropping::new("push bad check", &damaged(fragments), |tallies| tallies.check, 1) },
        Dropping { bytes: TOO_LONG, ..Dropping::new("push too long", &long, |tallies| tallies.limit, 1) },
        Dropping {
            bytes: TOO_LONG,
            before: more.to_vec(),
            ..Dropping::new("push overflow", more, |tallies| tallies.overflow, 18)
        },
    ]
}

/// A frame that is not full and has no 14 in its field.
fn without_fragment(frame: &[u8]) -> Vec<u8> {
    let mut frame: Vec<u8> = frame.iter().map(|&byte| if byte == 0x14 { 0x15 } else { byte }).collect();
    frame[FIELD] &= 0xFE;
    frame
}

/// The frames of fragments of which the last ends in another byte.
fn damaged(mut fragments: Vec<Vec<u8>>) -> Vec<Vec<u8>> {
    if let Some(byte) = fragments.last_mut().and_then(|last| last.last_mut()) {
        *byte ^= 1;
    }
    framed(&fragments, FIELD)
}

/// How many frames a receiver of the source drops.
fn drops(receiver: &mut Reassembler, frames: &[Vec<u8>]) -> u64 {
    let level = black_box(Record::of_field(FIELD));
    let mut dropped = 0;
    for frame in frames {
        dropped += u64::from(matches!(receiver.push(frame, level), Push::Dropped));
    }
    dropped
}

/// How many frames a receiver of ours drops.
fn drops_ours(receiver: &mut Receiver, store: &mut [u8], frames: &[Vec<u8>]) -> u64 {
    let field = black_box(FIELD);
    let mut dropped = 0;
    for frame in frames {
        let pushed = receiver.push(store, frame, field);
        *receiver = pushed.receiver;
        dropped += u64::from(matches!(pushed.heard(), Heard::Dropped(_)));
    }
    dropped
}

impl Dropping {
    fn new(name: &'static str, frames: &[Vec<u8>], tally: fn(Tallies) -> u64, drops: u64) -> Self {
        Dropping { name, bytes: LENGTH, bar: RECEIVER_BAR, before: Vec::new(), frames: frames.into(), tally, drops }
    }

    /// Both sides must drop as many of the frames, and ours for the cause that the row is about.
    fn compare(&self, theirs: &mut Reassembler, ours: &mut Receiver, store: &mut [u8]) {
        let before = (self.tally)(ours.tallies);
        let dropped = drops_ours(ours, store, &self.frames);
        let counted = (self.tally)(ours.tallies) - before;
        let expected = [drops(theirs, &self.frames), self.drops].map(u64::to_be_bytes);
        same(self.name, &expected.concat(), &[dropped, counted].map(u64::to_be_bytes).concat());
    }

    /// The frames come again and again, always to the same receiver, and each time the same must come of them.
    fn add(self, table: &mut Table) {
        let (mut theirs, mut ours) = receivers();
        let mut store = vec![0; STORE];
        drops(&mut theirs, &self.before);
        drops_ours(&mut ours, &mut store, &self.before);
        self.compare(&mut theirs, &mut ours, &mut store);
        self.compare(&mut theirs, &mut ours, &mut store);
        let Dropping { name, bytes, bar, frames, .. } = self;
        let heard = Rc::clone(&frames);
        let source = move || drops(&mut theirs, black_box(&heard));
        table.add(name, bytes, Some(bar), source, move || {
            drops_ours(&mut ours, black_box(&mut store), black_box(&frames))
        });
    }
}

/// Frames that are dropped.
pub fn dropped(table: &mut Table) {
    for row in droppings() {
        if table.wants(row.name, row.bytes) {
            row.add(table);
        }
    }
}

/// A new receiver of each side.
pub fn receivers() -> (Reassembler, Receiver) {
    let ours = Receiver::fresh(HF_CRC_MASK).told().expect("the mask is accepted");
    (Reassembler::with_crc_mask(HF_CRC_MASK), ours)
}

/// A reset, a new receiver and no kept states take so few nanoseconds that this many are timed as one.
pub const CALLS: usize = 100;

/// Resets of a receiver.
pub fn reset(table: &mut Table) {
    let name = "reset, 100 times";
    if !table.wants(name, 0) {
        return;
    }
    let (mut theirs, mut ours) = receivers();
    let mut store = vec![0; STORE];
    theirs.join(&[0x80, 0x00], 2);
    ours = ours.join(&mut store, &[0x80, 0x00], 2).receiver;
    same(name, theirs.first().as_slice(), &store[..ours.held]);
    theirs.reset();
    ours = ours.reset();
    same(name, theirs.first().as_slice(), &store[..ours.held]);
    let source = move || (0..CALLS).for_each(|_| black_box(&mut theirs).reset());
    table.add(name, 0, Some(RECEIVER_BAR), source, move || (0..CALLS).for_each(|_| ours = ours.reset()));
}

/// New receivers.
pub fn new(table: &mut Table) {
    let name = "new, 100 times";
    if !table.wants(name, 0) {
        return;
    }
    let (theirs, ours) = receivers();
    same(name, theirs.first().as_slice(), &[0; STORE][..ours.held]);
    let source = || (0..CALLS).for_each(|_| drop(black_box(Reassembler::with_crc_mask(black_box(HF_CRC_MASK)))));
    let ours = || (0..CALLS).for_each(|_| _ = Receiver::fresh(black_box(HF_CRC_MASK)));
    table.add(name, 0, Some(RECEIVER_BAR), source, ours);
}
