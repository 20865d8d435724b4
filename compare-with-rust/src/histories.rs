//! Histories of pushes, joins and resets.

use crate::lent::Lent;
use crate::masks;
use crate::receiver::Pair;
use crate::rules::Call;
use crate::tally::{Kind, Row, Tally};
use crate::xara::{self, Fresh, Heard, Tallies};
use answers::random::Random;
use answers::{MASKS, MAX_MESSAGE, most};

/// A new receiver of any mask, and with an accepted one a history.
pub fn history(r: &mut Random, tally: &mut Tally) {
    let mask = masks::some(r, 32);
    let Some(mut pair) = new(Kind::New, mask, r, tally) else { return };
    match r.below(16) {
        0 => many_fragments(&mut pair, mask, r, tally),
        1 => many_bytes(&mut pair, mask, r, tally),
        2..6 => any_bytes(&mut pair, r, tally),
        _ => traffic(&mut pair, some_calls(r), r, tally),
    }
    pair.state(tally);
    pair.conserved(tally);
}

/// A new receiver with any store; none where its mask is refused, or where it is not as expected.
pub fn new(kind: Kind, mask: u8, r: &mut Random, tally: &mut Tally) -> Option<Pair> {
    let fresh = fresh(kind, mask, tally)?;
    Some(Pair::new(mask, fresh, Lent::new(r, MAX_MESSAGE)))
}

/// A new receiver of ours. Of its tallies: "a fresh receiver starts them at 0" (02, E12).
pub fn fresh(kind: Kind, mask: u8, tally: &mut Tally) -> Option<xara::Receiver> {
    let ours = xara::Receiver::fresh(mask);
    let fresh = xara::Receiver::idle(mask, Tallies::of([0; 8]));
    let expected = Fresh::of(if MASKS.contains(&mask) { Ok(fresh) } else { Err(9) });
    let same = tally.compare(kind, Row::of(expected), Row::of(ours), || format!("new a {mask:02X}"));
    ours.told().ok().filter(|_| same)
}

/// How many calls a history has of two senders.
fn some_calls(r: &mut Random) -> usize {
    30 + r.below(90)
}

/// So many calls of two senders whose frames come in turn, some of them under another mask than the receiver's, with faults among them.
pub fn traffic(pair: &mut Pair, calls: usize, r: &mut Random, tally: &mut Tally) {
    let mask = pair.mask();
    let mut senders = [Sender::new(mask, r), Sender::new(mask, r)];
    let alone = r.below(2) == 0;
    let faults = [0, 4, 16][r.below(3)];
    for _ in 0..calls {
        let sender = &mut senders[if alone || r.below(4) > 0 { 0 } else { 1 }];
        let fragment = sender.next(r);
        if r.below(100) < faults {
            fault(pair, fragment, sender.field, r, tally);
        } else {
            heard(pair, fragment, sender.field, r.byte(), r, tally);
        }
        between_calls(pair, r, tally);
    }
}

/// 250 to 260 fragments of a few bytes, or about the most that the mask has room for, then a little traffic.
fn many_fragments(pair: &mut Pair, mask: u8, r: &mut Random, tally: &mut Tally) {
    let field = 3 + r.below(2);
    let count = if r.below(2) == 0 { 250 + r.below(11) } else { most(mask) - 1 + r.below(4) };
    let message = message(count * (field - 1), r);
    run(pair, answers::split(&message, field, mask), field, r, tally);
    traffic(pair, some_calls(r), r, tally);
}

/// A message around 5,000 bytes, or far beyond, then a little traffic.
fn many_bytes(pair: &mut Pair, mask: u8, r: &mut Random, tally: &mut Tally) {
    let field = 21 + r.below(492);
    let length = if r.below(4) > 0 { 4_997 + r.below(7) } else { 4_900 + r.below(800) };
    let message = message(length, r);
    run(pair, answers::split(&message, field, mask), field, r, tally);
    traffic(pair, some_calls(r), r, tally);
}

/// All fragments in order, in one history of three with a rare fault.
fn run(pair: &mut Pair, fragments: Vec<Vec<u8>>, field: usize, r: &mut Random, tally: &mut Tally) {
    let faults = r.below(3) == 0;
    for fragment in fragments {
        if faults && r.below(100) == 0 {
            fault(pair, fragment, field, r, tally);
        } else {
            heard(pair, fragment, field, r.byte(), r, tally);
        }
        between_calls(pair, r, tally);
    }
    pair.state(tally);
}

/// Frames and fragments of any bytes, of small fields, one of which is refused.
fn any_bytes(pair: &mut Pair, r: &mut Random, tally: &mut Tally) {
    for _ in 0..60 {
        let field = 2 + r.below(7);
        let size = r.below(9);
        let alphabets: [&[u8]; 3] = [&[0x14, 0x00, 0x80, 0x94], &[0x14, 0x41, 0xC1, 0x01], &[0xFF, 0x80, 0x7F, 0x14]];
        let alphabet = alphabets[r.below(3)];
        let mut drawn =
            |n: usize| if r.below(2) == 0 { r.bytes(n) } else { (0..n).map(|_| r.one_of(alphabet)).collect() };
        let (frame, f) = (drawn(field + 3), drawn(size));
        match r.below(8) {
            0..4 => pair.push(field, &frame, tally),
            4..7 => pair.join(r.below(size + 2), &f, tally),
            _ => pair.join(size, &f, tally),
        }
        if r.below(40) == 0 {
            pair.reset(tally);
        }
        between_calls(pair, r, tally);
    }
}

/// A sender's fragment, mostly in its frame with this marker: the answer, where it is as expected.
pub fn heard(
    pair: &mut Pair,
    fragment: Vec<u8>,
    field: usize,
    marker: u8,
    r: &mut Random,
    tally: &mut Tally,
) -> Option<Heard> {
    match r.below(4) {
        0 => pair.call(Kind::Join, Call::Join(&fragment, fragment.len()), tally),
        _ => pair.call(Kind::Push, Call::Push(&framed(&fragment, field, marker, r), field), tally),
    }
}

/// A fragment that comes damaged, cut, not at all or twice, in a frame of another length, with another field, or with
/// something else in its place.
pub fn fault(pair: &mut Pair, mut fragment: Vec<u8>, field: usize, r: &mut Random, tally: &mut Tally) {
    let frame = framed(&fragment, field, r.byte(), r);
    match r.below(14) {
        0 => {}
        1 => {
            pair.push(field, &frame, tally);
            pair.push(field, &frame, tally);
        }
        2..7 => pair.push(field, &damaged(frame, field, r), tally),
        7 => pair.push([0, 1, 2, 513, 514, 515, usize::MAX, field + 1, field - 1][r.below(9)], &frame, tally),
        8 => pair.join([0, fragment.len() + 1, usize::MAX][r.below(3)], &fragment, tally),
        9 => pair.join(1 + r.below(fragment.len()), &fragment, tally),
        10 => {
            fragment.truncate(1);
            fragment[0] |= 0x80;
            pair.join(1, &fragment, tally);
        }
        11 => pair.join(1, &[0x80 | r.byte(), r.byte()], tally),
        12 => {
            fragment[0] ^= 0x80;
            pair.push(field, &framed(&fragment, field, r.byte(), r), tally);
        }
        _ => pair.reset(tally),
    }
}

/// A frame with some bits changed, with bytes cut off or added, or with a 14 in its field.
fn damaged(mut frame: Vec<u8>, field: usize, r: &mut Random) -> Vec<u8> {
    match r.below(5) {
        0 | 1 => {
            for _ in 0..1 + r.below(3) {
                let at = r.below(frame.len());
                frame[at] ^= 1 << r.below(8);
            }
        }
        2 => frame.truncate(r.below(frame.len())),
        3 => {
            let more = 1 + r.below(5);
            frame.extend(r.bytes(more));
        }
        _ => frame[r.below(field)] = 0x14,
    }
    frame
}

/// The source's frame of a fragment; a marker of 14, which we refuse, is among those heard.
fn framed(fragment: &[u8], field: usize, marker: u8, r: &mut Random) -> Vec<u8> {
    let (reply, hint) = (r.below(4) as u8, r.below(8) as u8);
    answers::frame(field, fragment, reply, r.below(2) == 0, hint, marker)
}

/// Our state against the source's own: always where few bytes are held, and now and then where many are, since reading
/// it is slow then. With the state that the rules have ours is compared after every call. Then an overflow is shown to the
/// next call as any byte.
pub fn between_calls(pair: &mut Pair, r: &mut Random, tally: &mut Tally) {
    if pair.held() < 200 || r.below(100) == 0 {
        pair.state(tally);
    }
    pair.show_overflow(r.byte());
}

/// Messages of any length, one after the other, in fragments of one field.
struct Sender {
    field: usize,
    mask: u8,
    fragments: Vec<Vec<u8>>,
}

impl Sender {
    /// A sender of any field, mostly under this mask.
    fn new(mask: u8, r: &mut Random) -> Self {
        let field = if r.below(2) == 0 { 3 + r.below(8) } else { 3 + r.below(510) };
        let mask = if r.below(4) == 0 { r.one_of(&MASKS) } else { mask };
        Sender { field, mask, fragments: Vec::new() }
    }

    /// The next fragment; a message takes 1 to 20 of them, and few messages many.
    fn next(&mut self, r: &mut Random) -> Vec<u8> {
        if let Some(fragment) = self.fragments.pop() {
            return fragment;
        }
        let count = if r.below(4) == 0 { 1 + r.below(20) } else { 1 + r.below(5) };
        let length = (1 + r.below(count * (self.field - 1))).min(MAX_MESSAGE);
        self.fragments = answers::split(&message(length, r), self.field, self.mask);
        self.fragments.reverse();
        self.fragments.pop().expect("a message that is not empty")
    }
}

/// Bytes with a first one below 80; among some, many are 14.
pub fn message(length: usize, r: &mut Random) -> Vec<u8> {
    let many = r.below(4) == 0;
    let mut bytes = r.bytes(length);
    for byte in &mut bytes {
        if many && *byte & 1 == 0 {
            *byte = 0x14;
        }
    }
    bytes[0] &= 0x7F;
    bytes
}
