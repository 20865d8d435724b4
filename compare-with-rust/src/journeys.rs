//! Journeys: data is coded, cut into fragments, framed, heard or not, joined and decoded. Each call gets what the call
//! before it answered, which is the same on both sides, or the journey ends there.

use crate::calls::{self, Head, Number};
use crate::codings;
use crate::histories;
use crate::lent::Lent;
use crate::readings::Reading;
use crate::receiver::Pair;
use crate::rules::Call;
use crate::slots::Booking;
use crate::tally::{Kind, Tally};
use crate::xara::{Control, Heard};
use answers::random::Random;
use answers::{FIELDS, MASKS, MAX_MESSAGE, most};

/// What happens to a frame on the air.
#[derive(Clone, Copy, Debug)]
enum Fate {
    Heard,
    Lost,
    Twice,
    /// The bit at this place, counted round, is another.
    Changed(usize),
}

/// How data is sent, and what happens to its frames.
struct Journey {
    mask: u8,
    head: Head,
    fates: Vec<Fate>,
}

/// What a message is decoded to in the original and in the mended reading.
type Arrived = [Vec<u8>; 2];

/// Some data on its journey. Counted is whether what is decoded last is the data.
pub fn journey(r: &mut Random, tally: &mut Tally) {
    let mask = r.one_of(&MASKS);
    let many = r.below(8) == 0;
    let (field, (command, data)) = if many { many_fragments(mask, r) } else { (some_field(r), codings::data(r)) };
    let journey = Journey::new(mask, field, r);
    let expected = answers::encode(command, &data);
    let same = codings::encoded(Kind::Journey, command, &data, &expected, vec![Lent::new(r, MAX_MESSAGE)], tally);
    let Some((message, _)) = expected.ok().filter(|_| same) else { return };
    if let Some([original, mended]) = journey.travel(&message, r, tally) {
        tally.arrived(original == data, mended == data);
    }
}

/// A field, one in four of them small.
fn some_field(r: &mut Random) -> usize {
    let fields = if r.below(4) == 0 { 30 } else { FIELDS.count() };
    FIELDS.start() + r.below(fields)
}

/// A field, and data whose message takes one fragment less than the mask has room for, as many, or one or two more. It goes
/// under command 2 with a first byte of 80 or more: its message is then one byte longer.
fn many_fragments(mask: u8, r: &mut Random) -> (usize, (u8, Vec<u8>)) {
    let field = calls::small_field(r);
    let count = most(mask) - 1 + r.below(4);
    let total = count * (field - 1) - r.below(field - 1);
    let mut data = r.bytes(total - 1);
    data[0] |= 0x80;
    (field, (2, data))
}

impl Journey {
    fn new(mask: u8, field: usize, r: &mut Random) -> Self {
        let control = Control { reply: r.below(4) as u8, compressed: r.below(2) as u8, hint: r.below(8) as u8 };
        Journey { mask, head: Head { field, control, marker: r.byte() }, fates: fates(r, most(mask)) }
    }

    /// The message is sent and heard: what is decoded last, if anything.
    fn travel(&self, message: &[u8], r: &mut Random, tally: &mut Tally) -> Option<Arrived> {
        let mut pair = histories::new(Kind::Journey, self.mask, r, tally)?;
        let mut arrived = None;
        for (fragment, &fate) in self.cut(message, r, tally)?.iter().zip(&self.fates) {
            let out = Lent::new(r, self.head.field + 3);
            let frame = calls::framed(Kind::Journey, fragment, self.head, [out], tally)?;
            for frame in on_air(frame, fate) {
                arrived = self.hear(&frame, &mut pair, r, tally)?.or(arrived);
            }
        }
        pair.conserved(tally);
        arrived
    }

    /// All fragments of the message; none where the sender refuses it, or where one is not as expected.
    fn cut(&self, message: &[u8], r: &mut Random, tally: &mut Tally) -> Option<Vec<Vec<u8>>> {
        let (field, mask) = (self.head.field, self.mask);
        let mut same = calls::count(Kind::Journey, message.len(), field, tally);
        let split = answers::sent(message, field, mask);
        for k in 0..split.as_ref().map_or(1, Vec::len) {
            let expected = split.as_ref().map(|list| &list[k][..]).map_err(|&refusal| refusal);
            let out = [Lent::new(r, field)];
            same &= calls::fragment(Kind::Journey, message, Number { field, mask, k }, expected, out, tally);
        }
        let list = split.ok()?;
        same &= Booking { message, field, mask }.compare(Kind::Journey, &list, tally);
        same.then_some(list)
    }

    /// A frame is pushed, and the message that is done by it decoded. None where something is not as expected.
    fn hear(&self, frame: &[u8], pair: &mut Pair, r: &mut Random, tally: &mut Tally) -> Option<Option<Arrived>> {
        let heard = pair.call(Kind::Journey, Call::Push(frame, self.head.field), tally)?;
        let Heard::Done(length) = heard else { return Some(None) };
        let message = pair.message(length);
        let original = decoded(Reading::Original, message, r, tally)?;
        let mended = decoded(Reading::Mended, message, r, tally)?;
        Some(original.zip(mended).map(Arrived::from))
    }
}

/// The data of a message in one of the readings, if it is not refused. None where something is not as expected.
fn decoded(reading: Reading, message: &[u8], r: &mut Random, tally: &mut Tally) -> Option<Option<Vec<u8>>> {
    let expected = reading.decode(message);
    let room = expected.as_ref().map_or(0, |(data, _)| data.len()) + r.below(2);
    let same = codings::decoded(Kind::Journey, reading, message, &expected, vec![Lent::new(r, room)], tally);
    same.then(|| expected.ok().map(|(data, _)| data))
}

/// Half the time all frames are heard; else one is lost or comes twice, or some are changed.
fn fates(r: &mut Random, n: usize) -> Vec<Fate> {
    let mut fates = vec![Fate::Heard; n];
    let near = [1, 2, n][r.below(3)];
    match r.below(8) {
        0 | 1 => fates[r.below(near)] = Fate::Lost,
        2 => fates[r.below(near)] = Fate::Twice,
        3 => {
            for _ in 0..=r.below(3) {
                fates[r.below(near)] = Fate::Changed(r.below(8 * 515));
            }
        }
        _ => {}
    }
    fates
}

/// The frames that are heard of one that is sent.
fn on_air(mut frame: Vec<u8>, fate: Fate) -> Vec<Vec<u8>> {
    match fate {
        Fate::Heard => vec![frame],
        Fate::Lost => vec![],
        Fate::Twice => vec![frame.clone(), frame],
        Fate::Changed(place) => {
            let place = place % (8 * frame.len());
            frame[place / 8] ^= 1 << (place % 8);
            vec![frame]
        }
    }
}
