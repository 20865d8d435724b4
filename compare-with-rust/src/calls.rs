//! The calls that keep no state: CRC, counts, fragments and frames.

use crate::lent::{Input, Lent};
use crate::masks;
use crate::slots::Booking;
use crate::tally::{Kind, Row, Tally};
use crate::writing::Writing;
use crate::xara::{self, Answer, Control};
use answers::hex::to_hex;
use answers::random::Random;
use answers::{FIELDS, MASKS, MAX_MESSAGE, most};

pub fn crc(r: &mut Random, tally: &mut Tally) {
    let n = r.below(6001);
    let data = r.bytes(n);
    let mut input = Input::new(&data);
    let ours = xara::crc(&mut input.lent[..]);
    let expected = Row { answer: answers::crc(&data), written: &[], read: &data };
    let ours = Row { answer: ours, written: &[], read: &input.lent };
    tally.compare(Kind::Crc, expected, ours, || format!("crc {}", to_hex(&data)));
}

/// Every total to 5,002 with every field to 514.
pub fn all_counts(tally: &mut Tally) {
    for field in 0..=FIELDS.end() + 2 {
        for total in 0..=MAX_MESSAGE + 2 {
            count(Kind::Count, total, field, tally);
        }
    }
}

/// A pair around the edges, or with any numbers.
pub fn some_count(r: &mut Random, tally: &mut Tally) {
    let mut draw = |edges: &[usize]| match r.below(4) {
        0 => r.number() as usize >> r.below(64),
        _ => edges[r.below(edges.len())],
    };
    let total = draw(&[0, 1, 2, 3, 511, 512, 513, MAX_MESSAGE - 1, MAX_MESSAGE, MAX_MESSAGE + 1, usize::MAX]);
    let field = draw(&[0, 1, 2, 3, 4, 5, 511, 512, 513, usize::MAX - 1, usize::MAX]);
    count(Kind::Count, total, field, tally);
}

/// A count, and whether it is as expected.
pub fn count(kind: Kind, total: usize, field: usize, tally: &mut Tally) -> bool {
    let expected = Row::of(Answer::of(answers::count(total, field)));
    tally.compare(kind, expected, Row::of(xara::count(total, field)), || format!("count {total} {field}"))
}

/// Every byte as a mask, with a message that takes two fragments, and with an empty one.
pub fn all_masks(r: &mut Random, tally: &mut Tally) {
    for mask in 0..=255 {
        fragments_of(&[0x40, 0xAC, 0xB7, 0x01, 0x00, 0x10, 0x40], 5, mask, r, tally);
        fragments_of(&[], 5, mask, r, tally);
    }
}

/// A field so small that a message can take two fragments more than any mask has room for: 131 of up to 38 bytes after
/// their first one.
pub fn small_field(r: &mut Random) -> usize {
    3 + r.below(37)
}

/// Messages of lengths around the edges of this field, under each of the masks and another.
pub fn fragments(field: usize, r: &mut Random, tally: &mut Tally) {
    for mask in MASKS.into_iter().chain([masks::other(r)]) {
        for total in lengths(field, mask, r) {
            let mut message = r.bytes(total);
            if let Some(first) = message.first_mut()
                && r.below(16) > 0
            {
                *first &= 0x7F;
            }
            fragments_of(&message, field, mask, r, tally);
        }
    }
}

/// The lengths at which a message takes another fragment, up to two more than the mask has room for, each with the
/// next, and the edges of the domain.
fn lengths(field: usize, mask: u8, r: &mut Random) -> Vec<usize> {
    let mut list =
        vec![0, 1, 2, field.saturating_sub(1), field, field + 1, MAX_MESSAGE, MAX_MESSAGE + 1, r.below(5001)];
    if MASKS.contains(&mask) && FIELDS.contains(&field) {
        let most = most(mask);
        for count in some_below(most + 1, r).into_iter().chain([most + 1, most + 2]) {
            list.extend([count * (field - 1), count * (field - 1) + 1]);
        }
    }
    list.retain(|&n| n <= MAX_MESSAGE + 1);
    list
}

/// The numbers below n: all where they are few, else the first and the last ones and some between.
fn some_below(n: usize, r: &mut Random) -> Vec<usize> {
    if n <= FEW {
        return (0..n).collect();
    }
    let between = (0..4).map(|_| r.below(n));
    (0..3).chain(between).chain([n - 2, n - 1]).collect()
}

/// As many as there are fragments of a message under F0, and one more.
const FEW: usize = 18;

/// Some fragments of a message and some after the last, with outputs that are too short, exact and longer.
fn fragments_of(message: &[u8], field: usize, mask: u8, r: &mut Random, tally: &mut Tally) {
    let split = answers::sent(message, field, mask);
    if let Ok(list) = &split {
        Booking { message, field, mask }.compare(Kind::Slots, list, tally);
    }
    let count = split.as_ref().map_or(1, Vec::len);
    for k in some_below(count, r).into_iter().chain([count, count + 1, r.number() as usize, usize::MAX]) {
        let expected = match &split {
            Err(refusal) => Err(*refusal),
            Ok(list) => list.get(k).map(Vec::as_slice).ok_or(13),
        };
        let exact = expected.map_or(field.min(512), <[u8]>::len);
        let rooms = [0, exact.saturating_sub(1), exact, exact + 1 + r.below(40)];
        let number = Number { field, mask, k };
        fragment(Kind::Fragment, message, number, expected, rooms.map(|room| Lent::new(r, room)), tally);
    }
}

/// Which fragment of a message.
#[derive(Clone, Copy)]
pub struct Number {
    pub field: usize,
    pub mask: u8,
    pub k: usize,
}

/// A fragment with these outputs, and whether all is as expected.
pub fn fragment(
    kind: Kind,
    message: &[u8],
    number: Number,
    expected: Result<&[u8], u8>,
    outputs: impl IntoIterator<Item = Lent>,
    tally: &mut Tally,
) -> bool {
    let Number { field, mask, k } = number;
    tally.cut(mask, expected.map(|_| k + 1));
    let call = Writing {
        kind,
        input: Input::new(message),
        expected,
        answer: &Answer::of,
        call: &|message, out| xara::fragment(message, field, mask, k, out),
        told: &|| format!("split {field} {mask:02X} {}\nfragment {k}", to_hex(message)),
    };
    call.compare(outputs, tally)
}

/// Frames of this field with every reply to 4 and every hint to 8.
pub fn frames(field: usize, r: &mut Random, tally: &mut Tally) {
    for reply in 0..=4 {
        for hint in 0..=8 {
            for compressed in [0, 1] {
                let compressed = if r.below(4) == 0 { compressed * r.byte() } else { compressed };
                frame(field, Control { reply, compressed, hint }, r, tally);
            }
        }
    }
    frame(field, Control { reply: r.byte(), compressed: r.byte(), hint: r.byte() }, r, tally);
}

/// Frames of this field with drawn data, marker and room.
fn frame(field: usize, control: Control, r: &mut Random, tally: &mut Tally) {
    let near = field.min(512);
    let n = [0, 1, near / 2, near.saturating_sub(2), near.saturating_sub(1), near, near, near + 1, r.below(near + 1)];
    let n = n[r.below(n.len())];
    let data = if r.below(8) == 0 { vec![0x14; n] } else { r.bytes(n) };
    let marker = if r.below(8) == 0 { 0x14 } else { r.byte() };
    let room = [0, near + 2, near + 3, near + 3, near + 4, near + r.below(40)][r.below(6)];
    framed(Kind::Frame, &data, Head { field, control, marker }, [Lent::new(r, room)], tally);
}

/// What a frame has beside its fragment.
#[derive(Clone, Copy, Debug)]
pub struct Head {
    pub field: usize,
    pub control: Control,
    pub marker: u8,
}

/// The frame of a fragment with these outputs: the frame that the source builds, where all is as expected.
pub fn framed(
    kind: Kind,
    data: &[u8],
    head: Head,
    outputs: impl IntoIterator<Item = Lent>,
    tally: &mut Tally,
) -> Option<Vec<u8>> {
    let Head { field, control, marker } = head;
    let Control { reply, compressed, hint } = control;
    let compressed = u8::from(compressed != 0);
    let expected = answers::framed(field, data, reply, compressed == 1, hint, marker);
    let call = Writing {
        kind,
        input: Input::new(data),
        expected: expected.as_deref().map_err(|&refusal| refusal),
        answer: &Answer::of,
        call: &|data, out| xara::frame(field, data, control, marker, out),
        told: &|| format!("frame {field} {reply} {compressed} {hint} {marker:02X} {}", to_hex(data)),
    };
    let same = call.compare(outputs, tally);
    if same { expected.ok() } else { None }
}

/// A fragment and its frame, with outputs of every length from 0 to one more than the answer's.
pub fn every_room(field: usize, r: &mut Random, tally: &mut Tally) {
    let mask = r.one_of(&MASKS);
    let most = most(mask) * field.saturating_sub(1);
    let total = 1 + r.below(most.clamp(1, MAX_MESSAGE));
    let mut message = r.bytes(total);
    message[0] &= 0x7F;
    let split = answers::sent(&message, field, mask);
    let k = r.below(split.as_ref().map_or(1, Vec::len));
    let expected = split.as_ref().map(|list| &list[k][..]).map_err(|&refusal| refusal);
    let rooms: Vec<Lent> = (0..=expected.map_or(field, <[u8]>::len) + 1).map(|room| Lent::new(r, room)).collect();
    fragment(Kind::Fragment, &message, Number { field, mask, k }, expected, rooms, tally);
    let control = Control { reply: r.below(4) as u8, compressed: r.byte(), hint: r.below(8) as u8 };
    let rooms: Vec<Lent> = (0..=field + 4).map(|room| Lent::new(r, room)).collect();
    let head = Head { field, control, marker: 0x01 };
    framed(Kind::Frame, expected.unwrap_or(&message[..1]), head, rooms, tally);
    tally.every_room();
    tally.every_room();
}

#[cfg(test)]
mod tests {
    use super::*;

    /// With a small field messages take one fragment less than each mask has room for, as many, and one and two more.
    #[test]
    fn every_limit() {
        let mut r = Random::new(1, "limit");
        for mask in MASKS.repeat(100) {
            let (field, most) = (small_field(&mut r), most(mask));
            let counts: Vec<_> =
                lengths(field, mask, &mut r).iter().map(|&total| answers::count(total, field)).collect();
            assert!((most - 1..=most + 2).all(|count| counts.contains(&Ok(count))), "{field} {mask:02X}");
        }
    }

    /// Of many fragments the first, the last and some between are compared, of few all.
    #[test]
    fn some_numbers() {
        let mut r = Random::new(1, "numbers");
        assert_eq!(some_below(17, &mut r), (0..17).collect::<Vec<_>>());
        let many = some_below(129, &mut r);
        assert!([0, 1, 2, 127, 128].iter().all(|k| many.contains(k)));
        assert!(many.iter().all(|&k| k < 129));
    }
}
