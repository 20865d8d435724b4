//! The coder, the summary and the decoder, on data of every type, odd and damaged, and on messages.

use crate::lent::{Input, Lent};
use crate::readings::{self, Reading};
use crate::tally::{Kind, Row, Tally};
use crate::tokens;
use crate::wide;
use crate::writing::Writing;
use crate::xara::{self, Decoded, Encoded, Summary};
use answers::hex::{from_hex, to_hex};
use answers::random::Random;
use answers::{MAX_MESSAGE, cases, frames, messages, white};

/// The command of frames with calls of six letters.
const AX25: u8 = 0;

/// The most bytes that a message decodes to.
pub const MOST_DECODED: usize = 45_764;

/// Some data to code: one in eight with white space, or a neighbour of it, at the edges of its texts, one in eight a frame whose
/// control is 03, 13 or a neighbour of these, and one in eight a plain frame with WIDE calls.
pub fn data(r: &mut Random) -> (u8, Vec<u8>) {
    match r.below(8) {
        0 => white::data(r),
        1 => frames::near_ui(r),
        2 => (AX25, wide::plain(r)),
        _ => frames::data(r),
    }
}

/// Some data, coded, and its summary.
pub fn coding(r: &mut Random, tally: &mut Tally) {
    let (command, data) = data(r);
    both(command, &data, r, tally);
}

/// The data that is written down: every type, every refusal, every control byte, every letter of a call, and every byte at the edges
/// of every text.
pub fn written_down(r: &mut Random, tally: &mut Tally) {
    let every = cases::every_control().into_iter().chain(cases::every_letter());
    for (command, data) in cases::all(r).into_iter().chain(every).chain(white::all()) {
        both(command, &data, r, tally);
    }
}

/// Data, coded with some outputs, and its summary.
fn both(command: u8, data: &[u8], r: &mut Random, tally: &mut Tally) {
    let expected = answers::encode(command, data);
    tally.coded(value(&expected));
    let outputs = some_rooms(&expected, data.len(), r);
    encoded(Kind::Encode, command, data, &expected, outputs, tally);
    let mut input = Input::new(data);
    let ours = xara::summary(command, &mut input.lent[..]);
    let expected = Row { answer: Summary::of(answers::summary(command, data)), written: &[], read: data };
    let ours = Row { answer: ours, written: &[], read: &input.lent };
    tally.compare(Kind::Summary, expected, ours, || format!("parse {command} {}", to_hex(data)));
}

/// Some message to decode: one in four has WIDE tokens or their neighbours.
fn message(r: &mut Random) -> Vec<u8> {
    if r.below(4) == 0 { tokens::message(r) } else { messages::message(r) }
}

/// Some message, decoded.
pub fn decoding(r: &mut Random, tally: &mut Tally) {
    both_readings(&message(r), some_rooms, r, tally);
}

/// A message, decoded in both readings with such outputs, and what holds between the two.
fn both_readings(message: &[u8], rooms: Rooms, r: &mut Random, tally: &mut Tally) {
    let original = Reading::Original.decode(message);
    let mended = Reading::Mended.decode(message);
    tally.decoded(value(&original), exact(&original, 0));
    for (kind, reading, expected) in
        [(Kind::Decode, Reading::Original, &original), (Kind::DecodeMended, Reading::Mended, &mended)]
    {
        let outputs = rooms(expected, message.len(), r);
        decoded(kind, reading, message, expected, outputs, tally);
    }
    let outputs = rooms(&original, message.len(), r);
    readings::alike(message, &original, outputs, tally);
    tally.readings(value(&original), original != mended);
}

/// The worked examples of the mended reading, messages with each WIDE token and its neighbours in every place, and plain frames with
/// each WIDE call in every place.
pub fn wide_calls(r: &mut Random, tally: &mut Tally) {
    for [_, message, _] in wide::WORKED {
        both_readings(&from_hex(message).expect("capital hexadecimal"), all_rooms, r, tally);
    }
    for message in tokens::every_token() {
        both_readings(&message, some_rooms, r, tally);
    }
    for frame in wide::every_place() {
        back(&frame, r, tally);
    }
}

/// Some plain frame with WIDE calls.
pub fn plain(r: &mut Random, tally: &mut Tally) {
    back(&wide::plain(r), r, tally);
}

/// A plain frame, coded, comes back in the mended reading; "coding is unchanged", so it is coded as the source does (02, E5).
fn back(frame: &[u8], r: &mut Random, tally: &mut Tally) {
    let coded = answers::encode(AX25, frame);
    let outputs = some_rooms(&coded, 0, r);
    encoded(Kind::Encode, AX25, frame, &coded, outputs, tally);
    let (message, _) = coded.expect("a plain frame is accepted");
    both_readings(&message, some_rooms, r, tally);
    let expected = Ok((frame.to_vec(), AX25));
    let outputs = some_rooms(&expected, 0, r);
    decoded(Kind::PlainBack, Reading::Mended, &message, &expected, outputs, tally);
}

/// Some short data and some short message, with outputs of every length from 0 to one more than the answer's.
pub fn every_room(r: &mut Random, tally: &mut Tally) {
    let (command, data) = short(|| data(r), |(_, data)| data.len());
    let expected = answers::encode(command, &data);
    let outputs = all_rooms(&expected, data.len(), r);
    encoded(Kind::Encode, command, &data, &expected, outputs, tally);
    let message = short(|| message(r), Vec::len);
    both_readings(&message, all_rooms, r, tally);
    for _ in 0..3 {
        tally.every_room();
    }
}

/// The message that decodes to the most bytes.
pub fn longest(r: &mut Random, tally: &mut Tally) {
    let message = cases::largest();
    assert_eq!((message.len(), exact(&Reading::Original.decode(&message), 0)), (MAX_MESSAGE, MOST_DECODED));
    both_readings(&message, some_rooms, r, tally);
}

/// The first that is drawn with at most so many bytes.
fn short<T>(mut draw: impl FnMut() -> T, length: impl Fn(&T) -> usize) -> T {
    loop {
        let drawn = draw();
        if length(&drawn) <= SHORT {
            return drawn;
        }
    }
}

const SHORT: usize = 200;

/// The bytes to write with a value beside them, or a refusal.
pub type Expected = Result<(Vec<u8>, u8), u8>;

fn value(expected: &Expected) -> Result<u8, u8> {
    expected.as_ref().map(|&(_, value)| value).map_err(|&refusal| refusal)
}

fn bytes(expected: &Expected) -> Result<&[u8], u8> {
    expected.as_ref().map(|(bytes, _)| &bytes[..]).map_err(|&refusal| refusal)
}

/// How many bytes are to be written; of a refusal, a length.
fn exact(expected: &Expected, length: usize) -> usize {
    expected.as_ref().map_or(length, |(bytes, _)| bytes.len())
}

/// Outputs for what is expected; of a refusal, around a length.
type Rooms = fn(&Expected, usize, &mut Random) -> Vec<Lent>;

/// Outputs that are empty, one byte too short, exact and longer.
fn some_rooms(expected: &Expected, length: usize, r: &mut Random) -> Vec<Lent> {
    let exact = exact(expected, length);
    [0, exact.saturating_sub(1), exact, exact + 1 + r.below(40)].map(|room| Lent::new(r, room)).into()
}

/// Outputs of every length to one more than is written.
fn all_rooms(expected: &Expected, length: usize, r: &mut Random) -> Vec<Lent> {
    (0..=exact(expected, length) + 1).map(|room| Lent::new(r, room)).collect()
}

/// Data coded with these outputs, and whether all is as expected.
pub fn encoded(
    kind: Kind,
    command: u8,
    data: &[u8],
    expected: &Expected,
    outputs: Vec<Lent>,
    tally: &mut Tally,
) -> bool {
    let call = Writing {
        kind,
        input: Input::new(data),
        expected: bytes(expected),
        answer: &|written| Encoded::of(written.and_then(|n| value(expected).map(|aprs_type| (n, aprs_type)))),
        call: &|data, out| xara::encode(command, data, out),
        told: &|| format!("encode {command} {}", to_hex(data)),
    };
    call.compare(outputs, tally)
}

/// A message decoded in one of the readings with these outputs, and whether all is as expected.
pub fn decoded(
    kind: Kind,
    reading: Reading,
    message: &[u8],
    expected: &Expected,
    outputs: Vec<Lent>,
    tally: &mut Tally,
) -> bool {
    let call = Writing {
        kind,
        input: Input::new(message),
        expected: bytes(expected),
        answer: &|written| Decoded::of(written.and_then(|n| value(expected).map(|command| (n, command)))),
        call: &|message, out| reading.call(message, out),
        told: &|| reading.told(message),
    };
    call.compare(outputs, tally)
}
