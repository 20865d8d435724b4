//! Every output length from 0 to one more than the answer, with bytes around it that must stay.

mod common;

use common::{SENTINEL, packed, rooms};
use xara::{Command, Control, Mask, Reading, Refusal};

/// Document 01's frame, its message, and what is sent of it at field 5.
const FRAME: [u8; 17] =
    [0x86, 0xA2, 0x40, 0x40, 0x40, 0x40, 0x60, 0x96, 0x62, 0x82, 0x40, 0x40, 0x40, 0x61, 0x03, 0xF0, 0x41];
const MESSAGE: [u8; 7] = [0x40, 0xAC, 0xB7, 0x01, 0x00, 0x10, 0x40];
const FRAGMENTS: [&[u8]; 2] = [&[0xC0, 0x40, 0xAC, 0xB7, 0x01], &[0x40, 0x00, 0x10, 0x40]];
const FRAMES: [[u8; 8]; 2] =
    [[0xC0, 0x40, 0xAC, 0xB7, 0x01, 0x01, 0xA3, 0x8C], [0x40, 0x00, 0x10, 0x40, 0x14, 0x00, 0x52, 0x42]];

#[test]
fn encode() {
    rooms(&MESSAGE, |out| xara::encode(Command::Ax25, &FRAME, out).map(|a| a.to_vec()));
    for (data, message) in
        [(&b""[..], [0x21, 0xFF]), (b"A", [0x21, 0x82]), (b"B", [0x21, 0x85]), (&[0x80], [0x20, 0x80])]
    {
        rooms(&message, |out| xara::encode(Command::Generic, data, out).map(|a| a.to_vec()));
    }
}

#[test]
fn encode_the_longest() {
    let data: Vec<u8> = (0..xara::MAX_DATA).map(|i| i as u8).collect();
    let message = [&[0x20], &data[..]].concat();
    let mut out = vec![SENTINEL; message.len()];
    assert_eq!(xara::encode(Command::Generic, &data, &mut out[..message.len() - 1]), Err(Refusal::Output));
    assert_eq!(out, vec![SENTINEL; message.len()]);
    assert_eq!(xara::encode(Command::Generic, &data, &mut out).map(|a| a.bytes), Ok(&message[..]));
    assert_eq!(xara::Encoder::new().encode(Command::Generic, &data).map(|a| a.to_vec()), Ok(message));
}

#[test]
fn decode() {
    let long: Vec<u8> = (0..300).map(|i| i as u8).collect();
    let message = [&[0x20], &long[..]].concat();
    for (data, message) in [(&FRAME[..], &MESSAGE[..]), (b"", &[0x21]), (&long, &message)] {
        rooms(data, |out| xara::decode(message, out).map(|(_, data)| data.to_vec()));
        rooms(data, |out| xara::decode_as(Reading::Mended, message, out).map(|(_, data)| data.to_vec()));
    }
}

#[test]
fn fragment() {
    for (k, answer) in FRAGMENTS.into_iter().enumerate() {
        rooms(answer, |out| xara::fragment(&MESSAGE, 5, Mask::Hf, k, out).map(<[u8]>::to_vec));
    }
    for mask in Mask::ALL {
        rooms(&MESSAGE, |out| xara::fragment(&MESSAGE, 7, mask, 0, out).map(<[u8]>::to_vec));
    }
}

#[test]
fn build_frame() {
    for (fragment, answer) in FRAGMENTS.into_iter().zip(&FRAMES) {
        rooms(answer, |out| xara::build_frame(5, fragment, Control::default(), 0x01, out).map(<[u8]>::to_vec));
    }
}

/// The most that a message decodes to fits. In the mended reading this message decodes to a byte less: it has a call WIDE2-3,
/// which the original reading takes for WIDE2-11.
#[test]
fn decode_the_longest() {
    let message = longest();
    assert_eq!(message.len(), xara::MAX_MESSAGE);
    for (reading, length) in [(Reading::Original, xara::MAX_DECODED), (Reading::Mended, xara::MAX_DECODED - 1)] {
        let mut out = vec![SENTINEL; length + 1];
        assert_eq!(xara::decode_as(reading, &message, &mut out[..length - 1]), Err(Refusal::Output));
        assert_eq!(out, vec![SENTINEL; length + 1]);
        let (command, data) = xara::decode_as(reading, &message, &mut out).expect("the message is decoded");
        assert_eq!((command, data.len()), (Command::Ax25Long, length));
        assert_eq!(out[length], SENTINEL);
        assert_eq!(xara::Decoder::with_reading(reading).decode(&message), Ok((command, &out[..length])));
    }
}

/// A third party's message whose text is the longest word of the dictionary again and again, after calls that take 6 bits each,
/// but for one of 9 bits, WIDE2-3: with it a single bit is left over.
fn longest() -> Vec<u8> {
    let (call, wide) = ("101111", "100101111");
    let addresses = format!("{:08b}{call}{call}1001", 0);
    let mut bits = format!("{addresses}110{wide}{call}{call}10{call}");
    while bits.len() + 7 <= 8 * (xara::MAX_MESSAGE - 1) {
        bits += "0000011";
    }
    // a long frame with eight digipeaters, control 03 and PID F0
    packed(0x5F, &bits)
}
