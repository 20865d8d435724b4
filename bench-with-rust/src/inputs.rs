//! The inputs, the same on every run.

/// A small generator (xorshift64*).
pub struct Random(u64);

impl Random {
    pub fn new() -> Self {
        Random(0x9E37_79B9_7F4A_7C15)
    }

    fn number(&mut self) -> u64 {
        self.0 ^= self.0 >> 12;
        self.0 ^= self.0 << 25;
        self.0 ^= self.0 >> 27;
        self.0.wrapping_mul(0x2545_F491_4F6C_DD1D)
    }

    /// So many bytes from a range of values.
    fn between(&mut self, low: u8, high: u8, n: usize) -> Vec<u8> {
        let width = u64::from(high - low) + 1;
        (0..n).map(|_| low + (((self.number() >> 32) * width) >> 32) as u8).collect()
    }

    /// Any bytes.
    pub fn bytes(&mut self, n: usize) -> Vec<u8> {
        self.between(0x00, 0xFF, n)
    }

    /// Printable text.
    pub fn text(&mut self, n: usize) -> Vec<u8> {
        self.between(0x20, 0x7E, n)
    }
}

/// A call in an address field; the last one ends the list.
fn address(call: &[u8; 6], ssid: u8, last: bool) -> Vec<u8> {
    let mut field: Vec<u8> = call.iter().map(|c| c << 1).collect();
    field.push(0x60 | ssid << 1 | u8::from(last));
    field
}

/// The addresses, control 03 and PID F0 of a frame without digipeaters.
fn header() -> Vec<u8> {
    let mut frame = address(b"APRS  ", 0, false);
    frame.extend(address(b"DL1ABC", 9, true));
    frame.extend([0x03, 0xF0]);
    frame
}

/// The addresses, control 03 and PID F0 of a frame over these digipeaters.
pub fn addressed(digis: &[([u8; 6], u8)]) -> Vec<u8> {
    let fields = digis.iter().zip(1..).flat_map(|((call, ssid), k)| address(call, *ssid, k == digis.len()));
    let ends = [address(b"APRS  ", 0, false), address(b"DL1ABC", 9, digis.is_empty())].concat();
    [ends, fields.collect(), vec![0x03, 0xF0]].concat()
}

/// So many digipeaters, as stations name them.
pub fn path(digis: usize) -> Vec<([u8; 6], u8)> {
    let calls = [b"DB0XYZ", b"WIDE1 ", b"WIDE2 ", b"DB0AAT", b"DL3ABC", b"K2B   ", b"DB0ZAV", b"OE9XPI"];
    calls.into_iter().copied().zip([2, 1, 2, 7, 0, 1, 15, 3]).take(digis).collect()
}

/// The words of ordinary comments. One in twenty stands in the coder's dictionary, and some start as one of those does.
const WORDS: [&[u8]; 40] = [
    b"on",
    b"the",
    b"way",
    b"to",
    b"relay",
    b"hill",
    b"mast",
    b"moved",
    b"north",
    b"gate",
    b"battery",
    b"again",
    b"at",
    b"and",
    b"Parking",
    b"145.500MHz",
    b"QRV",
    b"a",
    b"pager",
    b"73",
    b"de",
    b"solar",
    b"panel",
    b"new",
    b"antenna",
    b"height",
    b"12.4V",
    b"temp",
    b"22C",
    b"wind",
    b"from",
    b"west",
    b"open",
    b"until",
    b"Sunday",
    b"listen",
    b"here",
    b"via",
    b"VARA",
    b"Digi",
];

/// The words of the dictionary, but for that of an altitude.
pub const DICTIONARY: [&[u8]; 8] = [b"VARA", b"PinPoint", b"HF ", b"ack", b"APRS", b"ping{", b"Digi", b"Gate"];

/// The words of comments with many words of the dictionary: five of these 24 stand there.
pub const MIXED: [&[u8]; 24] = [
    b"on",
    b"the",
    b"way",
    b"to",
    b"relay",
    b"hill",
    b"moved",
    b"north",
    b"battery",
    b"again",
    b"at",
    b"and",
    b"145.500MHz",
    b"73",
    b"de",
    b"antenna",
    b"12.4V",
    b"wind",
    b"via",
    b"VARA",
    b"Digi",
    b"APRS",
    b"Gate",
    b"ack",
];

/// An ordinary comment of so many bytes.
pub fn comment(r: &mut Random, n: usize) -> Vec<u8> {
    words(r, &WORDS, n)
}

/// So many bytes of these words, a blank after each.
pub fn words(r: &mut Random, list: &[&[u8]], n: usize) -> Vec<u8> {
    let mut text = Vec::new();
    while text.len() < n {
        text.extend(list[r.between(0, list.len() as u8 - 1, 1)[0] as usize]);
        text.push(b' ');
    }
    text.truncate(n);
    text
}

/// A status report, coded as Text.
pub fn text_frame(r: &mut Random, length: usize) -> Vec<u8> {
    let mut frame = header();
    frame.push(b'>');
    frame.extend(r.text(length - frame.len()));
    frame
}

/// A frame without digipeaters, polled: control 13.
pub fn polled(mut frame: Vec<u8>) -> Vec<u8> {
    frame[14] |= 0x10;
    frame
}

/// A frame without digipeaters and with this information.
pub fn frame_with(information: &[u8]) -> Vec<u8> {
    [&header()[..], information].concat()
}

/// A call as stations have them: one or two letters, a digit and one to three letters, with blanks up to six.
pub fn station(r: &mut Random) -> [u8; 6] {
    let lengths = r.between(0, 5, 1)[0] as usize;
    let (before, after) = (1 + lengths % 2, 1 + lengths / 2);
    let mut call = [r.between(b'A', b'Z', before), r.between(b'0', b'9', 1), r.between(b'A', b'Z', after)].concat();
    call.resize(6, b' ');
    std::array::from_fn(|k| call[k])
}

/// A status report of 80 bytes through digipeaters with these calls.
pub fn digipeated_frame(calls: &[[u8; 6]; 8]) -> Vec<u8> {
    let numbered = (1..=8).zip(calls);
    let digis: Vec<u8> = numbered.flat_map(|(ssid, call)| address(call, ssid, ssid == 8)).collect();
    [&address(b"APRS  ", 0, false)[..], &address(b"DL1ABC", 9, false), &digis, &[0x03, 0xF0], b">hello!!"].concat()
}

/// A status report through the digipeaters WIDE1-1 and WIDE2-2, as cars send it.
pub fn wide_frame() -> Vec<u8> {
    let digis = [address(b"WIDE1 ", 1, false), address(b"WIDE2 ", 2, true)].concat();
    let ends = [address(b"APRS  ", 0, false), address(b"DL1ABC", 9, false)].concat();
    [&ends[..], &digis, &[0x03, 0xF0], b">on the way to the relay on the hill"].concat()
}

/// The same frame with an underscore, which has no code, as the second letter of address k.
pub fn bad_letter(mut frame: Vec<u8>, k: usize) -> Vec<u8> {
    frame[7 * k + 1] = b'_' << 1;
    frame
}

/// A status report of a long frame, with calls of seven letters.
pub fn long_frame() -> Vec<u8> {
    let address = |call: &[u8; 7], ssid: u8| call.iter().map(|c| c << 1).chain([ssid]).collect::<Vec<u8>>();
    [&address(b"APRS   ", 0x60)[..], &address(b"DL1ABCD", 0x73), &[0x03, 0xF0], b">on the way to the relay on the hill"]
        .concat()
}

/// A frame of any bytes, coded as Binary.
pub fn binary_frame(r: &mut Random, length: usize) -> Vec<u8> {
    let mut frame = header();
    frame.push(0x80);
    frame.extend(r.bytes(length - frame.len()));
    frame
}

/// A position report of 60 bytes with a digipeater, an altitude and a comment.
pub fn position_frame() -> Vec<u8> {
    let mut frame = address(b"APRS  ", 0, false);
    frame.extend(address(b"DL1ABC", 9, false));
    frame.extend(address(b"WIDE1 ", 1, true));
    frame.extend([0x03, 0xF0]);
    frame.extend(b"!4903.50N/00723.75E>/A=001234 VARA HF");
    frame
}

/// A message to send, with a first byte below 80.
pub fn message(r: &mut Random, length: usize) -> Vec<u8> {
    let mut bytes = r.bytes(length);
    bytes[0] &= 0x7F;
    bytes
}
