//! Data coded to messages, and messages decoded.

use crate::{AprsType, Command, MAX_DECODED, MAX_MESSAGE, Refusal, raw, told};
use std::fmt;
use std::ops::Deref;

/// A message, with the type of the data that it was coded from. It reads as the message's bytes.
#[derive(Clone, Copy, Debug, PartialEq, Eq)]
pub struct Buffer<'a> {
    /// The message.
    pub bytes: &'a [u8],
    /// What the data is.
    pub aprs_type: AprsType,
}

impl Deref for Buffer<'_> {
    type Target = [u8];

    fn deref(&self) -> &[u8] {
        self.bytes
    }
}

/// Codes data into a lent output.
///
/// [`MAX_MESSAGE`] bytes are enough for every message. Refuses with [`Refusal::TooLong`], then [`Refusal::Short`],
/// [`Refusal::BadCall`] or [`Refusal::Format`], whichever is met first, then [`Refusal::Output`].
///
/// ```
/// use xara::{Command, Refusal};
///
/// let mut out = [0; 3];
/// assert_eq!(xara::encode(Command::Generic, b"A", &mut out)?.bytes, [0x21, 0x82]);
/// assert_eq!(xara::encode(Command::Generic, b"A", &mut out[..1]), Err(Refusal::Output));
/// # Ok::<(), Refusal>(())
/// ```
pub fn encode<'a>(command: Command, data: &[u8], out: &'a mut [u8]) -> Result<Buffer<'a>, Refusal> {
    let a = raw::xara_encode(command.byte(), data, out);
    told(a.ok, a.refusal, ())?;
    let aprs_type = AprsType::from_code(a.aprs_type).expect("the coder answers a type that there is");
    Ok(Buffer { bytes: &out[..a.length], aprs_type })
}

/// How the calls WIDE1-2, WIDE1-3, WIDE2-2 and WIDE2-3 are read, which are sent in a short form that ends in two bits.
///
/// The receiving side alone chooses: the coder writes the same bits for both, and all other calls are read alike. Both readings
/// refuse the same messages, but for an output that is shorter than the answer, and [`MAX_DECODED`] bytes are enough for both.
///
/// ```
/// use xara::{Decoder, Reading};
///
/// assert_eq!(Reading::default(), Reading::Original);
///
/// // K1A-1 to CQ by WIDE2-2, the last address field: its last byte is 61 and twice the SSID.
/// let message = [0x48, 0x56, 0x5B, 0x80, 0x80, 0x32, 0xE4, 0x10];
/// let ssid = |reading| Decoder::with_reading(reading).decode(&message).map(|(_, data)| (data[20] - 0x61) / 2);
/// assert_eq!(ssid(Reading::Original), Ok(10));
/// assert_eq!(ssid(Reading::Mended), Ok(2));
/// ```
#[derive(Clone, Copy, Debug, Default, PartialEq, Eq, Hash)]
pub enum Reading {
    /// The two bits are two decimal digits, as in the Rust from which this library was ported: these calls come back as
    /// WIDE1-10, WIDE1-11, WIDE2-10 and WIDE2-11.
    #[default]
    Original,
    /// The two bits are a binary number: these calls come back as they were sent.
    Mended,
}

/// Decodes a message into a lent output, in the original reading: the command and the data.
///
/// WIDE1-2, WIDE1-3, WIDE2-2 and WIDE2-3 come back as WIDE1-10, WIDE1-11, WIDE2-10 and WIDE2-11; [`decode_as`] has the choice.
/// [`MAX_DECODED`] bytes are enough for every message. Refuses with [`Refusal::TooLong`], [`Refusal::NotDecoded`],
/// [`Refusal::Output`], in this order.
///
/// ```
/// use xara::{Command, Refusal};
///
/// let mut out = [0; 3];
/// assert_eq!(xara::decode(&[0x21, 0x82], &mut out)?, (Command::Generic, &b"A"[..]));
/// assert_eq!(xara::decode(&[], &mut out), Err(Refusal::NotDecoded));
/// # Ok::<(), Refusal>(())
/// ```
pub fn decode<'a>(message: &[u8], out: &'a mut [u8]) -> Result<(Command, &'a [u8]), Refusal> {
    decode_as(Reading::Original, message, out)
}

/// Decodes a message into a lent output, in this reading: the command and the data.
///
/// [`MAX_DECODED`] bytes are enough for every message. Refuses with [`Refusal::TooLong`], [`Refusal::NotDecoded`],
/// [`Refusal::Output`], in this order; with the first two exactly where the other reading does.
///
/// ```
/// use xara::{Command, Encoder, Reading, Refusal};
///
/// // K1A to CQ by WIDE2-3, and the same by WIDE2-11.
/// let frame = *b"\x86\xA2\x40\x40\x40\x40\x60\x96\x62\x82\x40\x40\x40\x60\xAE\x92\x88\x8A\x64\x40\x67\x03\xF0A";
/// let mut other = frame;
/// other[20] = 0x77;
///
/// let (mut encoder, mut out) = (Encoder::new(), [0; 24]);
/// let message = encoder.encode(Command::Ax25, &frame)?;
/// assert_eq!(xara::decode_as(Reading::Original, &message, &mut out)?, (Command::Ax25, &other[..]));
/// assert_eq!(xara::decode_as(Reading::Mended, &message, &mut out)?, (Command::Ax25, &frame[..]));
///
/// let message = encoder.encode(Command::Ax25, &other)?;
/// assert_eq!(xara::decode_as(Reading::Mended, &message, &mut out)?, (Command::Ax25, &other[..]));
/// # Ok::<(), Refusal>(())
/// ```
pub fn decode_as<'a>(reading: Reading, message: &[u8], out: &'a mut [u8]) -> Result<(Command, &'a [u8]), Refusal> {
    let a = match reading {
        Reading::Original => raw::xara_decode(message, out),
        Reading::Mended => raw::xara_decode_mended(message, out),
    };
    told(a.ok, a.refusal, ())?;
    let command = Command::from_byte(a.command).expect("the decoder answers a command that there is");
    Ok((command, &out[..a.length]))
}

/// What a frame is, before it is coded.
#[derive(Clone, Copy, Debug, PartialEq, Eq)]
pub struct Summary {
    /// The type of its information.
    pub aprs_type: AprsType,
    /// Whether control is that of a UI frame, 000P0011: 03, or 13 where it is polled. The PID is not looked at.
    pub ui: bool,
    /// How many digipeaters it names, up to 8.
    pub digis: usize,
}

/// What a frame is; of generic bytes text, no UI frame, no digipeaters.
///
/// Refuses with [`Refusal::TooLong`], [`Refusal::Short`], in this order.
///
/// ```
/// use xara::{AprsType, Command, Summary};
///
/// let frame = [0x86, 0xA2, 0x40, 0x40, 0x40, 0x40, 0x60, 0x96, 0x62, 0x82, 0x40, 0x40, 0x40, 0x61, 0x03, 0xF0, 0x41];
/// let summary = xara::summary(Command::Ax25, &frame)?;
/// assert_eq!(summary, Summary { aprs_type: AprsType::Text, ui: true, digis: 0 });
///
/// let mut polled = frame;
/// polled[14] = 0x13;
/// assert!(xara::summary(Command::Ax25, &polled)?.ui);
/// polled[14] = 0x93;
/// assert!(!xara::summary(Command::Ax25, &polled)?.ui);
/// # Ok::<(), xara::Refusal>(())
/// ```
pub fn summary(command: Command, data: &[u8]) -> Result<Summary, Refusal> {
    let a = raw::xara_summary(command.byte(), data);
    told(a.ok, a.refusal, ())?;
    let aprs_type = AprsType::from_code(a.aprs_type).expect("the summary answers a type that there is");
    Ok(Summary { aprs_type, ui: a.ui != 0, digis: a.digis })
}

/// Codes data into a buffer of its own, which is large enough for every message.
///
/// ```
/// use xara::{AprsType, Command, Encoder};
///
/// let frame = [0x86, 0xA2, 0x40, 0x40, 0x40, 0x40, 0x60, 0x96, 0x62, 0x82, 0x40, 0x40, 0x40, 0x61, 0x03, 0xF0, 0x41];
/// let mut encoder = Encoder::new();
/// let message = encoder.encode(Command::Ax25, &frame)?;
/// assert_eq!(message[..], [0x40, 0xAC, 0xB7, 0x01, 0x00, 0x10, 0x40]);
/// assert_eq!(message.aprs_type, AprsType::Text);
/// # Ok::<(), xara::Refusal>(())
/// ```
#[derive(Clone)]
pub struct Encoder {
    out: Box<[u8]>,
}

impl Encoder {
    /// A coder with its buffer.
    pub fn new() -> Self {
        Encoder { out: vec![0; MAX_MESSAGE].into() }
    }

    /// The message that data is coded to, until the next call.
    ///
    /// Refuses with [`Refusal::TooLong`], then [`Refusal::Short`], [`Refusal::BadCall`] or [`Refusal::Format`], whichever is
    /// met first.
    pub fn encode(&mut self, command: Command, data: &[u8]) -> Result<Buffer<'_>, Refusal> {
        encode(command, data, &mut self.out)
    }
}

impl Default for Encoder {
    fn default() -> Self {
        Self::new()
    }
}

impl fmt::Debug for Encoder {
    fn fmt(&self, f: &mut fmt::Formatter<'_>) -> fmt::Result {
        f.debug_struct("Encoder").finish_non_exhaustive()
    }
}

/// Decodes messages into a buffer of its own, which is large enough for every one.
///
/// ```
/// use xara::{Command, Decoder};
///
/// let mut decoder = Decoder::new();
/// let (command, data) = decoder.decode(&[0x20, 0x80])?;
/// assert_eq!((command, data), (Command::Generic, &[0x80][..]));
/// # Ok::<(), xara::Refusal>(())
/// ```
#[derive(Clone)]
pub struct Decoder {
    reading: Reading,
    out: Box<[u8]>,
}

impl Decoder {
    /// A decoder with its buffer, in the original reading.
    pub fn new() -> Self {
        Self::with_reading(Reading::Original)
    }

    /// A decoder with its buffer, in this reading.
    ///
    /// ```
    /// use xara::{Decoder, Reading};
    ///
    /// // From K1A, with WIDE2-2 as the addressee of its information.
    /// let message = [0x40, 0xD1, 0x24, 0xC0, 0x2D, 0xC0, 0x40, 0x09, 0x2E, 0xD1, 0xA4];
    /// let mut decoder = Decoder::with_reading(Reading::Mended);
    /// assert!(decoder.decode(&message)?.1.ends_with(b":WIDE2-2  :hi"));
    /// assert!(Decoder::new().decode(&message)?.1.ends_with(b":WIDE2-10 :hi"));
    /// # Ok::<(), xara::Refusal>(())
    /// ```
    pub fn with_reading(reading: Reading) -> Self {
        Decoder { reading, out: vec![0; MAX_DECODED].into() }
    }

    /// The command and the data that a message was coded from, in the reading of this decoder, until the next call.
    ///
    /// Refuses with [`Refusal::TooLong`], [`Refusal::NotDecoded`], in this order.
    pub fn decode(&mut self, message: &[u8]) -> Result<(Command, &[u8]), Refusal> {
        decode_as(self.reading, message, &mut self.out)
    }
}

impl Default for Decoder {
    fn default() -> Self {
        Self::new()
    }
}

impl fmt::Debug for Decoder {
    fn fmt(&self, f: &mut fmt::Formatter<'_>) -> fmt::Result {
        f.debug_struct("Decoder").field("reading", &self.reading).finish_non_exhaustive()
    }
}
