//! The answers of the unmodified source in the terms of document 01: values, or the number of a refusal.

pub mod bits;
pub mod cases;
pub mod frames;
pub mod hex;
pub mod kept;
pub mod messages;
pub mod random;
mod receiver;
pub mod white;

pub use receiver::{Answer, Receiver, State};

use std::ops::RangeInclusive;
use xara_arq::ax25;
use xara_arq::kiss::{self, Command};
use xara_phy::crc::crc16_genibus;
use xara_phy::hf::frame::{Control, build_frame};

/// The most bytes of data to code.
pub const MAX_DATA: usize = 4_999;
/// The most bytes of a message.
pub const MAX_MESSAGE: usize = 5_000;
/// The field sizes of the domain.
pub const FIELDS: RangeInclusive<usize> = 3..=512;

/// The refusals of document 01 that the source has an answer for.
pub const BAD_COMMAND: u8 = 1;
pub const TOO_LONG: u8 = 2;
pub const SHORT: u8 = 3;
pub const BAD_CALL: u8 = 4;
pub const FORMAT: u8 = 5;
pub const UNDECODABLE: u8 = 7;
pub const BAD_FIELD: u8 = 8;

/// Control of a UI frame is 000P0011 (AX.25 2.2): that byte without P, and P.
const UI: u8 = 0x03;
const POLL: u8 = 0x10;

/// Codes data: the message and its type's code.
pub fn encode(command: u8, data: &[u8]) -> Result<(Vec<u8>, u8), u8> {
    let command = accepted(command, data)?;
    let buffer = kiss::encode(command, data).map_err(coder_refusal)?;
    Ok((buffer.bytes, buffer.aprs_type.code()))
}

/// Decodes a message: the command and the data.
pub fn decode(message: &[u8]) -> Result<(u8, Vec<u8>), u8> {
    if message.len() > MAX_MESSAGE {
        return Err(TOO_LONG);
    }
    let (command, data) = kiss::decode(message).ok_or(UNDECODABLE)?;
    Ok((command.byte(), data))
}

/// The summary of data to code: type, number of digipeaters, and whether control is 03 or 13.
pub fn summary(command: u8, data: &[u8]) -> Result<(u8, usize, bool), u8> {
    let command = accepted(command, data)?;
    if command == Command::Generic {
        return Ok((ax25::AprsType::Text.code(), 0, false));
    }
    let record = ax25::parse(data, command).map_err(ax25_refusal)?;
    Ok((record.aprs_type.code(), record.digis.len(), record.ctrl & !POLL == UI))
}

/// CRC-16/GENIBUS.
pub fn crc(data: &[u8]) -> u16 {
    crc16_genibus(data)
}

/// The number of fragments of a message with so many bytes.
pub fn count(total: usize, field: usize) -> Result<usize, u8> {
    if !FIELDS.contains(&field) {
        return Err(BAD_FIELD);
    }
    if total > MAX_MESSAGE {
        return Err(TOO_LONG);
    }
    Ok(kiss::count_for_field(total, field))
}

/// All fragments of a message, with the source's count; field is 3 or more.
pub fn split(message: &[u8], field: usize, mask: u8) -> Vec<Vec<u8>> {
    kiss::split_masked(message, kiss::count_for_field(message.len(), field), field, mask)
}

/// The frame of a fragment, with no last byte.
pub fn frame(field: usize, data: &[u8], reply: u8, compressed: bool, hint: u8, marker: u8) -> Vec<u8> {
    build_frame(field + 3, data, Control { reply, compressed, hint }, None, marker)
}

/// The masks that a sender and a receiver take: "The mask may be the top 1 to 7 bits of the byte." (02, E11)
pub const MASKS: [u8; 7] = [0x80, 0xC0, 0xE0, 0xF0, 0xF8, 0xFC, 0xFE];

/// The most fragments under a mask: "With w check bits the sender accepts counts to 2^(8 − w) + 1." (02, E11)
pub fn most(mask: u8) -> usize {
    let w = mask.count_ones();
    2usize.pow(8 - w) + 1
}

/// All fragments that the sender hands out, or the first of document 01's refusals before 13: 8, 9, 10, 2, 11, 12.
pub fn sent(message: &[u8], field: usize, mask: u8) -> Result<Vec<Vec<u8>>, u8> {
    if !FIELDS.contains(&field) {
        return Err(BAD_FIELD);
    }
    if !MASKS.contains(&mask) {
        return Err(9);
    }
    let &first = message.first().ok_or(10)?;
    let count = count(message.len(), field)?;
    if first >= 0x80 {
        return Err(11);
    }
    if count > most(mask) {
        return Err(12);
    }
    Ok(split(message, field, mask))
}

/// The price of data before they are coded and sent: the length of the message and the number of its fragments (02, E3). The
/// message and the fragments are made for that. The coder's refusals come first, then the sender's 8, 9 and 12: no coded message is empty, too long or has a
/// first byte of 80 or more.
pub fn preview(command: u8, data: &[u8], field: usize, mask: u8) -> Result<(usize, usize), u8> {
    let (message, _) = encode(command, data)?;
    let fragments = sent(&message, field, mask)?;
    Ok((message.len(), fragments.len()))
}

/// The frame of a fragment, or the first of document 01's refusals before 6: 8, 14, 15, 16.
pub fn framed(field: usize, data: &[u8], reply: u8, compressed: bool, hint: u8, marker: u8) -> Result<Vec<u8>, u8> {
    if !FIELDS.contains(&field) {
        return Err(BAD_FIELD);
    }
    if data.is_empty() || data.len() > field {
        return Err(14);
    }
    if marker == 0x14 {
        return Err(15);
    }
    if reply > 3 || hint > 7 {
        return Err(16);
    }
    Ok(frame(field, data, reply, compressed, hint, marker))
}

/// The command, where it and the length of the data are accepted.
fn accepted(command: u8, data: &[u8]) -> Result<Command, u8> {
    let command = Command::from_byte(command).ok_or(BAD_COMMAND)?;
    if data.len() > MAX_DATA { Err(TOO_LONG) } else { Ok(command) }
}

fn coder_refusal(error: kiss::Error) -> u8 {
    match error {
        kiss::Error::Ax25(error) => ax25_refusal(error),
        kiss::Error::TooLong => unreachable!("only the source's own choice of a level answers this"),
    }
}

fn ax25_refusal(error: ax25::Error) -> u8 {
    match error {
        ax25::Error::Short => SHORT,
        ax25::Error::BadCall(_) => BAD_CALL,
        ax25::Error::Format => FORMAT,
    }
}
