//! The preview by document 02's words: "coded length, fragment count or the refusal number for a command, data, field and mask. The
//! preview equals coding, then sending, a copy into buffers that are large enough, so a refusal by the coder comes first" (E3). The
//! length and the count are the source's own; the limits and their order are document 01's, the masks those of document 02 (E11).

use xara_arq::ax25;
use xara_arq::kiss::{self, Command, Error};

/// The coded length and the fragment count, or a refusal.
pub fn preview(command: u8, data: &[u8], field: usize, mask: u8) -> Result<(usize, usize), u8> {
    let message = coded(command, data)?;
    let count = sent(&message, field, mask)?;
    Ok((message.len(), count))
}

/// "Coder 1, 2, then the source's first error, 6", and 6 is for a buffer that is not large enough.
fn coded(command: u8, data: &[u8]) -> Result<Vec<u8>, u8> {
    let command = match command {
        0 => Command::Ax25,
        1 => Command::Ax25Long,
        2 => Command::Generic,
        _ => return Err(1),
    };
    if data.len() > 4_999 {
        return Err(2);
    }
    kiss::encode(command, data).map(|buffer| buffer.bytes).map_err(|error| match error {
        Error::Ax25(ax25::Error::Short) => 3,
        Error::Ax25(ax25::Error::BadCall(_)) => 4,
        Error::Ax25(ax25::Error::Format) => 5,
        Error::TooLong => unreachable!("the source's own choice of a level answers this, and no coding"),
    })
}

/// "Sender 8, 9, 10, 2, 11, 12, 13, 6." A coded message has 1 to 5,000 bytes and a first one below 80, so 10, 2 and 11 are never
/// true; its first fragment is there, so 13 is not; and 6 is for a buffer that is not large enough.
fn sent(message: &[u8], field: usize, mask: u8) -> Result<usize, u8> {
    assert!(message.len() <= 5_000 && message[0] < 0x80, "the coder writes what the sender takes");
    if !(3..=512).contains(&field) {
        return Err(8);
    }
    let w = check_bits(mask).ok_or(9)?;
    let count = kiss::count_for_field(message.len(), field);
    assert_eq!(kiss::split_masked(message, count, field, mask).len(), count, "the source counts its fragments");
    // "With w check bits the sender accepts counts to 2^(8 − w) + 1."
    if count > (1 << (8 - w)) + 1 { Err(12) } else { Ok(count) }
}

/// "The mask may be the top 1 to 7 bits of the byte": how many.
fn check_bits(mask: u8) -> Option<u32> {
    let ones = mask.leading_ones();
    ((1..=7).contains(&ones) && mask.count_ones() == ones).then_some(ones)
}

#[cfg(test)]
mod tests {
    use super::*;
    use crate::previews::{BAD_CALL, PLAIN};

    #[test]
    fn seven_masks() {
        let masks: Vec<u8> = (0..=255).filter(|&mask| check_bits(mask).is_some()).collect();
        assert_eq!(masks, [0x80, 0xC0, 0xE0, 0xF0, 0xF8, 0xFC, 0xFE]);
    }

    #[test]
    fn prices() {
        assert_eq!(preview(0, &PLAIN, 5, 0xF0), Ok((7, 2)));
        assert_eq!(preview(2, &[], 3, 0xF0), Ok((2, 1)));
        assert_eq!(preview(2, &[0x80; 33], 3, 0xF0), Ok((34, 17)));
        assert_eq!(preview(2, &[0x80; 17], 3, 0xF8), Ok((18, 9)));
        assert_eq!(preview(2, &[0x80; 4_999], 512, 0xF0), Ok((5_000, 10)));
        assert_eq!(preview(2, &[0x41; 4_999], 512, 0xF0), Ok((4_376, 9)));
    }

    #[test]
    fn refusals_in_order() {
        assert_eq!(preview(3, &[0x80; 5_000], 2, 0x00), Err(1));
        assert_eq!(preview(2, &[0x80; 5_000], 2, 0x00), Err(2));
        assert_eq!(preview(0, &PLAIN[..10], 2, 0x00), Err(3));
        assert_eq!(preview(0, &BAD_CALL, 513, 0xF1), Err(4));
        assert_eq!(preview(0, &PLAIN, 2, 0x00), Err(8));
        assert_eq!(preview(0, &PLAIN, 513, 0x00), Err(8));
        assert_eq!(preview(0, &PLAIN, 3, 0x00), Err(9));
        assert_eq!(preview(2, &[0x80; 34], 3, 0xF1), Err(9));
        assert_eq!(preview(2, &[0x80; 34], 3, 0xF0), Err(12));
        assert_eq!(preview(2, &[0x80; 18], 3, 0xF8), Err(12));
    }
}
