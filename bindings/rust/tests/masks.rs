//! The seven masks: their bytes, what is sent under each, and which bits of the check byte its receiver looks at.

use xara::{Heard, Mask, Reassembler, Refusal};

/// Each mask with its byte, its check bits and the most fragments of a message that is sent under it.
const MASKS: [(Mask, u8, u32, usize); 7] = [
    (Mask::Bits1, 0x80, 1, 129),
    (Mask::Bits2, 0xC0, 2, 65),
    (Mask::Bits3, 0xE0, 3, 33),
    (Mask::Hf, 0xF0, 4, 17),
    (Mask::Fm, 0xF8, 5, 9),
    (Mask::Bits6, 0xFC, 6, 5),
    (Mask::Bits7, 0xFE, 7, 3),
];

#[test]
fn bytes_and_check_bits() {
    assert_eq!(Mask::ALL, MASKS.map(|(mask, ..)| mask));
    for (mask, byte, bits, most) in MASKS {
        assert_eq!((mask.byte(), mask.bits(), mask.max_fragments()), (byte, bits, most));
        assert_eq!((Mask::try_from(byte), Mask::with_bits(bits)), (Ok(mask), Some(mask)));
    }
}

#[test]
fn every_other_byte_is_refused() {
    for byte in (0..=255).filter(|byte| MASKS.iter().all(|mask| mask.1 != *byte)) {
        assert_eq!((Mask::from_byte(byte), Mask::try_from(byte)), (None, Err(Refusal::Mask)), "{byte:02X}");
        assert_eq!(Reassembler::with_crc_mask(byte).err(), Some(Refusal::Mask), "{byte:02X}");
    }
    assert_eq!([0, 8, 9, 0x104, u32::MAX].map(Mask::with_bits), [None; 5]);
}

/// All fragments of document 01's message.
fn sent(field: usize, mask: Mask) -> Result<Vec<Vec<u8>>, Refusal> {
    let message = [0x40, 0xAC, 0xB7, 0x01, 0x00, 0x10, 0x40];
    xara::fragments(&message, field, mask).map(|all| all.map(|fragment| fragment.to_vec()).collect())
}

#[test]
fn worked_examples_at_field_5() {
    let firsts = [
        (Mask::Bits1, [0xC0, 0x00, 0xAC, 0xB7, 0x01]),
        (Mask::Bits2, [0xC0, 0x40, 0xAC, 0xB7, 0x01]),
        (Mask::Bits3, [0xC0, 0x40, 0xAC, 0xB7, 0x01]),
        (Mask::Hf, [0xC0, 0x40, 0xAC, 0xB7, 0x01]),
        (Mask::Fm, [0xC0, 0x48, 0xAC, 0xB7, 0x01]),
        (Mask::Bits6, [0xC0, 0x4C, 0xAC, 0xB7, 0x01]),
        (Mask::Bits7, [0xC0, 0x4C, 0xAC, 0xB7, 0x01]),
    ];
    for (mask, first) in firsts {
        assert_eq!(sent(5, mask), Ok(vec![first.to_vec(), vec![0x40, 0x00, 0x10, 0x40]]), "{mask:?}");
    }
}

#[test]
fn worked_examples_at_field_3() {
    let firsts = [
        (Mask::Bits1, [0xC0, 0x02, 0xAC]),
        (Mask::Bits2, [0xC0, 0x42, 0xAC]),
        (Mask::Bits3, [0xC0, 0x42, 0xAC]),
        (Mask::Hf, [0xC0, 0x42, 0xAC]),
        (Mask::Fm, [0xC0, 0x4A, 0xAC]),
        (Mask::Bits6, [0xC0, 0x4E, 0xAC]),
    ];
    for (mask, first) in firsts {
        let all = [&first[..], &[0xC0, 0xB7, 0x01], &[0xC0, 0x00, 0x10], &[0x40, 0x40]];
        assert_eq!(sent(3, mask), Ok(all.map(<[u8]>::to_vec).to_vec()), "{mask:?}");
    }
    assert_eq!(sent(3, Mask::Bits7), Err(Refusal::Count));
}

/// Each count that a mask leaves room for: count - 2 in the free bits of the check byte, and the CRC's high byte under the mask.
#[test]
fn check_bytes() {
    for (mask, byte, _, most) in MASKS {
        for (count, seed) in (2..=most).flat_map(|count| (0..32).map(move |seed| (count, seed))) {
            let message: Vec<u8> = (0..2 * count).map(|i| (i * 37 + seed) as u8 & 0x7F).collect();
            let first = xara::fragments(&message, 3, mask).expect("accepted").get(0).expect("the first of several");
            let high = (xara::crc16_genibus(&message) >> 8) as u8;
            assert_eq!(first[1], (count - 2) as u8 | high & byte, "{count} under {mask:?}");
        }
    }
}

/// A bit of the check byte that is wrong is found where it is one of the mask's, and nowhere else.
#[test]
fn bits_that_are_checked() {
    for (mask, byte, _, most) in MASKS {
        let message: Vec<u8> = (0..2 * most).map(|i| i as u8 & 0x7F).collect();
        let mut all: Vec<Vec<u8>> =
            xara::fragments(&message, 3, mask).expect("accepted").map(|fragment| fragment.to_vec()).collect();
        let last = all.pop().expect("several fragments");
        for bit in [1, 2, 4, 8, 0x10, 0x20, 0x40, 0x80] {
            let mut receiver = Reassembler::new(mask);
            all[0][1] ^= bit;
            for fragment in &all {
                assert_eq!(receiver.join(fragment, 3), Ok(Heard::More), "{mask:?}");
            }
            let said = if byte & bit == 0 { Heard::Done(&message[..]) } else { Heard::Dropped };
            assert_eq!(receiver.join(&last, 3), Ok(said), "{bit:02X} under {mask:?}");
            all[0][1] ^= bit;
        }
    }
}

/// A receiver takes 255 fragments under every mask, more than any sender's message has, and drops a message of one more.
#[test]
fn fragments_that_are_heard() {
    let message = [0x40; 257];
    for (mask, byte, ..) in MASKS {
        for (count, said) in [(255, Heard::Done(&message[..256])), (256, Heard::Dropped)] {
            let check = (xara::crc16_genibus(&message[..count + 1]) >> 8) as u8 & byte;
            let mut receiver = Reassembler::new(mask);
            assert_eq!(receiver.join(&[0xC0, check, 0x40], 3), Ok(Heard::More));
            for _ in 2..count {
                let next = receiver.join(&[0xC0, 0x40], 2);
                assert_eq!(next, Ok(Heard::More), "{mask:?}");
            }
            assert_eq!(receiver.join(&[0x40, 0x40], 2), Ok(said), "{count} under {mask:?}");
        }
    }
}

/// What is written of lost frames, in xara.h, in this crate and in README.md, is what the example prints.
#[test]
fn figures_of_lost_frames() {
    let printed =
        include_str!("../examples/lost.stdout").lines().filter_map(|line| line.split_once("middle frame lost "));
    let printed: Vec<&str> = printed.filter_map(|(_, rest)| rest.split(' ').next()).collect();
    assert_eq!(printed.len(), MASKS.len());
    let texts =
        [include_str!("../../include/xara.h"), include_str!("../src/lib.rs"), include_str!("../../../README.md")];
    for text in texts {
        let (_, rest) = text.split_once("still done").expect("a line of figures");
        let line = rest.lines().next().expect("the rest of the line").replace(',', "");
        let figures: Vec<&str> = line.split([' ', '|']).filter(|figure| !figure.is_empty()).collect();
        assert_eq!(figures, printed);
    }
}
