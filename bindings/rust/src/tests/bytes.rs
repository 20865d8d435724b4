//! Commands, masks and flags that are any byte.

use crate::raw::{self, XaraControl, XaraKeeping, XaraKept, XaraPushed, XaraReceiver, XaraSlot, XaraTallies};
use crate::{Cause, Command, KEPT_STORE, Mask, RX_BUFFER, Refusal};

/// A receiver that holds nothing and has counted nothing.
const ZEROS: XaraReceiver = XaraReceiver {
    held: 0,
    nfrag: 0,
    count: 0,
    crc_mask: 0,
    overflow: 0,
    tallies: XaraTallies {
        offered: 0,
        more: 0,
        done: 0,
        wrong_length: 0,
        no_fragment: 0,
        overflow: 0,
        limit: 0,
        check: 0,
    },
};

/// Every field of an answer.
fn shown(a: XaraPushed) -> (u8, u8, u8, usize, XaraReceiver) {
    (a.kind, a.refusal, a.cause, a.length, a.receiver)
}

/// A receiver with one more that was dropped in overflow.
fn dropped_in_overflow(receiver: XaraReceiver, overflow: u8) -> XaraReceiver {
    let XaraTallies { offered, overflow: dropped, .. } = receiver.tallies;
    let tallies = XaraTallies { offered: offered + 1, overflow: dropped + 1, ..receiver.tallies };
    XaraReceiver { overflow, tallies, ..receiver }
}

#[test]
fn every_other_command_is_refused() {
    let mut out = [0xA5; 10];
    for command in (0..=255).filter(|&b| Command::from_byte(b).is_none()) {
        let a = raw::xara_encode(command, b"A", &mut out);
        assert_eq!((a.ok, a.refusal, a.aprs_type, a.length), (0, 1, 0, 0));
        let a = raw::xara_summary(command, b"A");
        assert_eq!((a.ok, a.refusal, a.aprs_type, a.ui, a.digis), (0, 1, 0, 0, 0));
        for (data, field, mask) in [(&[0x41][..], 5, 0xF0), (b"A", 2, 0), (&[0; 5000], 2, 0)] {
            let a = raw::xara_preview(command, data, field, mask);
            assert_eq!((a.ok, a.refusal, a.length, a.count), (0, 1, 0, 0));
        }
    }
    assert_eq!(out, [0xA5; 10]);
}

/// Previews under a mask that there is not: what the coder refuses comes first, then the field, and the count after the mask.
const PREVIEWS: [(u8, &[u8], usize, u8); 7] = [
    (2, &[0x80; 5000], 5, 2),
    (0, &[0x80; 15], 2, 3),
    (0, b"\x86\xA2\x40\x40\x40\x40\x60\xD6\xBE\x62\x40\x40\x40\x61\x03\xF0A", 513, 4),
    (2, b"A", 2, 8),
    (2, b"A", 513, 8),
    (2, b"A", 5, 9),
    (2, &[0x80; 4999], 3, 9),
];

#[test]
fn every_other_mask_is_refused() {
    let (mut out, mut store) = ([0xA5; 10], [0xA5; RX_BUFFER]);
    for crc_mask in (0..=255).filter(|&b| Mask::from_byte(b).is_none()) {
        for (message, field, refusal) in [(&b""[..], 2, 8), (b"", 5, 9), (b"A", 5, 9)] {
            let a = raw::xara_fragment(message, field, crc_mask, 0, &mut out);
            assert_eq!((a.ok, a.refusal, a.value), (0, refusal, 0));
        }
        for (command, data, field, refusal) in PREVIEWS {
            let a = raw::xara_preview(command, data, field, crc_mask);
            assert_eq!((a.ok, a.refusal, a.length, a.count), (0, refusal, 0, 0));
        }
        let a = raw::xara_receiver_new(crc_mask);
        assert_eq!((a.ok, a.refusal, a.receiver), (0, 9, ZEROS));
        let state = XaraReceiver { held: 3, nfrag: 1, count: 2, crc_mask, overflow: 7, ..ZEROS };
        assert_eq!(shown(raw::xara_receiver_join(state, &mut store, b"A", 1)), (0, 9, 0, 0, state));
        assert_eq!(shown(raw::xara_receiver_push(state, &mut store, b"A", 1)), (0, 9, 0, 0, state));
    }
    assert_eq!((out, store), ([0xA5; 10], [0xA5; RX_BUFFER]));
}

#[test]
fn masks_are_taken() {
    for mask in Mask::ALL {
        let a = raw::xara_receiver_new(mask.byte());
        assert_eq!((a.ok, a.refusal, a.receiver), (1, 0, XaraReceiver { crc_mask: mask.byte(), ..ZEROS }));
        let a = raw::xara_preview(2, &[0x80; 4], 3, mask.byte());
        assert_eq!((a.ok, a.refusal, a.length, a.count), (1, 0, 5, 3));
        let a = raw::xara_preview(2, &[0x80; 4999], 3, mask.byte());
        assert_eq!((a.ok, a.refusal, a.length, a.count), (0, 12, 0, 0));
    }
}

/// Any byte but 0 is compressed: bit 20 of the control byte.
#[test]
fn every_byte_is_a_flag_of_control() {
    for compressed in 0..=255 {
        let mut out = [0; 8];
        let a = raw::xara_build_frame(5, b"ABCDE", XaraControl { reply: 2, compressed, hint: 5 }, 0, &mut out);
        assert_eq!((a.ok, a.refusal, a.value), (1, 0, 8));
        assert_eq!(out[5], 0x80 | if compressed == 0 { 0 } else { 0x20 } | 5 << 2 | 1);
    }
}

/// Any byte but 0 is an overflow, with whatever else the state has: only a last fragment ends it.
#[test]
fn every_byte_is_an_overflow() {
    let mut store = [0xA5; RX_BUFFER];
    for overflow in 1..=255 {
        for (held, nfrag) in [(0, 0), (0, 255), (1, 0), (4999, 255), (5000, 1)] {
            let state = XaraReceiver { held, nfrag, count: 9, crc_mask: 0xF8, overflow, ..ZEROS };
            let a = raw::xara_receiver_join(state, &mut store, &[0x80, 1, 2], 3);
            assert_eq!(shown(a), (1, 0, 3, 0, dropped_in_overflow(state, 1)));
            let a = raw::xara_receiver_join(state, &mut store, &[0x7F, 1, 2], 3);
            assert_eq!(shown(a), (1, 0, 3, 0, dropped_in_overflow(state, 0)));
            let reset = raw::xara_receiver_reset(state);
            assert_eq!(reset, XaraReceiver { held: 0, nfrag: 0, overflow: 0, ..state });
        }
    }
    assert_eq!(store, [0xA5; RX_BUFFER]);
}

/// Refused with 17, 9, 8 or 27, a state comes back as it was, whichever byte says overflow.
#[test]
fn every_overflow_comes_back_from_a_refusal() {
    let mut store = [0xA5; RX_BUFFER];
    for overflow in 0..=255 {
        let tallies = XaraTallies { limit: u64::MAX, ..ZEROS.tallies };
        let state = XaraReceiver { held: 3, nfrag: 2, count: 9, crc_mask: 0xF0, overflow, tallies };
        assert_eq!(shown(raw::xara_receiver_push(state, &mut store, b"AAAAAAAA", 5)), (0, 27, 0, 0, state));
        assert_eq!(shown(raw::xara_receiver_join(state, &mut store, b"AAAAAAAA", 5)), (0, 27, 0, 0, state));
        assert_eq!(shown(raw::xara_receiver_push(state, &mut store, b"AAAAAAAA", 2)), (0, 8, 0, 0, state));
        let state = XaraReceiver { crc_mask: 1, ..state };
        assert_eq!(shown(raw::xara_receiver_push(state, &mut store, b"AAAAAAAA", 5)), (0, 9, 0, 0, state));
        let state = XaraReceiver { held: 5001, ..state };
        assert_eq!(shown(raw::xara_receiver_join(state, &mut store, b"AAAAAAAA", 5)), (0, 17, 0, 0, state));
    }
    assert_eq!(store, [0xA5; RX_BUFFER]);
}

/// A slot that is free, as calls leave it.
const FREE: XaraSlot = XaraSlot { len: 0, name: [0; 8], receiver: ZEROS };

fn kept_shown(a: XaraKeeping) -> (u8, u8, usize, XaraKept) {
    (a.ok, a.refusal, a.place, a.kept)
}

#[test]
fn nothing_kept_is_all_zeros() {
    assert_eq!(raw::xara_kept_none().slots, [FREE; 8]);
}

/// Kept states whose slots at 0, named A, and at a place, named B or free, have this flag.
fn flagged(place: usize, len: usize, overflow: u8) -> XaraKept {
    let receiver = XaraReceiver { held: 3, nfrag: 1, count: 9, crc_mask: 0xF0, overflow, ..ZEROS };
    let mut slots = [FREE; 8];
    slots[0] = XaraSlot { len: 1, name: *b"A\0\0\0\0\0\0\0", receiver };
    slots[place] = XaraSlot { len, name: *b"B\0\0\0\0\0\0\0", receiver };
    XaraKept { slots }
}

/// Any byte but 0 is an overflow of a slot, a free one too: it comes back as 1 from a call that is accepted, and as it came from
/// one that is refused.
#[test]
fn every_byte_is_a_flag_of_a_slot() {
    let (mut lent, mut store) = (vec![0xA5; KEPT_STORE], [0x5A; RX_BUFFER]);
    for (overflow, place) in (0..=255).flat_map(|overflow| (1..8).map(move |place| (overflow, place))) {
        for len in [1, 0, 9, usize::MAX] {
            let (came, mut after) = (flagged(place, len, overflow), flagged(place, len, u8::from(overflow != 0)));
            let receiver = came.slots[0].receiver;
            assert_eq!(kept_shown(raw::xara_kept_keep(came, receiver, &store, &mut lent, b"")), (0, 20, 0, came));
            assert_eq!(kept_shown(raw::xara_kept_drop(came, &lent, b"C")), (0, 20, 0, came));
            assert_eq!(kept_shown(raw::xara_kept_keep(came, receiver, &store, &mut lent, b"A")), (1, 0, 0, after));
            let a = raw::xara_kept_return(came, &mut store, &lent, b"A");
            assert_eq!((a.ok, a.refusal, a.receiver), (1, 0, after.slots[0].receiver));
            after.slots[0] = FREE;
            assert_eq!(kept_shown(raw::xara_kept_drop(came, &lent, b"A")), (1, 0, 0, after));
            let a = raw::xara_kept_return(came, &mut store, &lent, b"C");
            assert_eq!((a.ok, a.refusal, a.receiver), (0, 20, ZEROS));
        }
    }
}

/// A number that has a name of its own comes back, and so does every other.
#[test]
fn numbers_and_names() {
    for number in 0..=255 {
        let refusal = Refusal::from_number(number);
        assert_eq!(refusal.number(), number);
        assert_eq!(matches!(refusal, Refusal::Other(_)), !matches!(number, 1..=17 | 20 | 21 | 27));
        assert!(!refusal.to_string().is_empty());
        let cause = Cause::from_number(number);
        assert_eq!(cause.map(Cause::number), (1..=5).contains(&number).then_some(number));
    }
}

const HEADER: &str = include_str!("../../../include/xara.h");

/// The names of xara.h that start so, with their numbers, but for a number of 0.
fn numbered_in_header(start: &str) -> Vec<(String, u8)> {
    let pairs = HEADER.lines().filter_map(|line| line.trim_start().split_once(" = "));
    let named = pairs.filter(|(name, _)| name.starts_with(start));
    let numbered = named.map(|(name, rest)| (name, rest.split([',', ' ']).next().unwrap_or_default().parse()));
    numbered.map(|(name, n)| (name.to_string(), n.expect(name))).filter(|(_, n)| *n != 0).collect()
}

/// A name of this crate as xara.h has it: XARA_CAUSE_WRONG_LENGTH for WrongLength.
fn in_header(start: &str, name: &str) -> String {
    name.chars().fold(start.to_string(), |mut all, c| {
        if c.is_ascii_uppercase() {
            all.push('_');
        }
        all.push(c.to_ascii_uppercase());
        all
    })
}

/// These names with their numbers and texts are what xara.h has with this start, and it has no others.
fn same_in_header(start: &str, ours: impl Iterator<Item = (String, u8, String)>) {
    let numbered: Vec<(String, u8)> = ours
        .map(|(name, number, text)| {
            let name = in_header(start, &name);
            assert!(HEADER.contains(&format!("case {name}:\n        return \"{text}\";")), "{name}");
            (name, number)
        })
        .collect();
    assert_eq!(numbered_in_header(start), numbered);
}

#[test]
fn names_are_those_of_the_header() {
    let refusals = (0..=255).map(Refusal::from_number).filter(|r| !matches!(r, Refusal::Other(_)));
    same_in_header("XARA_REFUSAL", refusals.map(|r| (format!("{r:?}"), r.number(), r.to_string())));
    let causes = (0..=255).filter_map(Cause::from_number);
    same_in_header("XARA_CAUSE", causes.map(|c| (format!("{c:?}"), c.number(), c.to_string())));
}
