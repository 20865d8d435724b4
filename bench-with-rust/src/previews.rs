//! The rows of the preview. The source has no such call: beside ours stand its coding and its own count of the fragments of the message
//! that it makes. It has none of the refusals 8 and 12 either, so rows of these have the same on its side.

use crate::inputs::{
    Random, bad_letter, binary_frame, digipeated_frame, frame_with, long_frame, position_frame, text_frame, wide_frame,
};
use crate::rows::{LONGEST, SIZES, TYPES};
use crate::table::{Table, same};
use crate::xara;
use std::hint::black_box;
use std::rc::Rc;
use xara_arq::kiss::{self, Command, HF_CRC_MASK};

const PREVIEW_BAR: f64 = 1.0;
/// The largest field: every message of these rows takes at most 10 fragments.
const FIELD: usize = 512;
/// A field that is refused with 8.
const OUTSIDE: usize = 513;
/// A field with which the messages take more than 17 fragments, and are refused with 12.
const SMALL: usize = 3;

/// What the Rust says of data: the length of its message and its count of the fragments.
fn price(command: Command, data: &[u8], field: usize) -> Option<(usize, usize)> {
    let length = kiss::encode(command, data).ok()?.bytes.len();
    Some((length, kiss::count_for_field(length, field)))
}

/// Text, Binary, generic 7 and 8 bit.
pub fn codings(table: &mut Table) {
    let mut r = Random::new();
    for bytes in SIZES {
        row(table, "text", Command::Ax25, text_frame(&mut r, bytes));
        row(table, "binary", Command::Ax25, binary_frame(&mut r, bytes));
        row(table, "generic 7", Command::Generic, r.text(bytes));
        let mut any = r.bytes(bytes);
        any[0] |= 0x80;
        row(table, "generic 8", Command::Generic, any);
    }
}

/// A position report, the other types, calls that are coded letter by letter, calls of seven letters, and the tokens of WIDE1-1 and
/// WIDE2-2.
pub fn frames(table: &mut Table) {
    row(table, "position", Command::Ax25, position_frame());
    for (kind, information) in TYPES {
        row(table, kind, Command::Ax25, frame_with(information));
    }
    row(table, "six letters", Command::Ax25, digipeated_frame(&[*b"DB0XYZ"; 8]));
    row(table, "small letters", Command::Ax25, digipeated_frame(&[*b"db0xyz"; 8]));
    row(table, "long text", Command::Ax25Long, long_frame());
    row(table, "wide digis", Command::Ax25, wide_frame());
}

/// A letter without a code, which the coder refuses, and a field outside the domain and too many fragments, which the sender refuses.
pub fn refused(table: &mut Table) {
    let bad = bad_letter(digipeated_frame(&[*b"DB0XYZ"; 8]), 9);
    refusing(table, 4, Command::Ax25, bad, FIELD);
    let mut r = Random::new();
    for bytes in [60, LONGEST] {
        refusing(table, 8, Command::Generic, r.text(bytes), OUTSIDE);
        refusing(table, 12, Command::Generic, r.text(bytes), SMALL);
    }
}

/// Data that has a price.
fn row(table: &mut Table, kind: &str, command: Command, data: Vec<u8>) {
    let name = format!("preview {kind}");
    if !table.wants(&name, data.len()) {
        return;
    }
    let (length, count) = price(command, &data, FIELD).expect("the input is accepted");
    let ours = xara::preview(command.byte(), &data, FIELD, HF_CRC_MASK).told().expect("the input is accepted");
    same(&name, &shown((length, count)), &shown(ours));
    add(table, &name, command, data, FIELD);
}

/// A price as bytes.
fn shown((length, count): (usize, usize)) -> Vec<u8> {
    [length.to_be_bytes(), count.to_be_bytes()].concat()
}

/// Data that is refused with this number.
fn refusing(table: &mut Table, refusal: u8, command: Command, data: Vec<u8>, field: usize) {
    let name = format!("preview refused {refusal}");
    if !table.wants(&name, data.len()) {
        return;
    }
    assert_eq!(price(command, &data, field).is_none(), refusal < 8, "the source has no refusals of the sender");
    assert_eq!(xara::preview(command.byte(), &data, field, HF_CRC_MASK).told(), Err(refusal));
    add(table, &name, command, data, field);
}

fn add(table: &mut Table, name: &str, command: Command, data: Vec<u8>, field: usize) {
    let data: Rc<[u8]> = data.into();
    let (bytes, theirs) = (data.len(), Rc::clone(&data));
    let source = move || price(command, black_box(&theirs), black_box(field));
    table.add(name, bytes, Some(PREVIEW_BAR), source, move || {
        xara::preview(command.byte(), black_box(&data), black_box(field), HF_CRC_MASK)
    });
}
