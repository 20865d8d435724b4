//! The rows: each call of the source beside the exported one, on the same input. Outputs of ours are made once, as a
//! gateway holds them; the source makes its own. Those of the receiver are in receivers.rs, those of the preview in previews.rs.

use crate::inputs::{
    Random, addressed, bad_letter, binary_frame, digipeated_frame, frame_with, long_frame, message, path, polled,
    position_frame, station, text_frame, wide_frame,
};
use crate::table::{Table, same};
use crate::xara::{self, Decoded};
use std::hint::black_box;
use std::rc::Rc;
use xara_arq::ax25;
use xara_arq::kiss::{self, Command, HF_CRC_MASK};
use xara_phy::crc::crc16_genibus;
use xara_phy::hf::frame::{Control, build_frame};

pub const SIZES: [usize; 6] = [17, 60, 100, 500, 2500, 4999];
pub const LONGEST: usize = 4999;
/// The most bytes that a message decodes to.
const MOST_DECODED: usize = 45_764;
/// The receiver's store.
pub const STORE: usize = 5000;
/// Text and generic 7 bit of 4,999 bytes; the position report; the other types, decoded; crc, fragments, frame and push;
/// fragments and push under a mask of another number of check bits; the summary; calls. A row of the mended reading has the
/// bar of the original one: the source has no such reading, so it is held against its `decode` of the same message.
const TEXT_BAR: f64 = 5.0;
const GENERIC_BAR: f64 = 25.0;
const POSITION_BAR: f64 = 2.0;
const TYPES_BAR: f64 = 1.0;
pub const OTHER_BAR: f64 = 3.0;
const MASK_BAR: f64 = 1.0;
const SUMMARY_BAR: f64 = 1.0;
/// The summary of a report over three digipeaters; all fragments of 4,800 bytes, their pushes, and a frame of 512 bytes.
const DIGIS_BAR: f64 = 5.0;
const CUT_BAR: f64 = 25.0;
const PUSH_BAR: f64 = 15.0;
const FRAME_BAR: f64 = 9.0;
const CALLS_BAR: f64 = 1.0;

pub const MARKER: u8 = 0x01;
pub const CONTROL: Control = Control { reply: 1, compressed: false, hint: 2 };
pub const XARA_CONTROL: xara::Control = xara::Control { reply: 1, compressed: 0, hint: 2 };

/// Text, Binary, generic 7 and 8 bit.
pub fn codings(table: &mut Table) {
    let mut r = Random::new();
    for bytes in SIZES {
        let bar = (bytes == LONGEST).then_some(TEXT_BAR);
        coding(table, "text", Command::Ax25, text_frame(&mut r, bytes), bar.or(short_bar(bytes)));
        coding(table, "binary", Command::Ax25, binary_frame(&mut r, bytes), None);
        generic(table, r.text(bytes), bar, (bytes == LONGEST).then_some(GENERIC_BAR));
        let mut any = r.bytes(bytes);
        any[0] |= 0x80;
        coding(table, "generic 8", Command::Generic, any, None);
    }
}

/// Generic bytes of seven bits, whose two bars differ.
fn generic(table: &mut Table, data: Vec<u8>, coded: Option<f64>, decoded: Option<f64>) {
    let data: Rc<[u8]> = data.into();
    let message = kiss::encode(Command::Generic, &data).expect("the input is accepted").bytes;
    encoding(table, "generic 7", Command::Generic, Rc::clone(&data), &message, coded);
    decodings(table, "generic 7", &data, message.into(), decoded);
}

/// The bar of a short text.
fn short_bar(bytes: usize) -> Option<f64> {
    match bytes {
        17 => Some(2.5),
        60 | 100 => Some(4.0),
        _ => None,
    }
}

/// A position report of 60 bytes with an altitude, over a digipeater.
pub fn position(table: &mut Table) {
    coding(table, "altitude", Command::Ax25, position_frame(), Some(POSITION_BAR));
}

/// The other types, decoded.
pub fn types(table: &mut Table) {
    for (kind, information) in TYPES {
        let data = frame_with(information);
        let message = kiss::encode(Command::Ax25, &data).expect("the input is accepted").bytes;
        decodings(table, kind, &data, message.into(), Some(TYPES_BAR));
    }
}

/// What a loaded relay codes letter by letter: the calls of eight digipeaters, of six letters, of three, and of small letters, which
/// are coded as capitals; calls of seven letters; the tokens of WIDE1-1 and WIDE2-2; and frames refused for a letter without a code,
/// in the source and in the last digipeater.
pub fn calls(table: &mut Table) {
    let bar = Some(CALLS_BAR);
    let (six, three, small) = [b"DB0XYZ", b"K2B   ", b"db0xyz"].map(|call| digipeated_frame(&[*call; 8])).into();
    let message = kiss::encode(Command::Ax25, &small).expect("the input is accepted").bytes;
    encoding(table, "small letters", Command::Ax25, small.into(), &message, bar);
    for (kind, k) in [("bad source", 1), ("bad last digi", 9)] {
        refusing(table, kind, Command::Ax25, bad_letter(six.clone(), k));
    }
    coding(table, "six letters", Command::Ax25, six, bar);
    coding(table, "three letters", Command::Ax25, three, bar);
    coding(table, "long text", Command::Ax25Long, long_frame(), bar);
    coding(table, "wide digis", Command::Ax25, wide_frame(), bar);
    stations(table, bar);
}

/// Reports through eight digipeaters, one after the other, with other calls in each: nothing in them can be foreseen.
fn stations(table: &mut Table, bar: Option<f64>) {
    let mut r = Random::new();
    let report = |_| digipeated_frame(&std::array::from_fn(|_| station(&mut r)));
    let reports: Rc<[Vec<u8>]> = (0..256).map(report).collect();
    let (name, bytes) = ("encode stations", reports[0].len());
    if !table.wants(name, bytes) {
        return;
    }
    let mut out = vec![0; STORE];
    for data in reports.iter() {
        let (n, _) = xara::encode(Command::Ax25.byte(), data, &mut out).told().expect("the input is accepted");
        same(name, &kiss::encode(Command::Ax25, data).expect("the input is accepted").bytes, &out[..n]);
    }
    let (theirs, mut k, mut i) = (Rc::clone(&reports), 0, 0);
    let source = move || {
        k = (k + 1) % theirs.len();
        kiss::encode(Command::Ax25, black_box(&theirs[k]))
    };
    table.add(name, bytes, bar, source, move || {
        i = (i + 1) % reports.len();
        xara::encode(Command::Ax25.byte(), black_box(&reports[i]), black_box(&mut out))
    });
}

/// Some data both ways.
fn coding(table: &mut Table, kind: &str, command: Command, data: Vec<u8>, bar: Option<f64>) {
    let data: Rc<[u8]> = data.into();
    let message = kiss::encode(command, &data).expect("the input is accepted").bytes;
    encoding(table, kind, command, Rc::clone(&data), &message, bar);
    decodings(table, kind, &data, message.into(), bar);
}

/// The message of some data in both readings: in the original one it gives what the source decodes, in the mended one the data.
fn decodings(table: &mut Table, kind: &str, data: &[u8], message: Rc<[u8]>, bar: Option<f64>) {
    let original = kiss::decode(&message).expect("the message is decoded").1;
    let row =
        |name: &str| Decoding { name: format!("{name} {kind}"), bytes: data.len(), message: Rc::clone(&message), bar };
    row("decode").add(table, &original, |message, out| xara::decode(message, out));
    row("mended").add(table, data, |message, out| xara::decode_mended(message, out));
}

/// The message of so many bytes in the original reading.
pub fn decoding_bytes(table: &mut Table, kind: &str, bytes: usize, message: Rc<[u8]>, bar: Option<f64>) {
    let original = kiss::decode(&message).expect("the message is decoded").1;
    let row = Decoding { name: format!("decode {kind}"), bytes, message, bar };
    row.add(table, &original, |message, out| xara::decode(message, out));
}

/// Data that is coded to a message.
pub fn encoding(table: &mut Table, kind: &str, command: Command, data: Rc<[u8]>, message: &[u8], bar: Option<f64>) {
    let (name, bytes) = (format!("encode {kind}"), data.len());
    if !table.wants(&name, bytes) {
        return;
    }
    let mut out = vec![0; STORE];
    let (n, _) = xara::encode(command.byte(), &data, &mut out).told().expect("the input is accepted");
    same(&name, message, &out[..n]);
    let theirs = Rc::clone(&data);
    let source = move || kiss::encode(command, black_box(&theirs));
    table.add(&name, bytes, bar, source, move || xara::encode(command.byte(), black_box(&data), black_box(&mut out)));
}

/// Data with a bad call, which is refused with 4.
fn refusing(table: &mut Table, kind: &str, command: Command, data: Vec<u8>) {
    let (name, bytes) = (format!("encode {kind}"), data.len());
    if !table.wants(&name, bytes) {
        return;
    }
    let mut out = vec![0; STORE];
    assert!(kiss::encode(command, &data).is_err(), "the source refuses it");
    assert_eq!(xara::encode(command.byte(), &data, &mut out).told(), Err(4));
    let data: Rc<[u8]> = data.into();
    let theirs = Rc::clone(&data);
    let source = move || kiss::encode(command, black_box(&theirs));
    let ours = move || xara::encode(command.byte(), black_box(&data), black_box(&mut out));
    table.add(&name, bytes, Some(CALLS_BAR), source, ours);
}

/// A message that so many bytes were coded to.
struct Decoding {
    name: String,
    bytes: usize,
    message: Rc<[u8]>,
    bar: Option<f64>,
}

impl Decoding {
    /// A row of one of our calls, which gives these bytes, beside the source's only one.
    fn add(self, table: &mut Table, expected: &[u8], call: impl Fn(&[u8], &mut [u8]) -> Decoded + 'static) {
        let Decoding { name, bytes, message, bar } = self;
        if !table.wants(&name, bytes) {
            return;
        }
        let mut out = vec![0; MOST_DECODED];
        let (n, _) = call(&message, &mut out).told().expect("the message is decoded");
        same(&name, expected, &out[..n]);
        let theirs = Rc::clone(&message);
        let source = move || kiss::decode(black_box(&theirs));
        table.add(&name, bytes, bar, source, move || call(black_box(&message), black_box(&mut out)));
    }
}

/// Information of the types that are neither Text, Binary nor a position without a time.
pub const TYPES: [(&str, &[u8]); 3] = [
    ("time", b"@092345h4903.50N/00723.75E>/A=001234 VARA HF"),
    ("message", b":DL2XYZ-7 :ack12 on the way to the relay"),
    ("third", b"}DL2XYZ>APRS,TCPIP,DL3ABC*:!4903.50N/00723.75E>"),
];

/// What a frame is: Text, polled or not, and Binary of each size, the other types, eight digipeaters and a long frame. The
/// source's `parse` finds as much, and the calls too.
pub fn summaries(table: &mut Table) {
    let mut r = Random::new();
    for bytes in SIZES {
        summary(table, "text", Command::Ax25, text_frame(&mut r, bytes));
        summary(table, "polled text", Command::Ax25, polled(text_frame(&mut r, bytes)));
        summary(table, "binary", Command::Ax25, binary_frame(&mut r, bytes));
    }
    summary(table, "position", Command::Ax25, position_frame());
    for (kind, information) in TYPES {
        summary(table, &format!("polled {kind}"), Command::Ax25, polled(frame_with(information)));
    }
    summary(table, "eight digis", Command::Ax25, digipeated_frame(&[*b"K2B   "; 8]));
    for digis in [2, 3, 8] {
        let frame = [addressed(&path(digis)), b"!4903.50N/00723.75E>on the way".to_vec()].concat();
        summary(table, &format!("{digis} digis"), Command::Ax25, frame);
    }
    summary(table, "long text", Command::Ax25Long, long_frame());
}

fn summary(table: &mut Table, kind: &str, command: Command, data: Vec<u8>) {
    let (name, bytes) = (format!("summary {kind}"), data.len());
    if !table.wants(&name, bytes) {
        return;
    }
    let record = ax25::parse(&data, command).expect("the input is a frame");
    let (aprs_type, digis, ui) = xara::summary(command.byte(), &data).told().expect("the input is a frame");
    let expected = [record.aprs_type.code(), record.digis.len() as u8, u8::from(matches!(record.ctrl, 0x03 | 0x13))];
    same(&name, &expected, &[aprs_type, digis as u8, u8::from(ui)]);
    let data: Rc<[u8]> = data.into();
    let theirs = Rc::clone(&data);
    let source = move || ax25::parse(black_box(&theirs), command);
    let bar = if kind == "3 digis" { DIGIS_BAR } else { SUMMARY_BAR };
    table.add(&name, bytes, Some(bar), source, move || xara::summary(command.byte(), black_box(&data)));
}

/// The CRC's bars: a call of so few bytes that it is over before a table pays, groups of eight, and a window from 256 bytes on.
const CRC_BARS: [(usize, f64); 14] = [
    (0, 0.5),
    (1, 0.5),
    (2, 0.5),
    (4, 0.5),
    (7, 0.5),
    (8, 0.5),
    (10, 3.0),
    (16, 3.0),
    (60, 3.0),
    (256, 3.0),
    (500, 3.0),
    (1000, 3.0),
    (2500, 3.0),
    (4999, 35.0),
];

pub fn crc(table: &mut Table) {
    let mut r = Random::new();
    for (bytes, bar) in CRC_BARS {
        let data: Rc<[u8]> = r.bytes(bytes).into();
        if table.wants("crc", bytes) {
            same("crc", &crc16_genibus(&data).to_be_bytes(), &xara::crc(&data).to_be_bytes());
            let theirs = Rc::clone(&data);
            let source = move || crc16_genibus(black_box(&theirs));
            table.add("crc", bytes, Some(bar), source, move || xara::crc(black_box(&data)));
        }
    }
}

/// A message to send, and what its rows have.
pub struct Sending {
    pub name: &'static str,
    /// Of cutting it, and of pushing it.
    pub bars: (f64, f64),
    pub field: usize,
    pub mask: u8,
    pub message: Rc<[u8]>,
}

impl Sending {
    fn new(name: &'static str, bars: (f64, f64), field: usize, mask: u8, message: Vec<u8>) -> Self {
        Sending { name, bars, field, mask, message: message.into() }
    }
}

/// Messages of the most fragments that the masks leave room for: 17 under F0, and 129 under 80, by fields of 40 and of 3.
pub fn sendings() -> [Sending; 4] {
    let mut r = Random::new();
    [
        Sending::new("field 300", (CUT_BAR, PUSH_BAR), 300, HF_CRC_MASK, message(&mut r, 4800)),
        Sending::new("field 64", (OTHER_BAR, OTHER_BAR), 64, HF_CRC_MASK, message(&mut r, 1050)),
        Sending::new("mask 80", (MASK_BAR, MASK_BAR), 40, 0x80, message(&mut r, 5000)),
        Sending::new("mask 80", (MASK_BAR, MASK_BAR), 3, 0x80, message(&mut r, 258)),
    ]
}

/// All fragments of the source.
pub fn split(message: &[u8], field: usize, mask: u8) -> Vec<Vec<u8>> {
    kiss::split_masked(message, kiss::count_for_field(message.len(), field), field, mask)
}

/// All fragments of ours, one after the other; their total length.
fn cut(message: &[u8], field: usize, mask: u8, out: &mut [u8]) -> Result<usize, u8> {
    let mut end = 0;
    for k in 0..xara::count(message.len(), field).told()? {
        end += xara::fragment(message, field, mask, k, &mut out[end..]).told()?;
    }
    Ok(end)
}

/// All fragments of a message.
pub fn fragments(table: &mut Table) {
    for Sending { name, bars: (bar, _), field, mask, message } in sendings() {
        let name = format!("fragments {name}");
        if !table.wants(&name, message.len()) {
            continue;
        }
        let mut out = vec![0; 2 * STORE];
        let n = cut(&message, field, mask, &mut out).expect("the message is accepted");
        same(&name, &split(&message, field, mask).concat(), &out[..n]);
        let (bytes, theirs) = (message.len(), Rc::clone(&message));
        let source = move || split(black_box(&theirs), black_box(field), black_box(mask));
        table.add(&name, bytes, Some(bar), source, move || {
            cut(black_box(&message), black_box(field), black_box(mask), black_box(&mut out))
        });
    }
}

/// One frame of each field: of a fragment with field bytes, and of one that is shorter.
pub fn frame(table: &mut Table) {
    let mut r = Random::new();
    for (field, bar) in [(64, OTHER_BAR), (300, OTHER_BAR), (512, FRAME_BAR)] {
        for (name, length) in [("frame, full", field), ("frame, shorter", field - 4)] {
            let data = message(&mut r, length);
            if !table.wants(name, field) {
                continue;
            }
            let mut out = vec![0; field + 3];
            let n = xara::frame(field, &data, XARA_CONTROL, MARKER, &mut out).told().expect("the fragment is accepted");
            same(name, &build_frame(field + 3, &data, CONTROL, None, MARKER), &out[..n]);
            let theirs = data.clone();
            let source = move || build_frame(black_box(field) + 3, black_box(&theirs), CONTROL, None, MARKER);
            table.add(name, field, Some(bar), source, move || {
                xara::frame(black_box(field), black_box(&data), XARA_CONTROL, MARKER, black_box(&mut out))
            });
        }
    }
}
