//! The rows of what a gateway carries most: reports and messages with an ordinary comment, of every type of body, from the shortest to
//! the longest, over paths of none to eight digipeaters; and whole journeys of a report from data to frames and back.

use crate::inputs::{DICTIONARY, MIXED, Random, addressed, comment, frame_with, path, words};
use crate::receivers::receivers;
use crate::rows::{CONTROL, MARKER, SIZES, STORE, XARA_CONTROL, decoding_bytes, encoding, split};
use crate::table::{Table, same};
use crate::xara::{self, Heard, Receiver};
use std::hint::black_box;
use std::rc::Rc;
use xara_arq::kiss::{self, Command, HF_CRC_MASK, Push, Reassembler};
use xara_phy::hf::frame::build_frame;
use xara_phy::hf::level::Record;

/// The information of each type of body up to its comment.
const KINDS: [(&str, &[u8]); 5] = [
    ("status", b">"),
    ("position", b"!4903.50N/00723.75E>"),
    ("timed", b"@092345h4903.50N/00723.75E>"),
    ("message", b":DL2XYZ-7 :"),
    ("third party", b"}DL2XYZ>APRS,TCPIP,DL3ABC*:!4903.50N/00723.75E>"),
];

/// The bars of coding and decoding by the length of the frame. A short frame waits for its calls more than for its comment.
fn bars(bytes: usize) -> (f64, f64) {
    match bytes {
        0..60 => (1.0, 2.5),
        60..500 => (4.0, 3.0),
        _ => (5.0, 6.0),
    }
}

/// Every type of body with a comment, of each size that has room for it.
pub fn bodies(table: &mut Table) {
    let mut r = Random::new();
    for (kind, front) in KINDS {
        for bytes in SIZES {
            let Some(rest) = bytes.checked_sub(16 + front.len()) else { continue };
            let data = frame_with(&[front, &comment(&mut r, rest)].concat());
            report(table, kind, data, bars(bytes));
        }
    }
}

/// Positions whose comment has words of the dictionary: one word in five, and nothing else. Each is a code of its own, so that
/// little goes by eights.
pub fn dictionary(table: &mut Table) {
    let mut r = Random::new();
    for bytes in [100, 500, 2500, 4999] {
        for (kind, list, bars) in [("mixed", &MIXED[..], bars(bytes)), ("dictionary", &DICTIONARY[..], (1.0, 1.0))] {
            let data = frame_with(&[KINDS[1].1, &words(&mut r, list, bytes - 36)].concat());
            report(table, kind, data, bars);
        }
    }
}

/// A position of 100 bytes over each path.
pub fn paths(table: &mut Table) {
    let mut r = Random::new();
    for digis in [0, 2, 3, 8] {
        let head = addressed(&path(digis));
        let information = [KINDS[1].1, &comment(&mut r, 64)].concat();
        report(table, &format!("{digis} digis"), [head, information].concat(), bars(100));
    }
}

/// The report in examples/report.txt, which is a line of the program `send`.
pub fn example(table: &mut Table) {
    let line = include_str!("../../examples/report.txt").trim_end();
    let digits = line.strip_prefix("ax25 ").expect("the example is a frame").as_bytes();
    let byte = |pair: &[u8]| u8::from_str_radix(std::str::from_utf8(pair).expect("digits"), 16).expect("digits");
    report(table, "report.txt", digits.chunks(2).map(byte).collect(), (4.0, 4.0));
}

/// A report both ways.
fn report(table: &mut Table, kind: &str, data: Vec<u8>, (coded, decoded): (f64, f64)) {
    let data: Rc<[u8]> = data.into();
    let message = kiss::encode(Command::Ax25, &data).expect("the input is accepted").bytes;
    encoding(table, kind, Command::Ax25, Rc::clone(&data), &message, Some(coded));
    decoding_bytes(table, kind, data.len(), message.into(), Some(decoded));
}

/// The field of a journey's frames.
const FIELD: usize = 60;

/// From data to frames and back by the source.
fn journey(receiver: &mut Reassembler, data: &[u8], field: usize) -> Option<Vec<u8>> {
    let message = kiss::encode(Command::Ax25, data).ok()?.bytes;
    let mut done = None;
    for fragment in split(&message, field, HF_CRC_MASK) {
        let frame = build_frame(field + 3, &fragment, CONTROL, None, MARKER);
        if let Push::Done(heard) = receiver.push(&frame, Record::of_field(field)) {
            done = kiss::decode(&heard).map(|(_, data)| data);
        }
    }
    done
}

/// What a gateway holds for a journey with ours.
struct Gateway {
    receiver: Receiver,
    store: Vec<u8>,
    message: Vec<u8>,
    fragment: [u8; 512],
    frame: [u8; 515],
    out: Vec<u8>,
}

impl Gateway {
    fn new() -> Self {
        let (_, receiver) = receivers();
        let (fragment, frame) = ([0; 512], [0; 515]);
        Gateway { receiver, store: vec![0; STORE], message: vec![0; STORE], fragment, frame, out: vec![0; 45_764] }
    }

    /// The same by ours; how many bytes came out.
    fn journey(&mut self, data: &[u8], field: usize) -> Result<usize, u8> {
        let (length, _) = xara::encode(Command::Ax25.byte(), data, &mut self.message).told()?;
        let mut done = 0;
        for k in 0..xara::count(length, field).told()? {
            let message = &self.message[..length];
            let n = xara::fragment(message, field, HF_CRC_MASK, k, &mut self.fragment).told()?;
            let n = xara::frame(field, &self.fragment[..n], XARA_CONTROL, MARKER, &mut self.frame).told()?;
            let pushed = self.receiver.push(&mut self.store, &self.frame[..n], field);
            self.receiver = pushed.receiver;
            if let Heard::Done(n) = pushed.heard() {
                done = xara::decode(&self.store[..n], &mut self.out).told()?.0;
            }
        }
        Ok(done)
    }
}

/// Whole journeys of a report of 60 bytes, in one frame and in several.
pub fn journeys(table: &mut Table) {
    let mut r = Random::new();
    let data: Rc<[u8]> = frame_with(&[KINDS[1].1, &comment(&mut r, 24)].concat()).into();
    for (name, field) in [("journey, one frame", FIELD), ("journey, by 12 bytes", 12)] {
        if !table.wants(name, data.len()) {
            continue;
        }
        let (mut theirs, _) = receivers();
        let mut ours = Gateway::new();
        let n = ours.journey(&data, field).expect("the report is accepted");
        same(name, &journey(&mut theirs, &data, field).expect("the report arrives"), &ours.out[..n]);
        let (given, taken) = (Rc::clone(&data), Rc::clone(&data));
        let source = move || journey(&mut theirs, black_box(&given), black_box(field));
        table.add(name, data.len(), Some(4.0), source, move || ours.journey(black_box(&taken), black_box(field)));
    }
}
