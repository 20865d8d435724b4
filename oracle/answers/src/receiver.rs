//! The source's receiver, with its private state.

use xara_arq::kiss::Reassembler;
use xara_phy::hf::level::Record;

/// Dropped, More or Done with the message.
pub use xara_arq::kiss::Push as Answer;

#[derive(Clone, Debug)]
pub struct Receiver(Reassembler);

#[derive(Clone, Debug, PartialEq, Eq)]
pub struct State {
    pub held: Vec<u8>,
    pub fragments: usize,
    pub check: u8,
    pub mask: u8,
    pub overflow: bool,
}

impl Receiver {
    pub fn new(mask: u8) -> Self {
        Receiver(Reassembler::with_crc_mask(mask))
    }

    /// A frame, with the field size where the source has a level.
    pub fn push(&mut self, frame: &[u8], field: usize) -> Answer {
        self.0.push(frame, Record::of_field(field))
    }

    /// A fragment: the n first bytes of f.
    pub fn join(&mut self, f: &[u8], n: usize) -> Answer {
        self.0.join(f, n)
    }

    pub fn reset(&mut self) {
        self.0.reset();
    }

    /// The private fields, read from the text that the source derives for debugging.
    pub fn state(&self) -> State {
        let text = format!("{:?}", self.0);
        read_state(&text).unwrap_or_else(|| panic!("not the receiver's text: {text}"))
    }
}

fn read_state(mut text: &str) -> Option<State> {
    let text = &mut text;
    let state = State {
        held: read_list(field(text, "Reassembler { buf: [", ']')?)?,
        fragments: field(text, ", nfrag: ", ',')?.parse().ok()?,
        check: field(text, " count: ", ',')?.parse().ok()?,
        mask: field(text, " crc_mask: ", ',')?.parse().ok()?,
        overflow: field(text, " overflow: ", ' ')?.parse().ok()?,
    };
    (*text == "}").then_some(state)
}

/// Takes a field off the text: what stands between its label and its end.
fn field<'a>(text: &mut &'a str, label: &str, end: char) -> Option<&'a str> {
    let (value, rest) = text.strip_prefix(label)?.split_once(end)?;
    *text = rest;
    Some(value)
}

/// Numbers with a comma and a blank between; by hand, since the list is long and often read.
fn read_list(text: &str) -> Option<Vec<u8>> {
    let mut list = Vec::with_capacity(text.len() / 3 + 1);
    let mut number = None;
    for c in text.bytes() {
        match c {
            b'0'..=b'9' => number = Some(number.unwrap_or(0u8).checked_mul(10)?.checked_add(c - b'0')?),
            b',' => list.push(number.take()?),
            b' ' if number.is_none() => {}
            _ => return None,
        }
    }
    list.extend(number);
    Some(list)
}
