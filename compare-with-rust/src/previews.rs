//! What a message costs before it is coded and sent (document 02, E3): the export beside the source's own coding, cutting and
//! counting, and beside our own calls with buffers that are large enough.

use crate::calls::small_field;
use crate::lent::Input;
use crate::tally::{Kind, Row, Tally};
use crate::xara::{self, Preview};
use crate::{codings, masks, rules};
use answers::hex::to_hex;
use answers::random::Random;
use answers::{FIELDS, MASKS, MAX_DATA, MAX_MESSAGE, cases, most};
use std::collections::BTreeMap;

/// A frame from K1A to CQ with the text A.
pub const PLAIN: [u8; 17] = *b"\x86\xA2\x40\x40\x40\x40\x60\x96\x62\x82\x40\x40\x40\x61\x03\xF0A";
/// The same from k_1, a call that is refused.
pub const BAD_CALL: [u8; 17] = *b"\x86\xA2\x40\x40\x40\x40\x60\xD6\xBE\x62\x40\x40\x40\x61\x03\xF0A";

const GENERIC: u8 = 2;
/// The refusals of a preview, in their order.
const REFUSALS: [u8; 8] = [1, 2, 3, 4, 5, 8, 9, 12];

/// Every mask, every field, the limits of each mask, and the data that are written down for the coder.
pub fn written_down(r: &mut Random, tally: &mut Tally) {
    every_mask(tally);
    every_field(tally);
    for mask in MASKS {
        limits(3, mask, tally);
        limits(small_field(r), mask, tally);
    }
    written_data(r, tally);
}

/// Every byte as a mask, with data that are accepted and with data that are refused.
fn every_mask(tally: &mut Tally) {
    for mask in 0..=255 {
        both(0, &PLAIN, 3, mask, tally);
        both(0, &BAD_CALL, 3, mask, tally);
    }
}

/// Every field to 514 under a mask and under a byte that is none.
fn every_field(tally: &mut Tally) {
    for field in 0..=FIELDS.end() + 2 {
        both(0, &PLAIN, field, 0xF0, tally);
        both(GENERIC, &[0x80; 40], field, 0xF1, tally);
    }
}

/// Every type and every refusal of the coder, and the longest data, with a small field and mostly a good mask, and with another field
/// and mostly a bad one.
fn written_data(r: &mut Random, tally: &mut Tally) {
    let data = cases::all(r).into_iter().chain(cases::longest(r));
    for (k, (command, data)) in data.enumerate() {
        both(command, &data, 3 + k % 20, masks::some(r, 8), tally);
        both(command, &data, some_field(k % FIELDS.end(), r), masks::other(r), tally);
    }
}

/// Bytes of 80, which are coded as they are after one more, and of 41, of which seven bits are: as many as take the most fragments
/// of a mask, and two less to three more.
fn limits(field: usize, mask: u8, tally: &mut Tally) {
    let bytes = most(mask) * (field - 1) - 1;
    for n in bytes - 2..=bytes + 3 {
        both(GENERIC, &vec![0x80; n], field, mask, tally);
        both(GENERIC, &vec![0x41; n * 8 / 7], field, mask, tally);
    }
}

/// Some data, field and mask; this field is one of those that are drawn.
pub fn drawn(field: usize, r: &mut Random, tally: &mut Tally) {
    let (field, mask) = (some_field(field, r), masks::some(r, 8));
    let (command, data) = some_data(field, mask, r);
    both(some_command(command, r), &data, field, mask, tally);
}

/// This field, a small one, one at an edge of the domain, or any number.
fn some_field(field: usize, r: &mut Random) -> usize {
    const EDGES: [usize; 9] = [0, 1, 2, 3, 4, 511, 512, 513, usize::MAX];
    match r.below(16) {
        0 => r.number() as usize >> r.below(64),
        1..4 => EDGES[r.below(EDGES.len())],
        4..10 => small_field(r),
        _ => field,
    }
}

/// This command, or one time in sixteen another.
fn some_command(command: u8, r: &mut Random) -> u8 {
    if r.below(16) == 0 { [3, 4, 255, r.byte()][r.below(4)] } else { command }
}

/// Data of every kind that the coder is given, data whose messages take about as many fragments as a mask has room for, or data of a
/// length at the edges.
fn some_data(field: usize, mask: u8, r: &mut Random) -> (u8, Vec<u8>) {
    match r.below(8) {
        0..3 => codings::data(r),
        3..7 => near_limit(field, mask, r),
        _ => {
            let n = [0, 1, 2, MAX_DATA - 1, MAX_DATA, MAX_DATA + 1, MAX_DATA + 2][r.below(7)];
            (r.below(3) as u8, r.bytes(n))
        }
    }
}

/// Generic bytes of eight or seven bits, or a frame with a text: about as long as a number of fragments holds.
fn near_limit(field: usize, mask: u8, r: &mut Random) -> (u8, Vec<u8>) {
    let most = if MASKS.contains(&mask) { most(mask) } else { 17 };
    let count = [1, 2, most - 1, most, most, most + 1][r.below(6)];
    let total = (count * (field.clamp(*FIELDS.start(), *FIELDS.end()) - 1)).min(MAX_MESSAGE + 1);
    let text = |n: usize, r: &mut Random| r.bytes(n).iter().map(|b| b & 0x7F).collect::<Vec<u8>>();
    match r.below(3) {
        0 => (GENERIC, vec![0x80 | r.byte(); (total + r.below(3)).saturating_sub(2)]),
        1 => (GENERIC, text(((total + r.below(2)).saturating_sub(1) * 8 / 7 + r.below(2)).min(MAX_DATA + 1), r)),
        _ => {
            let n = (total.saturating_sub(7) * 8 / 7 + r.below(4)).min(MAX_DATA - 16);
            (0, [&PLAIN[..16], &text(n, r)].concat())
        }
    }
}

/// A preview beside the source, and beside our own calls: whether both are as expected.
fn both(command: u8, data: &[u8], field: usize, mask: u8, tally: &mut Tally) -> bool {
    let expected = rules::preview::preview(command, data, field, mask);
    tally.priced(field, mask, expected);
    let mut input = Input::new(data);
    let ours = xara::preview(command, &mut input.lent[..], field, mask);
    let told = || format!("preview {command} {field} {mask:02X} {}", to_hex(data));
    let row = |answer| Row { answer, written: &[], read: data };
    let row_of_ours = || Row { answer: ours, written: &[], read: &input.lent };
    let same = tally.compare(Kind::Preview, row(Preview::of(expected)), row_of_ours(), told);
    let sent = Preview::of(sent(command, data, field, mask));
    tally.compare(Kind::PreviewSent, row(sent), row_of_ours(), told) && same
}

/// "Coding, then sending, a copy into buffers that are large enough": our coder with 5,000 bytes, then our sender's first fragment with
/// 512, and our count.
fn sent(command: u8, data: &[u8], field: usize, mask: u8) -> Result<(usize, usize), u8> {
    let (mut message, mut out) = ([0; MAX_MESSAGE], [0; 512]);
    let (length, _) = xara::encode(command, data, &mut message).told()?;
    xara::fragment(&message[..length], field, mask, 0, &mut out).told()?;
    Ok((length, xara::count(length, field).told()?))
}

/// What a run met: how many prices, those with the most fragments of each mask and 12 under it, each refusal, and each that came
/// before another that was true, too.
#[derive(Default)]
pub struct Prices {
    priced: u64,
    most: BTreeMap<u8, u64>,
    over: BTreeMap<u8, u64>,
    refused: BTreeMap<u8, u64>,
    before: BTreeMap<u8, u64>,
}

impl Prices {
    pub fn note(&mut self, field: usize, mask: u8, expected: Result<(usize, usize), u8>) {
        let (bad_field, bad_mask) = (!FIELDS.contains(&field), !MASKS.contains(&mask));
        let refusal = match expected {
            Ok((_, count)) => {
                self.priced += 1;
                *self.most.entry(mask).or_default() += u64::from(count == most(mask));
                return;
            }
            Err(refusal) => refusal,
        };
        *self.refused.entry(refusal).or_default() += 1;
        let before = if refusal < 8 { bad_field || bad_mask } else { refusal == 8 && bad_mask };
        *self.before.entry(refusal).or_default() += u64::from(before);
        *self.over.entry(mask).or_default() += u64::from(refusal == 12);
    }

    /// What a run must meet, and how often it did: under each mask the most fragments, and 12.
    fn times(&self) -> Vec<(String, u64)> {
        let times = |met: &BTreeMap<u8, u64>, key: u8| met.get(&key).copied().unwrap_or_default();
        let mut all = Vec::new();
        for mask in MASKS {
            all.push((format!("{} fragments under {mask:02X}", most(mask)), times(&self.most, mask)));
            all.push((format!("refused 12 under {mask:02X}"), times(&self.over, mask)));
        }
        all.extend(REFUSALS.map(|n| (format!("refused {n}"), times(&self.refused, n))));
        let before = [1, 2, 3, 4, 5, 8];
        all.extend(before.map(|n| (format!("refused {n} before another"), times(&self.before, n))));
        all
    }

    pub fn unmet(&self) -> impl Iterator<Item = String> {
        self.times().into_iter().filter(|&(_, times)| times == 0).map(|(words, _)| format!("preview: {words}"))
    }

    pub fn told(&self) -> String {
        let words: Vec<_> = self.times().iter().map(|(words, times)| format!("{words} {times} times")).collect();
        format!("previews: {} priced, {}\n", self.priced, words.join(", "))
    }
}

#[cfg(test)]
mod tests {
    use super::*;

    /// Under each mask data are drawn that take the most fragments and one more, each coded in seven bits and in eight, and in frames.
    #[test]
    fn near_every_limit() {
        let mut r = Random::new(1, "near");
        for mask in MASKS {
            let mut met = BTreeMap::<(u8, bool, usize), usize>::new();
            for _ in 0..3_000 {
                let field = small_field(&mut r);
                let (command, data) = near_limit(field, mask, &mut r);
                let Ok((message, _)) = answers::encode(command, &data) else { continue };
                let count = answers::count(message.len(), field).expect("a field and a length of the domain");
                *met.entry((command, data.is_ascii(), count)).or_default() += 1;
            }
            for count in [most(mask), most(mask) + 1] {
                assert!(met.contains_key(&(GENERIC, true, count)) && met.contains_key(&(GENERIC, false, count)));
                assert!(met.contains_key(&(0, false, count)), "{mask:02X} {count}");
            }
        }
    }

    /// Nothing is met at first. Each price, refusal and order that is noted is not told any more.
    #[test]
    fn left_out() {
        let mut prices = Prices::default();
        assert_eq!(prices.unmet().count(), 14 + 8 + 6);
        for mask in MASKS {
            prices.note(5, mask, Ok((7, most(mask))));
            prices.note(5, mask, Err(12));
        }
        assert_eq!(prices.unmet().count(), 7 + 6);
        for refusal in REFUSALS {
            prices.note(2, 0x00, Err(refusal));
        }
        assert_eq!(prices.unmet().count(), 0);
    }

    /// A run whose messages took fewer fragments than the mask has room for, or that had refusals only alone, says so.
    #[test]
    fn below_a_limit() {
        let mut prices = Prices::default();
        prices.note(5, 0xF0, Ok((7, 16)));
        prices.note(5, 0xF0, Err(3));
        let unmet: Vec<_> = prices.unmet().collect();
        assert!(unmet.contains(&"preview: 17 fragments under F0".to_string()));
        assert!(unmet.contains(&"preview: refused 3 before another".to_string()));
        assert!(!unmet.contains(&"preview: refused 3".to_string()));
    }
}
