//! Writes the file of recorded answers that the program `replay` reads and compares with its own.

use answers::hex::to_hex;
use answers::kept::Kept;
use answers::random::Random;
use answers::{Answer, FIELDS, MASKS, Receiver, bits, cases, frames};
use std::collections::VecDeque;

const SEED: u64 = 0x239A_C292_3920_2601;

/// Every kind of line in the order of the file; each function writes one kind, with numbers of its own.
const KINDS: [fn(&mut String); 17] = [
    crc, push, bfi, text, take, digits, text7, val, count, fragment, frame, history, encode, summary, decode, channel,
    preview,
];

fn main() {
    let mut out = header();
    for kind in KINDS {
        kind(&mut out);
    }
    print!("{out}");
}

fn header() -> String {
    format!(
        "\
# Answers of the unmodified Rust in oracle/, which the program replay compares with its own.
# Each line is one call: its kind, what goes in, and last what came out of the Rust.
# Numbers are decimal, bytes capital hexadecimal, - is no bytes, none is no answer (None in the Rust),
# refused:N is a refusal's number in documents 01 and 02, whose refusals the Rust has only in part.
# The inputs are edges written down by hand and, for the rest, drawn by a fixed generator, so that every
# width, every length and every bit position within a byte appears; the comment before a kind says which.
# Seed of the generator: {SEED:016X}
# The file is made again, without a difference, by
# cargo run --release --manifest-path oracle/Cargo.toml --bin record > crates/replay/stdin
"
    )
}

/// One line of words.
macro_rules! line {
    ($out:expr, $($word:expr),+) => {
        *$out += &([$($word.to_string()),+].join(" ") + "\n")
    };
}

fn crc(out: &mut String) {
    *out += "# crc HEX CRC: the catalogue's check value, one list for every length 0 to 600, then equal bytes.\n";
    let mut r = Random::new(SEED, "crc");
    crc_line(out, b"123456789");
    for n in 0..=600 {
        crc_line(out, &r.bytes(n));
    }
    for n in [1, 2, 3, 4, 8, 16, 64, 255, 256, 512] {
        crc_line(out, &vec![0x00; n]);
        crc_line(out, &vec![0xFF; n]);
    }
}

fn crc_line(out: &mut String, data: &[u8]) {
    line!(out, "crc", to_hex(data), to_hex(&answers::crc(data).to_be_bytes()));
}

fn push(out: &mut String) {
    *out += "# push V AT W N HEX: push(V, AT) into nothing, then push(W, N), packed; every N at every AT modulo 8.\n";
    let mut r = Random::new(SEED, "push");
    for (at, n) in [(0, 0), (0, 1), (0, 64), (1, 64), (63, 1), (64, 0), (64, 64)] {
        push_line(out, u64::MAX, at, r.number(), n);
    }
    for n in 0..=64 {
        for residue in 0..8 {
            push_line(out, some_word(&mut r), place(&mut r, residue), some_word(&mut r), n);
        }
    }
}

fn push_line(out: &mut String, v: u64, at: usize, w: u64, n: usize) {
    line!(out, "push", v, at, w, n, to_hex(&bits::push(v, at, w, n)));
}

fn bfi(out: &mut String) {
    *out += "# bfi V AT W N HEX: push(V, AT) into nothing, then push_bfi(W, N), packed; W narrower, as wide, wider.\n";
    let mut r = Random::new(SEED, "bfi");
    for n in 1..=64 {
        let (narrower, wider) = (r.below(n), n + r.below(65 - n));
        for (k, width) in [0, narrower, n - 1, n, (n + 1).min(64), wider, 64].into_iter().enumerate() {
            bfi_line(out, some_word(&mut r), place(&mut r, (n + k) % 8), of_width(&mut r, width), n);
        }
    }
}

fn bfi_line(out: &mut String, v: u64, at: usize, w: u64, n: usize) {
    line!(out, "bfi", v, at, w, n, to_hex(&bits::push_bfi(v, at, w, n)));
}

fn text(out: &mut String) {
    *out += "# text V AT TEXT HEX: push(V, AT) into nothing, then push_text7(TEXT), packed; AT 0 to 16.\n";
    let mut r = Random::new(SEED, "text");
    for at in 0..=16 {
        for v in [0, 1] {
            text_line(out, v, at, &[]);
        }
    }
    for n in 1..=40 {
        for alphabet in [0x80, 0x80, 0x80, 0x100, 0x100] {
            let (v, at) = (r.number() >> 48, r.below(17));
            text_line(out, v, at, &codes(&mut r, n, alphabet));
        }
        text_line(out, r.number() >> 48, r.below(17), &printable(&mut r, n));
        text_line(out, 1, 0, &printable(&mut r, n));
    }
    for n in [41, 48, 56, 63, 64, 80, 100, 127, 128, 199, 200] {
        text_line(out, r.number() >> 48, r.below(17), &codes(&mut r, n, 0x100));
    }
}

fn text_line(out: &mut String, v: u64, at: usize, text: &[u8]) {
    line!(out, "text", v, at, to_hex(text), to_hex(&bits::push_text7(v, at, text)));
}

fn take(out: &mut String) {
    *out += "# take AT N HEX VALUE: take(N) at bit AT; every N inside, up to the end and one beyond it.\n";
    let mut r = Random::new(SEED, "take");
    for n in [0, 1, 8] {
        take_line(out, 0, n, &[]);
    }
    for n in 0..=64 {
        for data in [r.bytes(8), r.bytes(9), r.bytes(10), r.bytes(17)] {
            take_line(out, r.below(8 * data.len() + 1 - n), n, &data);
        }
        let data = some_bytes(&mut r, n.div_ceil(8));
        take_line(out, 8 * data.len() - n, n, &data);
        take_line(out, (8 * data.len() + 1).saturating_sub(n).min(8 * data.len()), n, &data);
        take_line(out, r.below(8 * data.len() + 1), n, &data);
    }
}

fn take_line(out: &mut String, at: usize, n: usize, data: &[u8]) {
    line!(out, "take", at, n, to_hex(data), or_none(bits::take(data, at, n)));
}

fn digits(out: &mut String) {
    *out += "# digits AT N HEX VALUE: text(N) at bit AT, its digits 0 and 1 read by vb_val; N 0 to 16.\n";
    let mut r = Random::new(SEED, "digits");
    for n in [0, 1, 8] {
        digits_line(out, 0, n, &[]);
    }
    for n in 0..=16 {
        for residue in 0..8 {
            let data = r.bytes(4);
            digits_line(out, residue + 8 * r.below(2), n, &data);
        }
        for _ in 0..6 {
            let data = some_bytes(&mut r, n.div_ceil(8));
            digits_line(out, r.below(8 * data.len() + 1), n, &data);
        }
        for data in [r.bytes(2), r.bytes(3), vec![0x00; 3], vec![0xFF; 3]] {
            digits_line(out, 8 * data.len() - n, n, &data);
            digits_line(out, 8 * data.len() - n.saturating_sub(1), n, &data);
        }
    }
}

fn digits_line(out: &mut String, at: usize, n: usize, data: &[u8]) {
    line!(out, "digits", at, n, to_hex(data), or_none(bits::text(data, at, n)));
}

fn text7(out: &mut String) {
    *out += "# text7 AT HEX TEXT: text7() at bit AT; texts written by push_text7, any bytes, long last runs.\n";
    let mut r = Random::new(SEED, "text7");
    text7_line(out, 0, &[]);
    for n in 0..=40 {
        for text in [codes(&mut r, n, 0x80), codes(&mut r, n, 0x100), printable(&mut r, n)] {
            let (v, at) = (r.number() >> 48, r.below(17));
            text7_line(out, at, &bits::push_text7(v, at, &text));
        }
        let data = some_bytes(&mut r, n);
        text7_line(out, r.below(8 * data.len() + 1), &data);
        text7_line(out, r.below(8), &data);
        text7_line(out, 8 * data.len(), &data);
    }
    for run in 1..=12 {
        for pad in [0x00, 0xFF] {
            last_run(out, &mut r, pad, run);
        }
    }
}

/// A last run of equal bytes: the place before it, in it and at its end, then the run alone.
fn last_run(out: &mut String, r: &mut Random, pad: u8, run: usize) {
    let alone = vec![pad; run];
    let head = some_bytes(r, 6);
    let data = [&head[..], &alone[..]].concat();
    text7_line(out, r.below(8 * head.len()), &data);
    text7_line(out, 8 * head.len() + r.below(8 * run), &data);
    text7_line(out, 8 * data.len(), &data);
    for at in [0, r.below(8 * run), 8 * run] {
        text7_line(out, at, &alone);
    }
}

fn text7_line(out: &mut String, at: usize, data: &[u8]) {
    line!(out, "text7", at, to_hex(data), or_none(bits::text7(data, at).map(|text| to_hex(&text))));
}

fn val(out: &mut String) {
    *out += "# val HEX NUMBER: vb_val over digits, blanks and other bytes, and around the largest number.\n";
    let mut r = Random::new(SEED, "val");
    for text in WRITTEN_VALS {
        val_line(out, text.as_bytes());
    }
    for other in 0..=255 {
        val_line(out, &[b'4', b'2', other, b'7']);
    }
    for n in 15..=40 {
        let text = drawn(&mut r, n, b"0123456789");
        val_line(out, &text);
        val_line(out, &[&b"000 0"[..], &text[..n.min(19)]].concat());
    }
    for n in 1..=24 {
        for alphabet in [&b"0123456789 "[..], b"0123456789     ", MIXED_VAL] {
            for _ in 0..3 {
                val_line(out, &drawn(&mut r, n, alphabet));
            }
        }
    }
}

fn val_line(out: &mut String, text: &[u8]) {
    line!(out, "val", to_hex(text), bits::vb_val(text));
}

/// Digits and blanks with some bytes that end a number, neighbours of the digits among them.
const MIXED_VAL: &[u8] = b"01234567890123456789    \t\n-+.,/:;AZaz\x00\x7F\x80\xB2\xFF";

/// Texts around the largest number of 64 bits, and blanks in every place.
const WRITTEN_VALS: [&str; 24] = [
    "",
    " ",
    "     ",
    "0",
    "00",
    "9",
    " 7",
    "7 ",
    " 1 2 3 ",
    "-1",
    "+1",
    "1.5",
    "x",
    "1x2",
    "1844674407370955161",
    "1844674407370955162",
    "18446744073709551614",
    "18446744073709551615",
    "18446744073709551616",
    "18446744073709551619",
    "18446744073709551620",
    "018446744073709551615",
    "184467440737095516150",
    "99999999999999999999 1",
];

fn count(out: &mut String) {
    *out += "# count TOTAL FIELD ANSWER: around every length that takes another fragment, and outside the domain.\n";
    for field in [3, 4, 5, 6, 17, 100, 255, 511, 512] {
        for total in [0, 1, field - 1, field, field + 1, 4_999, 5_000, 5_001] {
            count_line(out, total, field);
        }
        for count in [2, 3, 9, 10, 17, 18] {
            count_line(out, (count * (field - 1)).min(5_000), field);
            count_line(out, (count * (field - 1) + 1).min(5_001), field);
        }
    }
    for field in [0, 1, 2, 513, 514, usize::MAX] {
        for total in [0, 5_000, 5_001, usize::MAX] {
            count_line(out, total, field);
        }
    }
}

fn count_line(out: &mut String, total: usize, field: usize) {
    line!(out, "count", total, field, or_refused(answers::count(total, field)));
}

fn fragment(out: &mut String) {
    *out += "\
# fragment FIELD K ROOM MASK HEX ANSWER: fragment K, from 0, of a message, to an output of ROOM bytes. The source takes
# any mask and any count. Where the mask is not the top 1 to 7 bits of a byte, and where there are more fragments than
# 129 under 80, 65 under C0, 33 under E0, 17 under F0, 9 under F8, 5 under FC and 3 under FE, the refusal is recorded.
";
    let mut r = Random::new(SEED, "fragment");
    for mask in MASKS {
        some_fragments(out, &WORKED, 5, mask, &mut r);
        some_fragments(out, &WORKED, 3, mask, &mut r);
        limit(out, 3, mask, &mut r);
    }
    for (field, mask) in [(4, 0xC0), (5, 0xE0), (4, 0xF0), (5, 0xF0), (7, 0xF8), (16, 0xFC), (31, 0xFE)] {
        limit(out, field, mask, &mut r);
    }
    for field in [3, 4, 5, 6, 8, 11, 16, 31] {
        short_messages(out, field, &mut r);
    }
    long_messages(out, &mut r);
    refused_messages(out, &mut r);
}

/// The message of a frame from K1A to CQ with the text A.
const WORKED: [u8; 7] = [0x40, 0xAC, 0xB7, 0x01, 0x00, 0x10, 0x40];

/// Messages around the most fragments of a mask: the longest of one less, the shortest and the longest of as many, the
/// shortest of one more, and the shortest of two more.
fn limit(out: &mut String, field: usize, mask: u8, r: &mut Random) {
    let (most, room) = (answers::most(mask), field - 1);
    for total in [(most - 1) * room, (most - 1) * room + 1, most * room, most * room + 1, (most + 1) * room + 1] {
        some_fragments(out, &message(r, total), field, mask, r);
    }
}

/// Of few fragments all and one more; of many the first two, two drawn ones, the last and one more; where the message is
/// refused, the first and one more.
fn some_fragments(out: &mut String, message: &[u8], field: usize, mask: u8, r: &mut Random) {
    let count = answers::count(message.len(), field).expect("a field and a length of the domain");
    let mut numbers = match answers::sent(message, field, mask) {
        Err(_) => vec![0, count],
        Ok(_) if count <= 9 => (0..=count).collect(),
        Ok(_) => vec![0, 1, r.below(count), r.below(count), count - 1, count],
    };
    numbers.sort_unstable();
    numbers.dedup();
    for k in numbers {
        fragment_line(out, message, field, mask, k, field);
    }
}

/// Messages of up to four fragments, to outputs that are too short, exact and longer.
fn short_messages(out: &mut String, field: usize, r: &mut Random) {
    for total in [1, field - 1, field, field + 1, 2 * (field - 1), 2 * (field - 1) + 1, 3 * (field - 1) + 1] {
        let message = message(r, total);
        let (k, mask) = (r.below(4), r.one_of(&MASKS));
        for room in [0, field - 1, field, field + 1 + r.below(9)] {
            fragment_line(out, &message, field, mask, k, room);
        }
        fragment_line(out, &message, field, mask, 0, message.len().min(field));
    }
}

fn long_messages(out: &mut String, r: &mut Random) {
    for (total, k) in [(511, 0), (512, 0), (513, 0), (513, 1), (1_022, 1), (5_000, 0), (5_000, 9), (5_001, 0)] {
        fragment_line(out, &message(r, total), 512, 0xF0, k, 512);
    }
    fragment_line(out, &message(r, 4_600), 512, 0xF8, 9, 512);
    fragment_line(out, &message(r, 5_000), 40, 0x80, 128, 40);
}

/// Every byte that is no mask.
fn bad_masks() -> impl Iterator<Item = u8> {
    (0..=255).filter(|byte| !MASKS.contains(byte))
}

/// One refusal after the other, and two at once.
fn refused_messages(out: &mut String, r: &mut Random) {
    let good = message(r, 6);
    for field in [0, 1, 2, 513, usize::MAX] {
        fragment_line(out, &good, field, 0xF0, 0, 512);
    }
    for mask in bad_masks() {
        fragment_line(out, &good, 5, mask, 0, 512);
    }
    fragment_line(out, &[], 5, 0xF0, 0, 512);
    fragment_line(out, &[0x80], 5, 0xF0, 0, 512);
    fragment_line(out, &[0xFF, 0x01], 5, 0xF8, 1, 0);
    fragment_line(out, &[0x7F, 0x01], 5, 0xF8, 1, 0);
    for k in [2, 3, usize::MAX] {
        fragment_line(out, &good, 5, 0xF0, k, 0);
    }
    fragment_line(out, &[], 2, 0x00, 9, 0);
    fragment_line(out, &[], 5, 0x00, 9, 0);
    fragment_line(out, &[0x80; 40], 3, 0xF0, 99, 0);
    fragment_line(out, &[0x40; 40], 3, 0xF0, 99, 0);
    fragment_line(out, &[0x40; 30], 3, 0xF0, 99, 0);
    fragment_line(out, &[0x40; 30], 3, 0xF0, 2, 0);
}

fn fragment_line(out: &mut String, message: &[u8], field: usize, mask: u8, k: usize, room: usize) {
    let fragments = answers::sent(message, field, mask);
    let answer = fragments.and_then(|all| all.into_iter().nth(k).ok_or(13)).and_then(|f| within(f, room));
    line!(out, "fragment", field, k, room, to_hex(&[mask]), to_hex(message), or_refused(answer.map(|f| to_hex(&f))));
}

/// 6 where there is no room.
fn within(bytes: Vec<u8>, room: usize) -> Result<Vec<u8>, u8> {
    if bytes.len() <= room { Ok(bytes) } else { Err(6) }
}

fn frame(out: &mut String) {
    *out += "\
# frame FIELD ROOM BYTES HEX ANSWER: the frame of a fragment, to an output of ROOM bytes; BYTES are reply, compressed,
# hint and marker, a byte each. What document 01 refuses, the source frames: the refusal is recorded.
";
    let mut r = Random::new(SEED, "frame");
    for field in 3..=16 {
        for n in 0..=field + 1 {
            let bytes = [r.below(4) as u8, r.below(2) as u8, r.below(8) as u8, r.byte()];
            let room = field + 3 + [0, 0, 1, 7][r.below(4)];
            frame_line(out, field, room, bytes, &r.bytes(n));
        }
    }
    for reply in 0..=4 {
        for hint in 0..=8 {
            let bytes = [reply, r.below(2) as u8, hint, r.byte()];
            frame_line(out, 3, 6, bytes, &r.bytes(2 + usize::from(hint & 1)));
        }
    }
    for n in [1, 2, 6, 7, 8] {
        for room in [0, 9, 10, 11, 12] {
            frame_line(out, 8, room, [1, 0, 5, 0x01], &[0x14; 8][..n]);
        }
        frame_line(out, 8, 11, [1, 0xFF, 5, 0x14], &r.bytes(n));
    }
    for field in [0, 1, 2, 512, 513, usize::MAX] {
        for n in [1, 511, 512, 513] {
            frame_line(out, field, 600, [3, 1, 7, 0xFF], &r.bytes(n));
        }
    }
    for (field, n, marker, reply, hint) in [(2, 0, 0x14, 9, 9), (5, 0, 0x14, 9, 9), (5, 1, 0x14, 9, 9), (5, 1, 0, 9, 9)]
    {
        frame_line(out, field, 0, [reply, 0, hint, marker], &r.bytes(n));
    }
    frame_line(out, 5, 0, [0, 0, 255, 0], &[0x41]);
    frame_line(out, 5, 0, [255, 0, 0, 0], &[0x41]);
    frame_line(out, 5, 7, [0, 0, 0, 0], &[0x41]);
}

fn frame_line(out: &mut String, field: usize, room: usize, bytes: [u8; 4], data: &[u8]) {
    let [reply, compressed, hint, marker] = bytes;
    let answer = answers::framed(field, data, reply, compressed != 0, hint, marker).and_then(|f| within(f, room));
    line!(out, "frame", field, room, to_hex(&bytes), to_hex(data), or_refused(answer.map(|f| to_hex(&f))));
}

fn history(out: &mut String) {
    *out += "\
# history MASK CALL CALL ..: a new receiver and calls on it in order. A call is p:FIELD:HEX=ANSWER, a push, j:N:HEX=ANSWER,
# a join of the N first bytes, or r, a reset; an answer is dropped, more, done:HEX or refused:N.
";
    let mut r = Random::new(SEED, "history");
    for mask in bad_masks() {
        line!(out, "history", to_hex(&[mask]), "refused:9");
    }
    for mask in MASKS {
        whole_messages(out, mask, &mut r);
        other_masks(out, mask, &mut r);
        short_fragments(out, mask);
        last_terminator(out, mask);
        for _ in 0..24 {
            faults(out, mask, &mut r);
        }
    }
    long_runs(out, &mut r);
    many_bytes(out, &mut r);
}

/// A line of calls on one receiver, and the source's receiver that answers them.
struct History {
    line: String,
    receiver: Receiver,
}

impl History {
    fn new(mask: u8) -> Self {
        History::of("history", mask)
    }

    /// A line of this kind.
    fn of(kind: &str, mask: u8) -> Self {
        History { line: format!("{kind} {mask:02X}"), receiver: Receiver::new(mask) }
    }

    /// A push, with the refusal of document 01 where the field is outside the domain.
    fn push(&mut self, field: usize, frame: &[u8]) {
        let answer =
            if FIELDS.contains(&field) { heard(self.receiver.push(frame, field)) } else { "refused:8".to_string() };
        self.line += &format!(" p:{field}:{}={answer}", to_hex(frame));
    }

    fn join(&mut self, n: usize, f: &[u8]) {
        let answer = heard(self.receiver.join(f, n));
        self.line += &format!(" j:{n}:{}={answer}", to_hex(f));
    }

    fn reset(&mut self) {
        self.receiver.reset();
        self.line += " r";
    }

    /// All of a fragment, as a join.
    fn fragment(&mut self, f: &[u8]) {
        self.join(f.len(), f);
    }

    fn end(self, out: &mut String) {
        *out += &(self.line + "\n");
    }
}

fn heard(answer: Answer) -> String {
    match answer {
        Answer::Dropped => "dropped".to_string(),
        Answer::More => "more".to_string(),
        Answer::Done(message) => format!("done:{}", to_hex(&message)),
    }
}

/// Messages of few fragments, of the most that the mask has room for and of one more, one after the other, by frames and
/// by fragments.
fn whole_messages(out: &mut String, mask: u8, r: &mut Random) {
    let most = answers::most(mask);
    for field in [3, 4 + r.below(10)] {
        let (mut pushes, mut joins) = (History::new(mask), History::new(mask));
        for count in [1, 2, 3, most, most + 1] {
            for f in fragments_of(r, count, field, mask) {
                pushes.push(field, &framed(r, field, &f));
                joins.fragment(&f);
            }
        }
        pushes.end(out);
        joins.end(out);
    }
}

/// Messages that were sent under each of the masks and are heard under this one.
fn other_masks(out: &mut String, mask: u8, r: &mut Random) {
    let mut h = History::new(mask);
    for f in MASKS.into_iter().flat_map(|sender| answers::split(&message(r, 6), 3, sender)) {
        h.fragment(&f);
    }
    h.end(out);
}

/// A More of one byte, with and without a second byte behind it, and fragments that are none.
fn short_fragments(out: &mut String, mask: u8) {
    let mut h = History::new(mask);
    h.join(1, &[0xC1]);
    h.join(1, &[0x41]);
    h.join(1, &[0xC1, 0x05]);
    h.join(1, &[0xC1]);
    h.join(1, &[0x42]);
    h.join(2, &[0xC1, 0x05]);
    h.join(0, &[0x41]);
    h.join(2, &[0x41]);
    h.join(usize::MAX, &[0x41]);
    h.join(0, &[]);
    h.reset();
    h.join(1, &[0x43]);
    h.end(out);
}

/// The last 14 of the field is the end, wherever others stand; without one, and without bit 0 of control, nothing is heard.
fn last_terminator(out: &mut String, mask: u8) {
    let mut h = History::new(mask);
    for data in [&[0x41, 0x14, 0x42][..], &[0x41, 0x14, 0x14], &[0x41, 0x14, 0x42, 0x14, 0x43]] {
        for marker in [0x01, 0x14] {
            h.push(7, &answers::frame(7, data, 0, false, 0, marker));
        }
    }
    h.push(7, &answers::frame(7, &[0x41, 0x14, 0x42, 0x14, 0x43, 0x14, 0x44], 0, false, 0, 0x01));
    h.push(5, &[0x41, 0x42, 0x14, 0x43, 0x44, 0x00, 0x00, 0x00]);
    h.push(5, &[0x41, 0x42, 0x43, 0x44, 0x45, 0x00, 0x00, 0x00]);
    h.push(5, &[0x14, 0x42, 0x43, 0x44, 0x45, 0x00, 0x00, 0x00]);
    h.push(5, &[0x14, 0x42, 0x43, 0x44, 0x14, 0xFE, 0xFF, 0xFF]);
    h.push(5, &[0x14, 0x42, 0x43, 0x44, 0x14, 0xFF, 0xFF, 0xFF]);
    h.push(5, &[0x41, 0x42, 0x43, 0x44, 0x45, 0x14, 0x14, 0x14]);
    h.end(out);
}

/// Up to 255 fragments make a message. The 256th is dropped: as a last one the receiver is clear, with More all up to the
/// last is dropped. Messages after it show which.
fn long_runs(out: &mut String, r: &mut Random) {
    let runs = [(0xF0, 254), (0xF0, 256), (0x80, 256), (0xF8, 257), (0xF0, 260)];
    for (mask, count) in MASKS.map(|mask| (mask, 255)).into_iter().chain(runs) {
        long_run(out, mask, count, r);
    }
    let mut h = History::new(0xF0);
    for f in answers::split(&message(r, 2 * 256), 3, 0xF0) {
        h.push(3, &answers::frame(3, &f, 0, false, 0, 0x01));
    }
    h.push(3, &answers::frame(3, &[0x41], 0, false, 0, 0x01));
    h.end(out);
}

/// A message of so many fragments, and two messages after it. No mask has room for its count: its check byte is all of the
/// CRC's high byte.
fn long_run(out: &mut String, mask: u8, count: usize, r: &mut Random) {
    let mut h = History::new(mask);
    let long = message(r, 2 * count);
    let mut fragments = answers::split(&long, 3, mask);
    fragments[0][1] = (answers::crc(&long) >> 8) as u8;
    fragments.push(vec![0x41, 0x42]);
    fragments.extend(answers::split(&message(r, 5), 3, mask));
    for f in fragments {
        h.fragment(&f);
    }
    h.end(out);
}

/// 5,000 bytes are a message, 5,001 are dropped: at the last fragment, and at one with More, after which all is dropped
/// up to the last.
fn many_bytes(out: &mut String, r: &mut Random) {
    for (total, mask) in [(5_000, 0xF0), (5_001, 0xF0), (5_001, 0xF8)] {
        let mut h = History::new(mask);
        let mut fragments = answers::split(&message(r, total), 512, mask);
        if mask == 0xF8 {
            let last = fragments.last_mut().expect("a message that is not empty");
            last[0] |= 0x80;
            fragments.extend([vec![0xC1, 0x42], vec![0x41, 0x43]]);
        }
        for f in fragments {
            h.fragment(&f);
        }
        h.fragment(&[0x41, 0x42]);
        h.end(out);
    }
}

/// Two messages whose frames come in turn, damaged, cut, left out, twice or with another field.
fn faults(out: &mut String, mask: u8, r: &mut Random) {
    let field = 3 + r.below(9);
    let mut h = History::new(mask);
    for _ in 0..3 {
        let mut queues = [0, 1].map(|_| {
            let total = 1 + r.below(5 * (field - 1));
            answers::split(&message(r, total), field, mask).into_iter()
        });
        let other = r.below(3) == 0;
        while let Some(f) = queues[usize::from(other && r.below(3) == 0)].next() {
            let mut bytes = framed(r, field, &f);
            match r.below(20) {
                0 => bytes[r.below(field + 3)] ^= 1 << r.below(8),
                1 => bytes.truncate(r.below(field + 3)),
                2 => bytes.push(r.byte()),
                3 => h.push(field, &bytes),
                4 => continue,
                5 => h.reset(),
                6 => h.push([0, 2, 513, field + 1][r.below(4)], &bytes),
                7 => h.join(1 + r.below(f.len()), &f),
                _ => {}
            }
            h.push(field, &bytes);
        }
    }
    h.end(out);
}

fn framed(r: &mut Random, field: usize, f: &[u8]) -> Vec<u8> {
    answers::frame(field, f, r.below(4) as u8, r.below(2) == 0, r.below(8) as u8, r.byte())
}

/// A message of so many fragments.
fn fragments_of(r: &mut Random, count: usize, field: usize, mask: u8) -> Vec<Vec<u8>> {
    let total = count * (field - 1) - r.below(field - 1);
    answers::split(&message(r, total), field, mask)
}

/// Bytes with a first one below 80.
fn message(r: &mut Random, total: usize) -> Vec<u8> {
    let mut bytes = r.bytes(total);
    bytes[0] &= 0x7F;
    bytes
}

fn encode(out: &mut String) {
    *out += "\
# encode CMD ROOM HEX ANSWER: data coded under a command, to an output of ROOM bytes; an answer is TYPE:HEX or refused:N.
# Every type and refusal, calls and bodies of every odd kind, a text at every place of a bit, drawn ones, frames with a
# control byte of 03, 13 and beside them, digipeaters with each byte below 80 as a letter, the longest.
";
    let mut r = Random::new(SEED, "encode");
    for (k, (command, data)) in cases::all(&mut r).into_iter().enumerate() {
        for room in rooms(message_of(command, &data)).into_iter().take(if k % 5 == 0 { 2 } else { 1 }) {
            encode_line(out, command, &data, room);
        }
    }
    for (command, data) in cases::texts(&mut r).into_iter().chain(drawn_data(&mut r, 400)) {
        let room = message_of(command, &data).map_or(0, |m| m.len() + [0, 0, 0, 7][r.below(4)]);
        encode_line(out, command, &data, room);
    }
    for (command, data) in cases::polled().into_iter().chain(cases::relayed()).chain(cases::longest(&mut r)) {
        encode_line(out, command, &data, 5_000);
    }
}

fn encode_line(out: &mut String, command: u8, data: &[u8], room: usize) {
    let answer = answers::encode(command, data).and_then(|(m, typ)| Ok(format!("{typ}:{}", to_hex(&within(m, room)?))));
    line!(out, "encode", command, room, to_hex(data), or_refused(answer));
}

fn summary(out: &mut String) {
    *out += "# summary CMD HEX ANSWER: type, digipeaters and 1 where control is 03 or 13, as TYPE:DIGIS:UI, or refused:N.\n";
    let mut r = Random::new(SEED, "summary");
    let short = |(_, data): &(u8, Vec<u8>)| data.len() < 60;
    let some = cases::all(&mut r).into_iter().filter(short).step_by(4);
    let all = cases::refused().into_iter().chain(cases::polled()).chain(cases::digipeaters()).chain(some);
    for (command, data) in all.chain(drawn_data(&mut r, 200)).chain(cases::longest(&mut r).into_iter().skip(3)) {
        summary_line(out, command, &data);
    }
}

fn summary_line(out: &mut String, command: u8, data: &[u8]) {
    let answer = answers::summary(command, data).map(|(typ, digis, ui)| format!("{typ}:{digis}:{}", u8::from(ui)));
    line!(out, "summary", command, to_hex(data), or_refused(answer));
}

fn decode(out: &mut String) {
    *out += "\
# decode ROOM HEX ANSWER: a message decoded to an output of ROOM bytes; an answer is CMD:HEX or refused:N. Coded messages,
# the same cut and damaged, what no coder writes, any bytes, and the longest, one of which has the longest data.
";
    let mut r = Random::new(SEED, "decode");
    let coded: Vec<Vec<u8>> = cases::all(&mut r).iter().filter_map(|(command, d)| message_of(*command, d)).collect();
    for (k, message) in coded.iter().step_by(2).chain(&cases::messages(&mut r)).enumerate() {
        for room in rooms(data_of(message)).into_iter().take(if k % 5 == 0 { 2 } else { 1 }) {
            decode_line(out, message, room);
        }
    }
    for (command, data) in cases::texts(&mut r).into_iter().chain(drawn_data(&mut r, 200)) {
        let mut message = message_of(command, &data).unwrap_or_default();
        if r.below(4) == 0 {
            frames::damage(&mut r, &mut message);
        }
        let room = data_of(&message).map_or(0, |d| d.len() + [0, 0, 0, 7][r.below(4)]);
        decode_line(out, &message, room);
    }
    cut_messages(out, &coded);
    for n in 0..60 {
        for _ in 0..3 {
            let message = r.bytes(n);
            for room in rooms(data_of(&message)) {
                decode_line(out, &message, room);
            }
        }
    }
    let heard = cases::polled().into_iter().chain(cases::relayed());
    let messages = heard.filter_map(|(command, data)| message_of(command, &data));
    for message in messages.chain(cases::long_messages(&mut r)) {
        decode_line(out, &message, data_of(&message).map_or(0, |d| d.len()));
    }
    decode_line(out, &cases::largest(), 45_763);
}

/// A message of each type at every length.
fn cut_messages(out: &mut String, coded: &[Vec<u8>]) {
    let mut seen = Vec::new();
    for message in coded {
        let Ok((command, data)) = answers::decode(message) else { continue };
        let kind = answers::encode(command, &data).map(|(_, typ)| (command, typ));
        if message.len() > 16 && message.len() < 50 && !seen.contains(&kind) {
            for n in 0..message.len() {
                decode_line(out, &message[..n], 200);
            }
            seen.push(kind);
        }
    }
}

fn decode_line(out: &mut String, message: &[u8], room: usize) {
    let answer =
        answers::decode(message).and_then(|(command, d)| Ok(format!("{command}:{}", to_hex(&within(d, room)?))));
    line!(out, "decode", room, to_hex(message), or_refused(answer));
}

/// The message that data are coded to, where they are.
fn message_of(command: u8, data: &[u8]) -> Option<Vec<u8>> {
    answers::encode(command, data).ok().map(|(message, _)| message)
}

/// The data that a message is decoded to, where it is.
fn data_of(message: &[u8]) -> Option<Vec<u8>> {
    answers::decode(message).ok().map(|(_, data)| data)
}

/// As much room as an answer takes and one byte less; for a refusal none.
fn rooms(answer: Option<Vec<u8>>) -> Vec<usize> {
    answer.map_or(vec![0], |bytes| vec![bytes.len(), bytes.len().saturating_sub(1)])
}

/// So many drawn data of at most 100 bytes.
fn drawn_data(r: &mut Random, n: usize) -> Vec<(u8, Vec<u8>)> {
    std::iter::repeat_with(|| frames::data(r)).filter(|(_, data)| data.len() <= 100).take(n).collect()
}

fn channel(out: &mut String) {
    *out += "\
# channel MASK STEP STEP ..: a new receiver, nothing kept, and steps in order; a refused step changes nothing. A step is a call
# of a history, n:MASK=ANSWER, a new receiver over the same store, k:NAME=ANSWER, which keeps the receiver and its store under
# a name, r:NAME=ANSWER, which returns to a name, or x:NAME=ANSWER, which drops one. These four answer ok, the place of a name from
# 0 on, or refused:N, where 20 and 21 are document 02's. What is kept are clones of the source's receiver.
";
    let mut r = Random::new(SEED, "channel");
    worked_channel(out);
    for mask in MASKS {
        left_messages(out, mask, &mut r);
        left_at_each_fragment(out, mask, &mut r);
        gone_on(out, mask, &mut r);
        replaced(out, mask, &mut r);
        eight_names(out, mask, &mut r);
        for _ in 0..20 {
            drawn_steps(out, mask, &mut r);
        }
    }
    refused_masks(out);
    name_lengths(out, &mut r);
    like_names(out, &mut r);
    many_fragments(out, &mut r);
    full_stores(out, &mut r);
}

/// What is still to be heard of a message: its fragments, to be sent with this field.
#[derive(Clone, Default)]
struct Rest {
    field: usize,
    fragments: VecDeque<Vec<u8>>,
}

/// A line of steps, the source's receiver that answers them and its clones, each with the rest of its message.
struct Channel {
    calls: History,
    mask: u8,
    rest: Rest,
    kept: Kept<(Receiver, u8, Rest)>,
}

impl Channel {
    fn new(mask: u8) -> Self {
        Channel { calls: History::of("channel", mask), mask, rest: Rest::default(), kept: Kept::none() }
    }

    /// A message of so many fragments is to be heard.
    fn sent(&mut self, r: &mut Random, count: usize, field: usize) {
        self.rest = Rest { field, fragments: fragments_of(r, count, field, self.mask).into() };
    }

    /// The next fragments, so many at most, each as a push or as a join.
    fn hear(&mut self, r: &mut Random, count: usize) {
        for _ in 0..count {
            let Some(f) = self.rest.fragments.pop_front() else { return };
            match r.below(2) {
                0 => self.calls.push(self.rest.field, &framed(r, self.rest.field, &f)),
                _ => self.calls.fragment(&f),
            }
        }
    }

    /// All that is still to be heard.
    fn complete(&mut self, r: &mut Random) {
        self.hear(r, usize::MAX);
    }

    /// A new receiver, where its mask is not refused.
    fn renew(&mut self, mask: u8) {
        let good = MASKS.contains(&mask);
        if good {
            self.calls.receiver = Receiver::new(mask);
            (self.mask, self.rest) = (mask, Rest::default());
        }
        self.step("n", &[mask], if good { Ok("ok") } else { Err(9) });
    }

    fn keep(&mut self, name: &[u8]) {
        let place = self.kept.keep(name, &(self.calls.receiver.clone(), self.mask, self.rest.clone()));
        self.step("k", name, place);
    }

    fn return_to(&mut self, name: &[u8]) {
        let returned = self.kept.returned(name);
        let answer = returned.map(|kept| (self.calls.receiver, self.mask, self.rest) = kept);
        self.step("r", name, answer.map(|()| "ok"));
    }

    fn drop_name(&mut self, name: &[u8]) {
        let place = self.kept.drop_name(name);
        self.step("x", name, place);
    }

    fn step<T: ToString>(&mut self, kind: &str, bytes: &[u8], answer: Result<T, u8>) {
        self.calls.line += &format!(" {kind}:{}={}", to_hex(bytes), or_refused(answer));
    }

    /// Other stations are heard under masks that are not this one: messages of longer fragments, to the end or not.
    fn others(&mut self, r: &mut Random) {
        let masks: Vec<u8> = MASKS.into_iter().filter(|&mask| mask != self.mask).collect();
        for _ in 0..1 + r.below(2) {
            self.renew(r.one_of(&masks));
            let field = 12 + r.below(16);
            self.sent(r, 3, field);
            let heard = 1 + r.below(3);
            self.hear(r, heard);
        }
    }

    /// A new receiver under a drawn mask, and a message without its end.
    fn half(&mut self, r: &mut Random) {
        self.renew(r.one_of(&MASKS));
        let (count, field) = (2 + r.below(2), 3 + r.below(12));
        self.sent(r, count, field);
        self.hear(r, count - 1);
    }

    /// The next fragment; where there is none, the first of another message.
    fn go_on(&mut self, r: &mut Random) {
        if self.rest.fragments.is_empty() {
            let (count, field) = (1 + r.below(answers::most(self.mask).min(5)), 3 + r.below(12));
            self.sent(r, count, field);
        }
        self.hear(r, 1);
    }

    /// All of a message in one fragment with More, so that a last fragment with no byte of its own completes it.
    fn full(&mut self, message: &[u8]) {
        let check = (answers::crc(message) >> 8) as u8;
        self.calls.fragment(&[&[message[0] | 0x80, check], &message[1..]].concat());
    }

    fn end(self, out: &mut String) {
        self.calls.end(out);
    }
}

/// A message is left half heard and completed, another is heard in between, and the names run out.
fn worked_channel(out: &mut String) {
    let [first, last] = [0, 1].map(|k| answers::frame(5, &answers::split(&WORKED, 5, 0xF0)[k], 0, false, 0, 0x01));
    let mut c = Channel::new(0xF0);
    c.calls.push(5, &first);
    c.keep(b"net");
    c.renew(0xF8);
    c.calls.push(5, &last);
    c.calls.push(5, &first);
    c.keep(b"fm");
    c.return_to(b"net");
    c.calls.push(5, &last);
    c.drop_name(b"net");
    c.return_to(b"net");
    for name in [b"x", b"2", b"3", b"4", b"5", b"6", b"7", b"9"] {
        c.keep(name);
    }
    c.keep(b"fm");
    c.keep(b"");
    c.keep(b"ninebytes");
    c.end(out);
}

/// Messages of two to the most fragments, left after each fragment; of many fragments after the first, a drawn one and the
/// last but one.
fn left_messages(out: &mut String, mask: u8, r: &mut Random) {
    let most = answers::most(mask);
    for count in (2..5).filter(|&count| count < most).chain([most]) {
        let places = if count <= 5 { (1..count).collect() } else { vec![1, 2 + r.below(count - 3), count - 1] };
        for heard in places {
            left_message(out, mask, count, heard, r);
        }
    }
}

/// A message of which so many fragments are heard before it is left.
fn left_message(out: &mut String, mask: u8, count: usize, heard: usize, r: &mut Random) {
    let mut c = Channel::new(mask);
    let field = 3 + r.below(6);
    c.sent(r, count, field);
    c.hear(r, heard);
    c.keep(b"left");
    c.others(r);
    c.return_to(b"left");
    c.complete(r);
    c.end(out);
}

/// One message, left after each fragment under one name and others heard in between.
fn left_at_each_fragment(out: &mut String, mask: u8, r: &mut Random) {
    let mut c = Channel::new(mask);
    c.sent(r, answers::most(mask).min(9), 5);
    while !c.rest.fragments.is_empty() {
        c.hear(r, 1);
        c.keep(b"left");
        c.others(r);
        c.return_to(b"left");
    }
    c.end(out);
}

/// A message goes on after it is kept, and each return makes it as it was: it is completed again, ends as another one and is
/// completed once more.
fn gone_on(out: &mut String, mask: u8, r: &mut Random) {
    let mut c = Channel::new(mask);
    c.sent(r, 3, 7);
    c.hear(r, 1);
    c.keep(b"a");
    c.complete(r);
    c.return_to(b"a");
    c.hear(r, 1);
    c.return_to(b"a");
    c.complete(r);
    c.return_to(b"a");
    c.sent(r, 2, 9);
    c.complete(r);
    c.calls.reset();
    c.return_to(b"a");
    c.complete(r);
    c.end(out);
}

/// One name is kept after each fragment, another after the first, and both are returned to.
fn replaced(out: &mut String, mask: u8, r: &mut Random) {
    let mut c = Channel::new(mask);
    c.sent(r, answers::most(mask).min(5), 4);
    c.hear(r, 1);
    c.keep(b"a");
    c.keep(b"first");
    while c.rest.fragments.len() > 1 {
        c.hear(r, 1);
        c.keep(b"a");
    }
    for name in [&b"a"[..], b"first", b"a"] {
        c.return_to(name);
        c.complete(r);
    }
    c.end(out);
}

/// Eight messages half heard, each under a name of its own, then a ninth name and a known one. Two names are dropped, a known
/// name after their places is kept, and new names come to their places. Then each message is completed.
fn eight_names(out: &mut String, mask: u8, r: &mut Random) {
    let mut c = Channel::new(mask);
    let mut names: Vec<&[u8]> = (1..=8).map(|len| &b"ABCDEFGH"[..len]).collect();
    for name in names.iter().chain([&&b"I"[..], &names[r.below(8)]]) {
        c.half(r);
        c.keep(name);
    }
    for place in [4 + r.below(3), 1 + r.below(3)] {
        c.drop_name(names[place]);
        c.return_to(names[place]);
    }
    for name in [names[7], b"I", b"J", b"K"] {
        c.half(r);
        c.keep(name);
    }
    names.extend([&b"I"[..], b"J"]);
    for k in 0..10 {
        c.return_to(names[k * 7 % 10]);
        c.complete(r);
    }
    c.end(out);
}

/// Any of the steps in any order. Most messages go on as they were sent.
fn drawn_steps(out: &mut String, mask: u8, r: &mut Random) {
    let mut c = Channel::new(mask);
    for _ in 0..20 + r.below(41) {
        match r.below(20) {
            0 => c.renew(r.one_of(&MASKS)),
            1 => c.renew(r.byte()),
            2..=6 => c.keep(drawn_name(r)),
            7..=9 => c.return_to(drawn_name(r)),
            10 => c.drop_name(drawn_name(r)),
            11 => c.calls.reset(),
            12 => c.calls.push(5, &r.bytes(8)),
            _ => c.go_on(r),
        }
    }
    c.end(out);
}

/// One of twelve names, or seldom one that is too short or too long.
fn drawn_name(r: &mut Random) -> &'static [u8] {
    const LETTERS: &[u8] = b"abcdefghijkl";
    let k = r.below(12);
    match r.below(20) {
        0 => &[],
        1 => &LETTERS[..9],
        _ => &LETTERS[k..12.min(k + 1 + k % 8)],
    }
}

/// A message goes on after every mask that is none was refused.
fn refused_masks(out: &mut String) {
    let mut c = Channel::new(0xF0);
    let [first, last] = [0, 1].map(|k| answers::split(&WORKED, 5, 0xF0)[k].clone());
    c.calls.fragment(&first);
    for mask in bad_masks() {
        c.renew(mask);
    }
    c.calls.fragment(&last);
    c.end(out);
}

/// Names of 1 to 8 bytes and of other lengths, some of which are 0 to 8 in their last eight bits.
fn name_lengths(out: &mut String, r: &mut Random) {
    let mut c = Channel::new(0xF0);
    c.sent(r, 4, 5);
    c.hear(r, 1);
    for len in (0..=10).chain([16, 17, 255, 256, 257, 264]) {
        let name = vec![0x41; len];
        c.keep(&name);
        c.hear(r, usize::from(len == 3));
        c.return_to(&name);
        c.drop_name(&name);
        c.drop_name(&name);
    }
    c.complete(r);
    c.end(out);
}

/// Names that differ in a zero at the end, in the last byte or in their length have places of their own.
fn like_names(out: &mut String, r: &mut Random) {
    let names = ["A", "A\0", "A\0\0", "\0", "\0\0", "ABCDEFGH", "ABCDEFGI", "ABCDEFG"].map(str::as_bytes);
    let mut c = Channel::new(0xE0);
    for name in names {
        c.half(r);
        c.keep(name);
    }
    for name in names {
        c.return_to(name);
        c.complete(r);
        c.drop_name(name);
        c.return_to(name);
    }
    c.end(out);
}

/// A message of 256 fragments is kept before the last, which is dropped, and once more after another one with More was
/// dropped in its place. After each return the last is dropped too, and the next message is heard.
fn many_fragments(out: &mut String, r: &mut Random) {
    let mut c = Channel::new(0xF0);
    let long = message(r, 2 * 256);
    let mut fragments = answers::split(&long, 3, 0xF0);
    fragments[0][1] = (answers::crc(&long) >> 8) as u8;
    let last = fragments.pop().expect("a message that is not empty");
    for f in fragments {
        c.calls.fragment(&f);
    }
    c.keep(b"255");
    c.calls.fragment(&[0xC1, 0x42]);
    c.keep(b"over");
    for name in [&b"255"[..], b"over"] {
        c.others(r);
        c.return_to(name);
        c.calls.fragment(&last);
        c.calls.fragment(&[0x41, 0x43]);
    }
    c.end(out);
}

/// Two messages fill their stores up to the last byte, one in seven places and one in the eighth.
fn full_stores(out: &mut String, r: &mut Random) {
    let mut c = Channel::new(0xF0);
    let names = [b"1", b"2", b"3", b"4", b"5", b"6", b"7", b"8"];
    let (one, other) = (message(r, 5_000), message(r, 5_000));
    c.full(&one);
    for name in &names[..7] {
        c.keep(*name);
    }
    c.renew(0xFE);
    c.full(&other);
    c.keep(names[7]);
    for (name, message) in [(names[0], &one), (names[7], &other), (names[6], &one)] {
        c.return_to(name);
        c.calls.fragment(&message[..1]);
    }
    c.end(out);
}

fn preview(out: &mut String) {
    *out += "\
# preview CMD FIELD MASK HEX ANSWER: the price of data before they are coded under a command and sent with a field and a mask. An
# answer is LENGTH:COUNT, how many bytes the message has and how many fragments it takes, or refused:N; the coder's refusals come
# before the sender's, which are 8, 9 and 12. The source codes the data and cuts the message. The most fragments of each mask and
# one more, fields and masks at the edges, two refusals at once, every type, the longest data, and drawn ones.
";
    let mut r = Random::new(SEED, "preview");
    worked_previews(out);
    for mask in MASKS {
        for (field, byte) in [(3, 0x80), (3, 0x41), (4 + r.below(9), 0x80)] {
            preview_limit(out, field, mask, byte);
        }
    }
    preview_fields(out);
    preview_masks(out);
    coder_refusals(out, &mut r);
    sender_refusals(out);
    preview_types(out, &mut r);
    long_previews(out);
    longest_previews(out, &mut r);
    drawn_previews(out, &mut r);
}

/// A frame from K1A to CQ with the text A, and one from k_1, a call that is refused.
const PLAIN: [u8; 17] = *b"\x86\xA2\x40\x40\x40\x40\x60\x96\x62\x82\x40\x40\x40\x61\x03\xF0A";
const BAD_CALL: [u8; 17] = *b"\x86\xA2\x40\x40\x40\x40\x60\xD6\xBE\x62\x40\x40\x40\x61\x03\xF0A";

fn worked_previews(out: &mut String) {
    let (eight, seven) = ([0x80; 5_000], [0x41; 4_999]);
    let worked: [(u8, &[u8], usize, u8); 14] = [
        (0, &PLAIN, 5, 0xF0),
        (2, &[], 3, 0xF0),
        (2, &eight[..33], 3, 0xF0),
        (2, &eight[..34], 3, 0xF0),
        (2, &eight[..17], 3, 0xF8),
        (2, &eight[..18], 3, 0xF8),
        (3, &PLAIN, 2, 0x00),
        (0, &PLAIN[..10], 2, 0x00),
        (0, &PLAIN, 2, 0x00),
        (0, &PLAIN, 3, 0x00),
        (2, &eight[..4_999], 512, 0xF0),
        (2, &seven, 512, 0xF0),
        (2, &eight, 2, 0x00),
        (0, &BAD_CALL, 513, 0xF1),
    ];
    for (command, data, field, mask) in worked {
        preview_line(out, command, data, field, mask);
    }
}

/// Equal bytes: as many as take the most fragments of a mask, and one more, which is refused with 12.
fn preview_limit(out: &mut String, field: usize, mask: u8, byte: u8) {
    let refused = |&n: &usize| answers::preview(2, &vec![byte; n], field, mask) == Err(12);
    let over = (0..5_000).find(refused).expect("a limit below 5,000 bytes");
    for n in [over - 1, over] {
        preview_line(out, 2, &vec![byte; n], field, mask);
    }
}

/// Fields around 3 and 512, and far outside.
fn preview_fields(out: &mut String) {
    for field in [0, 1, 2, 3, 4, 511, 512, 513, 514, usize::MAX] {
        preview_line(out, 0, &PLAIN, field, 0xF0);
    }
}

/// Every mask, the bytes beside them, and some far outside.
fn preview_masks(out: &mut String) {
    let beside = |mask: &u8| MASKS.iter().any(|good| good.abs_diff(*mask) <= 1);
    for mask in [0x00, 0x01, 0x0F].into_iter().chain((0..=255).filter(beside)) {
        preview_line(out, 0, &PLAIN, 3, mask);
    }
}

/// Each refusal of the coder but 2, with a good field and mask and with others, which the sender would refuse.
fn coder_refusals(out: &mut String, r: &mut Random) {
    let cases = cases::all(r);
    for refusal in [1, 3, 4, 5] {
        let is = |(command, data): &&(u8, Vec<u8>)| answers::encode(*command, data).err() == Some(refusal);
        let (command, data) = cases.iter().find(is).expect("data that are refused with this number");
        for (field, mask) in [(5, 0xF0), (2, 0xF0), (5, 0xF1), (513, 0x00)] {
            preview_line(out, *command, data, field, mask);
        }
    }
}

/// Too many fragments with a bad field, a bad mask, both and none; then a bad command with data that are too short for a frame, and
/// with too many fragments.
fn sender_refusals(out: &mut String) {
    for (field, mask) in [(2, 0xF0), (513, 0xFE), (3, 0xF1), (2, 0xF1), (3, 0xF0)] {
        preview_line(out, 2, &[0x80; 600], field, mask);
    }
    preview_line(out, 3, &PLAIN[..10], 5, 0xF0);
    preview_line(out, 255, &[0x80; 40], 3, 0xF0);
}

/// Of each body one frame at least, to one destination or another: the cases have seven frames of each.
fn preview_types(out: &mut String, r: &mut Random) {
    for (command, data) in cases::types().into_iter().step_by(6) {
        let field = 3 + r.below(10);
        preview_line(out, command, &data, field, r.one_of(&MASKS[..5]));
    }
}

/// One byte, and long data around the most fragments of a mask.
fn long_previews(out: &mut String) {
    let under_f0 =
        [(1, 512), (4_997, 295), (4_998, 295), (4_999, 295), (4_999, 296)].map(|(n, field)| (n, field, 0xF0));
    for (n, field, mask) in under_f0.into_iter().chain([(4_999, 40, 0x80), (4_999, 39, 0x80)]) {
        preview_line(out, 2, &vec![0x80; n], field, mask);
    }
}

/// The longest data, and one byte more under every command.
fn longest_previews(out: &mut String, r: &mut Random) {
    for (command, data) in cases::longest(r) {
        preview_line(out, command, &data, 512, 0xF0);
    }
}

fn drawn_previews(out: &mut String, r: &mut Random) {
    for (command, data) in drawn_data(r, 8) {
        let field = 3 + r.below(10);
        preview_line(out, command, &data, field, r.one_of(&MASKS));
    }
}

fn preview_line(out: &mut String, command: u8, data: &[u8], field: usize, mask: u8) {
    let answer = answers::preview(command, data, field, mask).map(|(length, count)| format!("{length}:{count}"));
    line!(out, "preview", command, field, to_hex(&[mask]), to_hex(data), or_refused(answer));
}

fn or_refused<T: ToString>(answer: Result<T, u8>) -> String {
    answer.map_or_else(|refusal| format!("refused:{refusal}"), |value| value.to_string())
}

fn or_none<T: ToString>(answer: Option<T>) -> String {
    answer.map_or("none".to_string(), |value| value.to_string())
}

/// A word of any bits, mostly with bits above those that are written.
fn some_word(r: &mut Random) -> u64 {
    match r.below(8) {
        0 => u64::MAX,
        1 => 1 << r.below(64),
        2 => r.number() >> r.below(64),
        _ => r.number(),
    }
}

/// A word of exactly this many bits; of none, 0.
fn of_width(r: &mut Random, width: usize) -> u64 {
    match width {
        0 => 0,
        _ => (r.number() | 1 << 63) >> (64 - width),
    }
}

/// A bit position up to 64 with this residue modulo 8.
fn place(r: &mut Random, residue: usize) -> usize {
    let bytes = if residue == 0 { 9 } else { 8 };
    residue + 8 * r.below(bytes)
}

/// From `least` to `least` + 4 bytes, at least one.
fn some_bytes(r: &mut Random, least: usize) -> Vec<u8> {
    let n = least.max(1) + r.below(5);
    r.bytes(n)
}

/// Bytes below `alphabet`.
fn codes(r: &mut Random, n: usize, alphabet: usize) -> Vec<u8> {
    (0..n).map(|_| r.below(alphabet) as u8).collect()
}

fn printable(r: &mut Random, n: usize) -> Vec<u8> {
    (0..n).map(|_| 0x20 + r.below(0x5F) as u8).collect()
}

fn drawn(r: &mut Random, n: usize, alphabet: &[u8]) -> Vec<u8> {
    (0..n).map(|_| r.one_of(alphabet)).collect()
}
