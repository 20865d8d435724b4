//! Data to code: frames of every type as stations send them, the same with odd parts, and damaged ones.

use crate::MAX_DATA;
use crate::random::Random;

/// The names that have tokens of their own, with neighbours that have none.
const NAMES: [&str; 44] = [
    "WIDE1", "WIDE2", "WIDE3", "WIDE", "PNW1", "PNW2", "PNW", "MW1", "MW2", "OR1", "OR2", "OR3", "WA1", "WA2", "WA",
    "ALL", "CQ", "APBPQ1", "APJYC1", "APOPYT", "APU25N", "APVARA", "APIN19", "APIN20", "APIN35", "APIN36", "APWW10",
    "APWW11", "APWW18", "APWW19", "APDR15", "APDR16", "APDR47", "APDR48", "APIN2", "APIN2 ", "APRS", "APRX29", "AP",
    "APrs", "aprs", "cq", "BEACON", "QST",
];
const DESTS: [&str; 10] = ["APRS", "APIN21", "APDR16", "APVARA", "APWW12", "APBPQ1", "AP", "APN382", "CQ", "BEACON"];
const ALIASES: [&str; 5] = ["WIDE", "PNW", "MW", "OR", "WA"];
const CAPITALS: &[u8] = b"ABCDEFGHIJKLMNOPQRSTUVWXYZ0123456789";
const WORDS: [&str; 12] =
    ["/A=00", "VARA", "PinPoint", "HF ", "ack", "APRS", "ping{", "Digi", "Gate", "/A=0", "Pin", "/A=001234"];
const TABLES: &[u8] = b"/\\IRVTDS/\\/\\09AZ!~";

/// One of a list of texts.
fn pick<'a>(r: &mut Random, list: &[&'a str]) -> &'a str {
    list[r.below(list.len())]
}

/// One in so many.
fn seldom(r: &mut Random, n: usize) -> bool {
    r.below(n) == 0
}

fn drawn(r: &mut Random, n: usize, alphabet: &[u8]) -> Vec<u8> {
    (0..n).map(|_| r.one_of(alphabet)).collect()
}

fn digits(r: &mut Random, n: usize) -> Vec<u8> {
    drawn(r, n, b"0123456789")
}

/// A length: mostly short, at times up to the most.
fn length(r: &mut Random, most: usize) -> usize {
    let scale = [8, 40, 80, 80, 200, 1000, most + 1][r.below(7)];
    r.below(scale.min(most + 1))
}

/// A call's letters and its SSID.
fn call(r: &mut Random) -> (Vec<u8>, u8) {
    let letters = match r.below(30) {
        0..=8 => pick(r, &NAMES).as_bytes().to_vec(),
        9 => {
            let n = r.below(8);
            drawn(r, n, b"ABCXYZ019 -az@[\t\x1C")
        }
        _ => {
            let n = 1 + r.below(6);
            drawn(r, n, CAPITALS)
        }
    };
    let ssid = if seldom(r, 2) { 0 } else { r.below(16) as u8 };
    (letters, ssid)
}

/// An address field of l letters.
fn address(r: &mut Random, l: usize, letters: &[u8], ssid: u8) -> Vec<u8> {
    let mut field = vec![b' '; l];
    let from = if seldom(r, 20) { r.below(3) } else { 0 };
    for (place, letter) in field[from.min(l)..].iter_mut().zip(letters) {
        *place = *letter;
    }
    for place in &mut field {
        *place = *place << 1 | u8::from(seldom(r, 60));
    }
    let heard = if seldom(r, 2) { 0x80 } else { 0 };
    let reserved = if seldom(r, 8) { r.byte() & 0x60 } else { 0x60 };
    field.push(heard | reserved | ssid << 1);
    field
}

/// Destination, source and up to eight digipeaters, at times more, with the last one's low bit set.
fn addresses(r: &mut Random, l: usize) -> Vec<u8> {
    let (letters, ssid) = if seldom(r, 3) { call(r) } else { (pick(r, &DESTS).as_bytes().to_vec(), 0) };
    let mut field = address(r, l, &letters, ssid);
    let (letters, ssid) = call(r);
    field.extend(address(r, l, &letters, ssid));
    let n = [0, 0, 1, 1, 2, 3, 8, r.below(10)][r.below(8)];
    let alias = pick(r, &ALIASES);
    let aliased = seldom(r, 3);
    for k in 1..=n {
        let (letters, ssid) = if aliased && !seldom(r, 12) { (format!("{alias}{k}").into_bytes(), 1) } else { call(r) };
        field.extend(address(r, l, &letters, ssid));
    }
    if let Some(last) = field.last_mut()
        && !seldom(r, 30)
    {
        *last |= 1;
    }
    field
}

/// Text with words of the dictionary, at times other bytes below 80.
fn text(r: &mut Random, n: usize) -> Vec<u8> {
    let odd = seldom(r, 6);
    let mut s = Vec::with_capacity(n + 10);
    while s.len() < n {
        match r.below(8) {
            0 => s.extend(pick(r, &WORDS).bytes()),
            1 if odd => s.push(r.byte() & 0x7F),
            2 if odd => s.extend([&b"/A=00"[..], &drawn(r, 4, b"0123 +\t-x")].concat()),
            3 if seldom(r, 4) => s.extend([&b"/A=00"[..], &digits(r, 4)].concat()),
            _ => s.push(0x20 + r.below(0x60) as u8),
        }
    }
    s.truncate(n);
    s
}

/// A position behind its type byte.
fn place(r: &mut Random, n: usize) -> Vec<u8> {
    let digit = if seldom(r, 10) { &b"0123456789 .-"[..] } else { b"0123456789" };
    let mut s = drawn(r, 4, digit);
    s.push(b'.');
    s.extend(drawn(r, 2, digit));
    s.push(r.one_of(b"NS"));
    s.push(if seldom(r, 8) { r.byte() & 0x7F } else { r.one_of(TABLES) });
    s.extend(drawn(r, 5, digit));
    s.push(b'.');
    s.extend(drawn(r, 2, digit));
    s.push(r.one_of(b"WE"));
    s.push(0x20 + r.below(0x60) as u8);
    s.extend(text(r, n));
    s
}

/// An addressee or a third party's call as text, of 9 bytes where it is filled.
fn named(r: &mut Random) -> Vec<u8> {
    let (mut letters, ssid) = call(r);
    if ssid > 0 {
        letters.extend(format!("-{}", usize::from(ssid) + if seldom(r, 12) { 90 } else { 0 }).bytes());
    }
    letters
}

fn filled(mut s: Vec<u8>) -> Vec<u8> {
    s.resize(9, b' ');
    s
}

/// The information of a frame that goes through another's station.
fn third(r: &mut Random, n: usize) -> Vec<u8> {
    let mut s = vec![b'}'];
    s.extend(named(r));
    s.push(b'>');
    s.extend(named(r));
    s.extend(if seldom(r, 10) { &b",TCPXX*,"[..] } else { b",TCPIP," });
    s.extend(named(r));
    s.extend(if seldom(r, 10) { &b"*"[..] } else { b"*:" });
    s.extend(information(r, n, 5));
    s
}

/// The information of a frame, of one of so many types.
fn information(r: &mut Random, n: usize, types: usize) -> Vec<u8> {
    match r.below(types) {
        0 => [vec![r.one_of(b"!=")], place(r, n)].concat(),
        1 => [vec![r.one_of(b"@/")], digits(r, 6), b"h".to_vec(), place(r, n)].concat(),
        2 => [&b":"[..], &filled(named(r)), b":", &text(r, n)].concat(),
        3 | 4 => text(r, n),
        5 => r.bytes(n),
        _ => third(r, n),
    }
}

/// A frame with calls of l letters.
pub fn frame(r: &mut Random, l: usize) -> Vec<u8> {
    frame_with(r, l, |r| if seldom(r, 8) { [r.byte(), r.byte()] } else { [0x03, 0xF0] })
}

/// A frame with calls of l letters, whose control and PID are drawn so.
fn frame_with(r: &mut Random, l: usize, control: fn(&mut Random) -> [u8; 2]) -> Vec<u8> {
    let mut f = addresses(r, l);
    f.extend(control(r));
    let n = length(r, MAX_DATA - 250);
    f.extend(information(r, n, 8));
    f
}

/// A command and a frame whose control is 03 or 13, at times with one bit changed, and whose PID is F0 or another.
pub fn near_ui(r: &mut Random) -> (u8, Vec<u8>) {
    let command = u8::from(seldom(r, 4));
    let data = frame_with(r, 6 + usize::from(command), |r| {
        let control = r.one_of(&[0x03, 0x13]) ^ if seldom(r, 2) { 1 << r.below(8) } else { 0 };
        [control, if seldom(r, 2) { r.byte() } else { 0xF0 }]
    });
    (command, data)
}

/// Bytes changed, cut, added or doubled.
pub fn damage(r: &mut Random, d: &mut Vec<u8>) {
    for _ in 0..=r.below(3) {
        match r.below(6) {
            0 => d.truncate(r.below(d.len() + 1)),
            1 => d.push(r.byte()),
            2 => d.insert(r.below(d.len() + 1), r.byte()),
            _ => {
                if d.is_empty() {
                    continue;
                }
                let place = if seldom(r, 2) { r.below(d.len().min(40)) } else { r.below(d.len()) };
                match r.below(4) {
                    0 => d[place] ^= 1 << r.below(8),
                    1 => d[place] = r.byte(),
                    2 => d[place] = r.one_of(b"!=@/:}>,*-. h9\x80"),
                    _ => {
                        d.remove(place);
                    }
                }
            }
        }
    }
}

/// A command and data to code, at times neither of which is accepted.
pub fn data(r: &mut Random) -> (u8, Vec<u8>) {
    let command = if seldom(r, 200) { r.byte() } else { [0, 0, 0, 0, 1, 2][r.below(6)] };
    let mut d = match command {
        2 => {
            let n = length(r, MAX_DATA);
            if seldom(r, 2) { r.bytes(n) } else { text(r, n) }
        }
        _ if seldom(r, 12) => {
            let n = length(r, 200);
            r.bytes(n)
        }
        1 => frame(r, 7),
        _ => frame(r, 6),
    };
    if seldom(r, 4) {
        damage(r, &mut d);
    }
    if seldom(r, 300) {
        d.resize(MAX_DATA + r.below(3), r.byte());
    }
    (command, d)
}

#[cfg(test)]
mod tests {
    use super::*;
    use std::collections::BTreeMap;

    #[test]
    fn every_type_and_refusal() {
        let mut r = Random::new(1, "every");
        let mut seen = BTreeMap::new();
        for _ in 0..60_000 {
            let (command, d) = data(&mut r);
            *seen.entry(crate::encode(command, &d).map(|(_, typ)| typ)).or_insert(0) += 1;
        }
        println!("{seen:?}");
        for typ in [0, 1, 2, 3, 4, 6] {
            assert!(seen[&Ok(typ)] > 500, "type {typ}");
        }
        for refusal in 1..=5 {
            assert!(seen[&Err(refusal)] > 50, "refusal {refusal}");
        }
    }
}
