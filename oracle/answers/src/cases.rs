//! Data to code and messages to decode that are written down: every type, every refusal, and what document 01 leaves unsaid.

use crate::MAX_DATA;
use crate::messages::{LONGEST, MESSAGE, ThirdParty};
use crate::random::Random;
use xara_arq::ax25::token_encode;
use xara_arq::bits::Bits;

/// A command and data to code.
pub type Data = (u8, Vec<u8>);

/// A call of an address field: its letters and its SSID.
type Call<'a> = (&'a str, u8);

const K1A: Call = ("K1A", 0);
const APRS: Call = ("APRS", 0);
const CQ: Call = ("CQ", 0);
const UI: [u8; 2] = [0x03, 0xF0];
const ALIASES: [&str; 5] = ["WIDE", "PNW", "MW", "OR", "WA"];

/// The names that have tokens of their own, and neighbours that have none.
const NAMES: [&str; 48] = [
    "WIDE1", "WIDE2", "WIDE3", "WIDE", "WIDE12", "PNW1", "PNW2", "PNW3", "PNW", "MW1", "MW2", "MW", "OR1", "OR2", "OR",
    "WA1", "WA2", "WA", "ALL", "ALLA", "CQ", "CQC", "APBPQ1", "APJYC1", "APOPYT", "APU25N", "APVARA", "APVAR",
    "APIN19", "APIN20", "APIN35", "APIN36", "APIN2", "APIN2A", "APWW10", "APWW11", "APWW18", "APWW19", "APDR15",
    "APDR16", "APDR47", "APDR48", "APIN", "AP", "A", "APRS", "APZ9", "Z9ZZZZ",
];

/// A body of every type.
const BODIES: [&str; 16] = [
    "",
    "A",
    "Hello, VARA",
    "!1234.56N/01234.56W>",
    "=4903.50S\\07201.75E-PinPoint APRS/A=001234 HF ",
    "@092345h4903.50N/07201.75W>Digi",
    "/092345h4903.50S/07201.75E>/A=009999Gate",
    ":K2B-7    :ack12 ping{3",
    ":CQ       :",
    "}K2B>APRS,TCPIP,K3C-5*:!1234.56N/01234.56W>/A=000042",
    "}K2B>APRS,TCPIP,K3C*:=1234.56S/01234.56E>x",
    "}K2B>APIN21,TCPIP,K3C*:@092345h4903.50N/07201.75W>",
    "}K2B-1>APVARA,TCPIP,CQ*:/092345h4903.50S/07201.75E>y",
    "}K2B-1>APVARA,TCPIP,CQ*::K4D-15   :ack",
    "}K2B-1>APVARA,TCPIP,CQ*:VARA Gate",
    "\u{e9}t\u{e9}",
];

/// An address field of l letters.
fn address((letters, ssid): Call, l: usize) -> Vec<u8> {
    let padded = letters.bytes().chain(std::iter::repeat(b' ')).take(l);
    padded.map(|c| c << 1).chain([0x60 | ssid << 1]).collect()
}

/// Destination, source and digipeaters, of which every second was heard, with the low bit at the last.
fn head(dest: Call, src: Call, digis: &[Call], l: usize) -> Vec<u8> {
    let mut field = [address(dest, l), address(src, l)].concat();
    for (k, &digi) in digis.iter().enumerate() {
        field.extend(address(digi, l));
        if let Some(last) = field.last_mut() {
            *last |= (k as u8 & 1) << 7;
        }
    }
    if let Some(last) = field.last_mut() {
        *last |= 1;
    }
    field
}

/// A frame under command 0 with 03 F0.
fn frame(dest: Call, src: Call, digis: &[Call], body: &[u8]) -> Data {
    (0, [&head(dest, src, digis, 6)[..], &UI, body].concat())
}

/// A frame from K1A to APRS.
fn report(body: impl AsRef<[u8]>) -> Data {
    frame(APRS, K1A, &[], body.as_ref())
}

/// The same calls, digipeaters and body with calls of seven letters.
fn long(dest: Call, src: Call, digis: &[Call], body: &[u8]) -> Data {
    (1, [&head(dest, src, digis, 7)[..], &UI, body].concat())
}

/// All data, but for the longest.
pub fn all(r: &mut Random) -> Vec<Data> {
    let parts = [types, refused, names, letters, digipeaters, controls, places, altitudes, comments, thirds, missing];
    parts.iter().flat_map(|part| part()).chain(bytes(r)).collect()
}

/// Every type to every kind of destination, under both commands.
pub fn types() -> Vec<Data> {
    let mut all = Vec::new();
    for body in BODIES {
        for dest in [APRS, CQ, ("APVARA", 0), ("AP", 3), ("aprs", 0)] {
            all.push(frame(dest, K1A, &[], body.as_bytes()));
        }
        all.push(long(APRS, ("LONGEST", 9), &[], body.as_bytes()));
        all.push(long(("LONGEST", 9), K1A, &[("WIDE1", 1)], body.as_bytes()));
    }
    all
}

/// The refusals 1 to 5, one after the other and two at once.
pub fn refused() -> Vec<Data> {
    let mut all = vec![(3, vec![]), (255, b"A".to_vec()), (3, frame(CQ, K1A, &[], b"A").1)];
    let (_, three) = frame(("B@D", 0), K1A, &[("b@d", 1), CQ, ("WIDE1", 1)], b"A");
    for n in 0..three.len() {
        all.push((0, three[..n].to_vec()));
    }
    let (_, eight) = long(APRS, K1A, &[CQ; 8], b"A");
    for n in [0, 7, 8, 14, 15, 16, 23, 24, 31, 78, 79, 80, 81, 82] {
        all.push((1, eight[..n].to_vec()));
    }
    let bad = ("B@D", 0);
    all.extend([frame(bad, K1A, &[], b"A"), frame(CQ, bad, &[], b"A"), frame(CQ, K1A, &[bad], b"A")]);
    all.push(frame(CQ, K1A, &[CQ, CQ, CQ, CQ, CQ, CQ, CQ, bad], b"A"));
    all.push(frame(APRS, bad, &[], b"!1234.56N/01234.56W>/A=00-123"));
    all.push(long(bad, K1A, &[], b"A"));
    all.extend([":B@D      :hi", ":K 1      :hi", ":\u{1}        :", ":@        :"].map(report));
    all
}

/// Every name that has a token, as destination, source, digipeater and addressee.
fn names() -> Vec<Data> {
    let mut all = Vec::new();
    for name in NAMES {
        for ssid in [0, 1, 2, 3, 15] {
            all.push(frame((name, ssid), K1A, &[], b"A"));
            all.push(frame(CQ, (name, ssid), &[K1A, (name, ssid)], b""));
        }
        all.push(report(format!(":{name:<9}:hi")));
        all.push(report(format!(":{:<9}:", format!("{name}-1"))));
        all.push(long((name, 0), (name, 2), &[], b"A"));
    }
    all
}

/// Calls that are empty, of small letters, with white space, with a hyphen, or of more letters.
fn letters() -> Vec<Data> {
    let mut all = Vec::new();
    for odd in
        ["", "APrs", "aprs", "cq", "wide1", "apin20", "ALl", "K 1A", "A-9", "-", "-1", "A-", "A--3", "AP-", "APIN-2"]
    {
        for ssid in [0, 3] {
            all.push(frame((odd, ssid), K1A, &[], b"x"));
            all.push(frame(CQ, (odd, ssid), &[], b"x"));
            all.push(frame(APRS, K1A, &[(odd, ssid)], b"x"));
        }
    }
    for c in 0u8..0x80 {
        let (before, behind) = ([c, b'K', b'1', b'A'], [b'K', b'1', c]);
        for letters in [&before[..], &behind] {
            let letters = std::str::from_utf8(letters).expect("bytes below 80");
            all.push(frame(CQ, (letters, 0), &[], b"x"));
        }
    }
    for odd in ["APIN20X", "APIN20", "APIN2XY", "LONGEST", "APLONGE", "APRS", "", "A-9B-3C"] {
        all.push(long((odd, 0), K1A, &[], b"x"));
        all.push(long(APRS, (odd, 15), &[(odd, 1)], b"x"));
    }
    for odd in [
        "APIN20XYZ",
        "A-99",
        "A-16",
        "A-",
        "A-1-2",
        "A- 1",
        "A-x",
        "ABCDEFGHI",
        "k2b-7",
        "",
        "  K2B",
        "APRSAPRS",
        "AP-1",
    ] {
        all.push(report(format!(":{odd:<9}:hi")));
    }
    all
}

/// A digipeater with each byte below 80 as its second letter.
pub fn relayed() -> Vec<Data> {
    let with = |c: u8| frame(CQ, K1A, &[(std::str::from_utf8(&[b'K', c, b'1']).expect("bytes below 80"), 0)], b"");
    (0..0x80).map(with).collect()
}

/// Every byte in the place of the first, the second, the third and the last letter of destination, source and digipeater, of calls
/// that are spelled and of the AP form, under both commands.
pub fn every_letter() -> Vec<Data> {
    let mut all = Vec::new();
    for (call, command) in [K1A, APRS, ("LONGEST", 0)].into_iter().flat_map(|call| [(call, 0), (call, 1)]) {
        let l = 6 + usize::from(command);
        let whole = [&head(call, call, &[call], l)[..], &UI, b"x"].concat();
        for place in (0..3).flat_map(|address| [0, 1, 2, l - 1].map(|letter| address * (l + 1) + letter)) {
            all.extend((0..=0xFF).map(|letter| {
                let mut data = whole.clone();
                data[place] = letter;
                (command, data)
            }));
        }
    }
    all
}

/// Every number of digipeaters, the aliases, what is nearly an alias, and a ninth.
pub fn digipeaters() -> Vec<Data> {
    const NUMBERED: [[&str; 8]; 5] = [
        ["WIDE1", "WIDE2", "WIDE3", "WIDE4", "WIDE5", "WIDE6", "WIDE7", "WIDE8"],
        ["PNW1", "PNW2", "PNW3", "PNW4", "PNW5", "PNW6", "PNW7", "PNW8"],
        ["MW1", "MW2", "MW3", "MW4", "MW5", "MW6", "MW7", "MW8"],
        ["OR1", "OR2", "OR3", "OR4", "OR5", "OR6", "OR7", "OR8"],
        ["WA1", "WA2", "WA3", "WA4", "WA5", "WA6", "WA7", "WA8"],
    ];
    let mut all = Vec::new();
    for (alias, numbered) in ALIASES.into_iter().zip(NUMBERED) {
        let calls = numbered.map(|name| (name, 1));
        for n in 1..=8 {
            all.push(frame(APRS, K1A, &calls[..n], b"x"));
        }
        all.push(frame(CQ, K1A, &calls[..3], b"x"));
        all.push(long(APRS, K1A, &calls[..3], b"x"));
        all.push(long(CQ, K1A, &calls, b"x"));
        for near in [(numbered[1], 2), (numbered[1], 0), (numbered[2], 1), (alias, 1), ("WIDE2", 1)] {
            all.push(frame(APRS, K1A, &[calls[0], near], b"x"));
            all.push(frame(APRS, K1A, &[near], b"x"));
        }
    }
    for n in 0..=8 {
        all.push(frame(CQ, K1A, &[("K2B", 4); 8][..n], b"x"));
        all.push(frame(APRS, K1A, &[("wide1", 1); 8][..n], b"!1234.56N/01234.56W>"));
    }
    all.extend(ninth());
    all
}

/// Eight digipeaters whose last has no low bit, then nothing, a ninth, or control and PID.
fn ninth() -> Vec<Data> {
    let mut field = head(APRS, K1A, &[CQ; 8], 6);
    if let Some(last) = field.last_mut() {
        *last &= !1;
    }
    let behind = [
        vec![],
        vec![0x03],
        UI.to_vec(),
        [&UI[..], b"x"].concat(),
        address(K1A, 6),
        [&address(K1A, 6)[..], &UI].concat(),
    ];
    behind.map(|behind| (0, [&field[..], &behind].concat())).to_vec()
}

/// Control and PID that are not 03 F0, with a body of every type.
fn controls() -> Vec<Data> {
    let mut all = Vec::new();
    for body in BODIES {
        for control in [[0x03, 0xF1], [0x13, 0xF0], [0x93, 0xF0], [0x00, 0x00], [0xFF, 0xFF]] {
            all.push((0, [&head(APRS, K1A, &[], 6)[..], &control, body.as_bytes()].concat()));
        }
        all.push((0, [&head(CQ, K1A, &[CQ], 6)[..], &[0x3F, 0xF0], body.as_bytes()].concat()));
    }
    for control in [[0x93, 0xF0], [0x03, 0x70], [0x7F, 0x7F], [0x80, 0x80]] {
        all.push((0, [&head(CQ, K1A, &[], 6)[..], &control, b"x"].concat()));
    }
    all
}

/// The worked examples of 02's request E4 on polled frames, under both commands.
pub fn polled() -> Vec<Data> {
    let controls = [0x03, 0x13, 0x0F, 0x23, 0x93, 0x83].map(|control| vec![control, 0xF0, b'A']);
    let mut all = Vec::new();
    for end in controls.into_iter().chain([vec![0x13, 0x00]]) {
        for command in [0, 1] {
            all.push((command, [&head(CQ, K1A, &[], 6 + usize::from(command))[..], &end].concat()));
        }
    }
    all
}

/// Every control byte with some PIDs, under both commands, after no digipeater, one and eight.
pub fn every_control() -> Vec<Data> {
    let mut all = Vec::new();
    for (control, pid) in (0..=0xFF).flat_map(|control| [0xF0, 0x70, 0x13, 0x00].map(|pid| (control, pid))) {
        for digis in [0, 1, 8] {
            for command in [0, 1] {
                let head = head(APRS, K1A, &[CQ; 8][..digis], 6 + usize::from(command));
                all.push((command, [&head[..], &[control, pid, b'A']].concat()));
            }
        }
    }
    all
}

/// Positions with every table, with blanks, too large, too short, and with one byte that makes them text.
fn places() -> Vec<Data> {
    let mut all = Vec::new();
    for table in "/\\IRVTDS019AZat!~ ".chars() {
        all.push(report(format!("!1234.56N{table}01234.56W>")));
    }
    for symbol in [0x00, 0x01, 0x1F, b'T', 0x7F] {
        all.push(report([&b"=0000.00S/00000.00E"[..], &[symbol], b"x"].concat()));
    }
    let good = b"!1234.56N/01234.56W>";
    for n in 15..good.len() {
        all.push(report(&good[..n]));
    }
    for (place, c) in (0..good.len()).zip(b"?x    x x x     x xx".iter()) {
        let mut odd = good.to_vec();
        odd[place] = *c;
        all.push(report(odd));
    }
    let timed = b"@092345h4903.50N/07201.75W>";
    for n in 20..timed.len() {
        all.push(report(&timed[..n]));
    }
    for (place, c) in (0..timed.len()).zip(b"?x     x    x  x      x  xx".iter()) {
        let mut odd = timed.to_vec();
        odd[place] = *c;
        all.push(report(odd));
    }
    let odd = [
        "!9999.99N/99999.99W>",
        "!0000.00S\\20971.51E>",
        "!0000.00S\\20971.52E>",
        "!0    .  N/     .  W>",
        "!1-34.56N/0+234.56W>",
        "@999999h9999.99N/99999.99W>",
        "@0     h0000.00N/00000.00W>",
        "/1-2345h0000.00N/00000.00W>",
    ];
    all.extend(odd.map(report));
    all
}

/// Altitudes with blanks, signs, letters and too few bytes, in the types that have one and in those that have none.
fn altitudes() -> Vec<Data> {
    let four = [
        "0000",
        "1234",
        "9999",
        "+123",
        "++12",
        "+ 12",
        "-123",
        " 123",
        "123 ",
        " 1 2",
        "  + ",
        "+   ",
        "    ",
        "\t\n 1",
        "\x0b\x0c\r7",
        "\x1c123",
        "123\x1f",
        "12x4",
        "",
        "1",
        "12",
        "123",
        "12345",
        "1234/A=005678",
        "/A=0",
        "/A=00",
        "0.12",
    ];
    let mut all = Vec::new();
    for text in four {
        for before in ["!1234.56N/01234.56W>", "@092345h4903.50N/07201.75W>", ":K2B      :", ""] {
            all.push(report(format!("{before}/A=00{text}")));
        }
        all.push(report(format!("=1234.56N/01234.56W>Hi/A=00{text}")));
        all.push(report(format!("}}K2B>APRS,TCPIP,K3C*:!1234.56N/01234.56W>/A=00{text}")));
    }
    all
}

/// Comments and messages: the words, their beginnings, and bytes below 20.
fn comments() -> Vec<Data> {
    let texts = [
        "VARA",
        "VAR",
        "PinPoint",
        "PinPoin",
        "HF ",
        "HF",
        "ack",
        "ac",
        "APRS",
        "ping{",
        "ping",
        "Digi",
        "Gate",
        "GateDigiVARAack",
        "VVARA",
        "PinPinPoint",
        "APAPRS",
        "/A=0",
        "/A=",
        "//A=00",
        "\x1fA\0B\x05C",
        "\0",
        "\0\0",
        "\x01",
        "\x01\x7f\x7f\x7f",
        "\x0a",
    ];
    let mut all = Vec::new();
    for text in texts {
        for before in ["!1234.56N/01234.56W>", ":K2B      :", "}K2B>APRS,TCPIP,K3C*:", ""] {
            all.push(report(format!("{before}{text}")));
        }
    }
    for c in 0u8..0x20 {
        all.push(report([b":K2B      :A", &[c][..], b"B"].concat()));
    }
    all
}

/// Third parties: no stop byte in reach, no comma, two bytes missing, odd letters, and what is no third party.
fn thirds() -> Vec<Data> {
    let odd = [
        "}K2BLONGER>APRS,TCPIP,K3C*:text",
        "}K2BLONGERX>APRS,TCPIP,K3C*:text",
        "}K2BLONGERXY>APRS,TCPIP,K3C*:text",
        "}K2BLONGERXYZ>APRS,TCPIP,K3C*:text",
        "}K2B>APRSLONGE,TCPIP,K3C*:text",
        "}K2B>APRSLONGER,TCPIP,K3C*:text",
        "}K2B>APRSLONGERX,TCPIP,K3C*:text",
        "}K2B>APRSLONGERXY,TCPIP,K3C*:text",
        "}K2B>APRSLONGERXYZ,TCPIP,K3C*:text",
        "}K2B>APRSLONGERXYZA,TCPIP,K3C*:text",
        "}K2B>LONGDESTINATION,TCPIP,K3C*:text",
        "}K2B>APRS,TCPIP,K3CLONGER*:text",
        "}K2B>APRS,TCPIP,K3CLONGERX*:text",
        "}K2B>APRS,TCPIP,K3CLONGERXY*:text",
        "}K2B>APRS,TCPIP,K3CLONGERXYZ*:text",
        "}K2B>APRS,TCPIP,K3C*:",
        "}K2B>APRS,TCPIP,K3C*:x",
        "}K2B>APRS,TCPIP,K3C*:xy",
        "}K2B>APRS,TCPIP,K3C*:!",
        "}K2B>APRS,TCPIP,K3C*:!1",
        "}K2B>APRS,TCPIP,K3C*:!x",
        "}K2B>APRS,TCPIP,K3C*:::",
        "}K2B>APRS,TCPIP,K3C*::K4D      :",
        "}K2B>APRS,TCPIP,K3C*::K4D",
        "}K2B>APRS,TCPIP,K3C*::B@D      :x",
        "}B@D>APRS,TCPIP,K3C*:text",
        "}K2B>B@D,TCPIP,K3C*:text",
        "}K2B>APRS,TCPIP,B@D*:text",
        "}>APRS,TCPIP,K3C*:text and more",
        "}K2B>,TCPIP,K3C*:text and more",
        "}K2B>APRS,TCPIP,*:text and more",
        "}>,TCPIP,*:text and more, and more",
        "} k2b >aprs ,TCPIP, cq *:text",
        "}K2B-99>APRS-1,TCPIP,A-9-3*:text",
        "}APIN20XYZ>APRS,TCPIP,CQ*:text",
        "}K2B>APRS,TCPXX*,K3C*:text",
        "}K2B>APRS,TCPIP,K3C:text",
        "}K2B>APRS,TCPIP,K3C*text",
        "}K2B>APRS,TCPIP,K3C*text*:",
        "}K2B>>APRS,TCPIP,K3C*:text",
        "}K2B>APRS,TCPIP,K3C,*:text",
        "}K2B>AP*,TCPIP,K3C*:text",
        "}K*B>APRS,TCPIP,K3C*:text",
        "}K2B,TCPIP,>APRS,K3C*:text",
        "}K2B,TCPIP,APRS>K3C*:textual",
        "}K2B>A,TCPIP,K*:hi",
    ];
    let places = [
        "!1234.56X/01234.56W>",
        "!1234.56N/01234.56X>",
        "!1234.56X/01234.56X>hi",
        "!1234.56N/01234.56",
        "!1234.56N/01234.56W",
        "!1234.56N/",
        "!1234.56N",
        "!1234.56",
        "!1",
        "!1234.56NT01234.56WT",
        "@1",
        "@092345h",
        "@092345h4903.50N/07201.75W",
        "@092345x4903.50Q/07201.75Q>hi",
        "/1234567890123456789012345",
        "!1   .  n/     .  e>",
        "=9999.99S\\99999.99E>/A=00+12",
        "!1234.56N/01234.56W>/A=00-123",
    ];
    let behind = places.map(|place| report(format!("}}K2B>APRS,TCPIP,K3C*:{place}")));
    odd.map(report).into_iter().chain(behind).collect()
}

/// The ends of third parties and messages, byte by byte.
fn missing() -> Vec<Data> {
    let mut all = Vec::new();
    for body in ["}K2B>APRS,TCPIP,K3C*:@092345h4903.50N/07201.75W>Hi", ":K2B-7    :ack"] {
        for n in 1..body.len() {
            all.push(report(&body[..n]));
        }
    }
    all
}

/// Generic bytes and binary bodies: every length to 20 of seven bits and of eight.
fn bytes(r: &mut Random) -> Vec<Data> {
    let mut all = vec![(2, vec![]), (2, vec![0x7F]), (2, vec![0x80]), (2, vec![0x00]), (2, vec![0xFF])];
    for n in 1..=20 {
        let mut eight = r.bytes(n);
        let seven: Vec<u8> = eight.iter().map(|b| b & 0x7F).collect();
        eight[r.below(n)] |= 0x80;
        all.extend([(2, seven), frame(CQ, K1A, &[], &eight), frame(APRS, K1A, &[CQ], &eight), (2, eight)]);
    }
    all
}

/// A text of every length to 20 behind every place of a bit in its byte: a digipeater CQ takes seven bits.
pub fn texts(r: &mut Random) -> Vec<Data> {
    let mut all = Vec::new();
    for digis in 0..8 {
        for n in 0..=20 {
            let text: Vec<u8> = r.bytes(n).iter().map(|b| b & 0x7F).collect();
            all.push(frame(CQ, K1A, &[CQ; 8][..digis], &text));
        }
    }
    all
}

/// The longest data, and one byte more.
pub fn longest(r: &mut Random) -> Vec<Data> {
    let eight = r.bytes(MAX_DATA);
    let seven: Vec<u8> = eight.iter().map(|b| b & 0x7F).collect();
    let (_, mut text) = frame(APRS, K1A, &[("K2B", 9); 3], &seven);
    let (_, mut binary) = long(CQ, K1A, &[], &eight);
    text.truncate(MAX_DATA);
    binary.truncate(MAX_DATA);
    let more = vec![0x41; MAX_DATA + 1];
    vec![
        (2, seven),
        (2, eight),
        (0, text),
        (1, binary),
        (0, more.clone()),
        (1, more.clone()),
        (2, more.clone()),
        (3, more),
    ]
}

/// The bits of a message under construction, packed behind its header.
struct Message {
    header: u8,
    bits: Bits,
}

impl Message {
    /// Digipeaters' bits of 0, then tokens, under a header.
    fn new(header: u8, calls: &[&str]) -> Self {
        let mut message = Message { header, bits: Bits::default() };
        if header & 8 != 0 {
            message.push(0, usize::from(header & 7) + 1);
        }
        for call in calls {
            message.token(call);
        }
        message
    }

    fn push(&mut self, v: u64, n: usize) -> &mut Self {
        self.bits.push(v, n);
        self
    }

    fn token(&mut self, call: &str) -> &mut Self {
        let l = if self.header & 0x10 != 0 { 7 } else { 6 };
        token_encode(call, l, &mut self.bits).expect("a call that has a token");
        self
    }

    /// So many equal bits.
    fn run(&mut self, bit: u64, n: usize) -> &mut Self {
        for _ in 0..n {
            self.push(bit, 1);
        }
        self
    }

    /// Bits up to so many bytes behind the header.
    fn fill(&mut self, r: &mut Random, bytes: usize) -> &mut Self {
        while self.bits.len() < 8 * bytes {
            self.push(r.number(), 1);
        }
        self
    }

    fn pack(&self) -> Vec<u8> {
        [vec![self.header], self.bits.pack()].concat()
    }
}

/// Messages to decode that no coder writes.
pub fn messages(r: &mut Random) -> Vec<Vec<u8>> {
    let mut all = vec![
        vec![],
        vec![0x00],
        vec![0x21],
        vec![0x20],
        vec![0x40, 0xCE, 0xB5, 0xFF, 0xFF, 0xF8, 0x00, 0x00, 0x05, 0xF0],
    ];
    for header in 0..=255 {
        all.push(Message { header, bits: Bits::default() }.fill(r, 12).pack());
        all.push(vec![header, 0xAC, 0xB7, 0x01, 0x00, 0x10, 0x40]);
    }
    for first in 0..64 {
        all.push(Message::new(0x40, &[]).push(first, 6).fill(r, 14).pack());
        all.push(Message::new(0x50, &["APRS"]).push(first, 6).fill(r, 14).pack());
    }
    for typ in 0..8 {
        for bytes in [4, 12, 20, 30] {
            all.push(Message::new(0x40, &["APVARA", "CQ"]).push(typ, 3).fill(r, bytes).pack());
        }
        all.push(Message::new(0x58, &["APVARA", "CQ"]).push(0, 1).token("ALL").push(typ, 3).fill(r, 20).pack());
    }
    for alias in 0..8 {
        for header in [0x48, 0x4F, 0x59] {
            all.push(
                Message::new(header, &["APVARA", "CQ"])
                    .push(1, 1)
                    .push(alias, 3)
                    .push(0, 3)
                    .push(r.number(), 21)
                    .pack(),
            );
        }
    }
    all.extend(places_to_decode(r));
    all.extend(last_runs(r));
    all
}

/// Latitudes, times and altitudes of more digits than a coder takes, and altitudes that the end cuts short.
fn places_to_decode(r: &mut Random) -> Vec<Vec<u8>> {
    let mut all = Vec::new();
    for (latitude, longitude) in [(0xF_FFFF, 0x1F_FFFF), (999_999, 999_999), (1_000_000, 0), (0, 1_000_000), (0, 0)] {
        for (table, n) in [(8, 4), (13, 4), (15, 4), (0x54, 8)] {
            let mut m = Message::new(0x40, &["APVARA", "CQ"]);
            m.push(3, 3)
                .push(latitude, 20)
                .push(latitude, 20)
                .push(1, 1)
                .push(table, n)
                .push(longitude, 21)
                .push(0, 1)
                .push(0x3E, 7);
            all.push(m.push(1, 7).push(0x3FFF, 14).push(0x41, 7).pack());
        }
    }
    for letters in 0..8 {
        for bits in 0..=16 {
            let mut m = Message::new(0x40, &["APVARA", "CQ"]);
            m.push(2, 3).push(0, 20).push(r.number(), 1).push(8, 4).push(0, 21).push(r.number(), 1).push(0x3E, 7);
            for _ in 0..letters {
                m.push(0x61, 7);
            }
            m.push(1, 7);
            if (m.bits.len() + bits).is_multiple_of(8) {
                all.push(m.push(if letters % 2 == 0 { u64::MAX } else { r.number() }, bits).pack());
            }
        }
    }
    all
}

/// A last run of equal bits that ends a text, reaches behind its start, or is all there is.
fn last_runs(r: &mut Random) -> Vec<Vec<u8>> {
    let mut all = Vec::new();
    for header in [0x40, 0x00, 0x21] {
        for run in 1..=12 {
            for bit in [0, 1] {
                let mut m =
                    if header == 0x21 { Message::new(header, &[]) } else { Message::new(header, &["CQ", "CQ"]) };
                m.run(bit, 8 * run - m.bits.len() % 8);
                all.push(m.pack());
                m.push(r.number(), 7).run(bit, run);
                all.push(m.pack());
            }
        }
    }
    all
}

/// The message whose data are the longest: ten calls of seven letters, a message of a third party, and a word of eight
/// letters for every seven bits. Its calls take 6 bits each but for WIDE2-3, of 9, which decodes to WIDE2-11.
pub fn largest() -> Vec<u8> {
    let calls = ["APVARA", "CQ", "WIDE2-3", "APVARA", "APVARA", "CQ"];
    ThirdParty { heard: 0, calls, alias: 1, inner: MESSAGE }.message(crate::MAX_MESSAGE, || LONGEST)
}

/// The longest messages, and one byte more.
pub fn long_messages(r: &mut Random) -> Vec<Vec<u8>> {
    let of = |r: &mut Random, head: &[u8], n: usize| [head, &r.bytes(n - head.len())].concat();
    vec![
        of(r, &[0x20], 5_000),
        of(r, &[0x21], 5_000),
        of(r, &[0x40, 0xAC, 0xB7, 0x01, 0x00, 0x10], 5_000),
        of(r, &[0x20], 5_001),
        vec![0x41; 5_001],
        largest(),
    ]
}

#[cfg(test)]
mod tests {
    use super::*;
    use std::collections::BTreeSet;

    #[test]
    fn every_type_and_refusal() {
        let all = all(&mut Random::new(1, "cases"));
        let seen: BTreeSet<_> = all.iter().map(|(command, d)| crate::encode(*command, d).map(|(_, typ)| typ)).collect();
        for answer in [Ok(0), Ok(1), Ok(2), Ok(3), Ok(4), Ok(6), Err(1), Err(3), Err(4), Err(5)] {
            assert!(seen.contains(&answer), "{answer:?}");
        }
    }

    #[test]
    fn the_largest_decoded() {
        let message = largest();
        assert_eq!(message.len(), 5_000);
        assert_eq!(crate::decode(&message).expect("a message").1.len(), 45_764);
    }
}
