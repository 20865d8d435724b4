//! WIDE calls and their neighbours, and plain frames that have them in every place where a call stands.

use answers::random::Random;

/// Data, its message, and what the original reading makes of that; the mended one gives the data.
pub const WORKED: [[&str; 3]; 5] = [
    [
        "86A2404040406096628240404062AE92888A64406503F041",
        "48565B808032E410",
        "86A2404040406096628240404062AE92888A64407503F041",
    ],
    [
        "86A2404040406096628240404060AE92888A624066AE92888A64406703F041",
        "492B2DC040095CBD04",
        "86A2404040406096628240404060AE92888A624076AE92888A64407703F041",
    ],
    [
        "82A0A4A640406096628240404060AE92888A6240E2AE92888A64406503F03E6869",
        "49B449300B701001299707DA3480",
        "82A0A4A640406096628240404060AE92888A6240E2AE92888A64407503F03E6869",
    ],
    [
        "82A0A4A64040609662824040406103F03A57494445322D3220203A6869",
        "40D124C02DC040092ED1A4",
        "82A0A4A64040609662824040406103F03A57494445322D3130203A6869",
    ],
    [
        "86A2404040406096628240404060AE92888A64407503F041",
        "48565B80800B9220AE814820",
        "86A2404040406096628240404060AE92888A64407503F041",
    ],
];

/// The calls that are clean under the mended reading only.
const WIDE: [&str; 4] = ["WIDE1-2", "WIDE1-3", "WIDE2-2", "WIDE2-3"];
const DESTS: [&str; 5] = ["APRS", "APIN21", "APVARA", "APWW12", "AP-3"];
const STATIONS: [&str; 5] = ["K1A", "K2B-7", "LONGER-15", "CQ", "APRS"];
pub const ALIASES: [&str; 5] = ["WIDE", "PNW", "MW", "OR", "WA"];

/// An SSID as text, after a hyphen; 0 is not written.
pub fn suffix(ssid: usize) -> String {
    if ssid == 0 { String::new() } else { format!("-{ssid}") }
}

/// A clean call: half the time one with a WIDE token, else one with the token of another pair, a WIDE call that is spelled, as
/// WIDE2-10, or a station.
pub fn call(r: &mut Random) -> String {
    let digit = 1 + r.below(2);
    match r.below(8) {
        0..4 => format!("WIDE{digit}{}", suffix(r.below(4))),
        4 => format!("{}{digit}{}", ALIASES[1 + r.below(4)], suffix(r.below(3))),
        5 => format!("WIDE{digit}{}", suffix(9 + r.below(4))),
        6 => format!("WIDE{}{}", [0, 1, 2, 3, 12][r.below(5)], suffix(r.below(16))),
        _ => STATIONS[r.below(5)].to_string(),
    }
}

/// A destination: half the time one that starts with AP, which has an alias and more types.
pub fn destination(r: &mut Random) -> String {
    if r.below(2) == 0 { DESTS[r.below(5)].to_string() } else { call(r) }
}

/// The addresses of a frame; a digipeater was heard where its bit is set.
fn addresses(calls: &[String], heard: u8) -> Vec<u8> {
    let mut field = Vec::new();
    for (k, call) in calls.iter().enumerate() {
        let (name, ssid) = call.split_once('-').unwrap_or((call, "0"));
        let ssid: u8 = ssid.parse().expect("an SSID");
        let heard = if k < 2 { 0 } else { (heard >> (k - 2) & 1) << 7 };
        field.extend(format!("{name:<6}").bytes().map(|letter| letter << 1));
        field.push(heard | 0x60 | ssid << 1 | u8::from(k + 1 == calls.len()));
    }
    field
}

/// A plain frame of these calls.
fn frame(calls: &[String], heard: u8, information: &[u8]) -> Vec<u8> {
    [&addresses(calls, heard)[..], &[0x03, 0xF0], information].concat()
}

/// The information of a message to this call.
fn message_to(call: &str, text: &str) -> Vec<u8> {
    format!(":{call:<9}:{text}").into_bytes()
}

/// Information of every type that a plain frame has.
fn every_type() -> Vec<Vec<u8>> {
    let texts: [&[u8]; 5] =
        [b"", b">hello", b"\x80\xFF", b"!4903.50N/00723.75E>/A=001234 VARA", b"@092345h4903.50S\\00723.75W-on the way"];
    let addressees = WIDE.iter().chain(&["WIDE2-10", "K2B-7"]);
    texts.map(<[u8]>::to_vec).into_iter().chain(addressees.map(|call| message_to(call, "hi"))).collect()
}

/// Plain frames with each of the four calls as destination, as source and as each digipeater of one to eight, heard or not, with
/// information of every type, to a destination that starts with AP and to another.
pub fn every_place() -> Vec<Vec<u8>> {
    let mut all = Vec::new();
    let places = (2..=10).flat_map(|count| (0..count).map(move |place| (count, place)));
    for (count, place) in places {
        for (call, dest) in WIDE.iter().flat_map(|&call| ["APRS", "CQ"].map(|dest| (call, dest))) {
            let mut calls = vec!["K1A".to_string(); count];
            calls[0] = dest.to_string();
            calls[place] = call.to_string();
            let both = |information: Vec<u8>| [0x00, 0xFF].map(|heard| frame(&calls, heard, &information));
            all.extend(every_type().into_iter().flat_map(both));
        }
    }
    all
}

/// Some plain frame; its information is not empty, so that what is added leaves its type as it is.
pub fn plain(r: &mut Random) -> Vec<u8> {
    let digis = r.below(9);
    let mut calls = vec![destination(r), call(r)];
    calls.extend(path(r, digis));
    let types = every_type();
    let mut information = match r.below(3) {
        0 => message_to(&call(r), ""),
        _ => types[1 + r.below(types.len() - 1)].clone(),
    };
    let more = r.below(20);
    information.extend((0..more).map(|_| b'0' + r.below(0x50) as u8));
    frame(&calls, r.byte(), &information)
}

/// So many digipeaters: any calls, or those of an alias, at times with another one as the last.
pub fn path(r: &mut Random, digis: usize) -> Vec<String> {
    let alias = ALIASES[r.below(5)];
    if r.below(4) > 0 {
        return (0..digis).map(|_| call(r)).collect();
    }
    let mut calls: Vec<String> = (1..=digis).map(|k| format!("{alias}{k}-1")).collect();
    if let Some(last) = calls.last_mut()
        && r.below(2) == 0
    {
        *last = format!("{alias}{digis}{}", suffix(r.below(4)));
    }
    calls
}
