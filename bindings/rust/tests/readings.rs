//! Both readings of the calls WIDE1-2, WIDE1-3, WIDE2-2 and WIDE2-3, in every place where a call may stand.

mod common;

use common::{SENTINEL, packed, rooms};
use xara::{Command, Decoder, Encoder, Reading, Refusal};

const READINGS: [Reading; 2] = [Reading::Original, Reading::Mended];

/// The four calls, each with what the original reading makes of it.
const MISREAD: [(&str, &str); 4] =
    [("WIDE1-2", "WIDE1-10"), ("WIDE1-3", "WIDE1-11"), ("WIDE2-2", "WIDE2-10"), ("WIDE2-3", "WIDE2-11")];

/// Calls that both readings hand back as they were sent: in the same short form, in that of the other pairs, and spelled out.
const ALIKE: [&str; 16] = [
    "WIDE1", "WIDE1-1", "WIDE2", "WIDE2-1", "PNW1", "PNW2-1", "MW1-1", "OR2", "WA2-1", "WIDE1-10", "WIDE1-11",
    "WIDE2-10", "WIDE2-11", "WIDE2-4", "WIDE3-2", "K1A-3",
];

/// Reports as SOURCE>DESTINATION,DIGIPEATERS:INFORMATION, where a digipeater with a star has repeated it. `?` is the place of a
/// call, and with eight blanks after it that of a call padded to nine letters.
const PLACES: [&str; 14] = [
    "K1A>?:A",
    "?>CQ:A",
    "?>APRS:>hi",
    "?>?,?,?,?,?,?,?,?,?*:A",
    "?>APRS,?*,?,?,?,?,?,?,?:>hi",
    "?>APRS,?:>by WIDE2-2 and WIDE2-10",
    "K1A>APRS,?:!4903.50N/07201.75W-mast",
    "K1A>APRS::?        :hi",
    "?>APRS,?::?        :by WIDE2-2 and WIDE2-10",
    "K1A>APRS:}?>APRS,TCPIP,K1A*:>hi",
    "K1A>APRS:}K1A>?,TCPIP,K1A*:>hi",
    "K1A>APRS:}K1A>APRS,TCPIP,?*:>hi",
    "?>APRS,?:}?>?,TCPIP,?*:!4903.50N/07201.75W-mast",
    "?>APRS,?*:}?>?,TCPIP,?*::?        :hi",
];

/// The places, and each of up to eight digipeaters, with and without the bit that tells aliases from other calls.
fn places() -> Vec<String> {
    let others = ["ALL", "K1A*", "WIDE1-1", "PNW2-1*", "WIDE2", "CQ", "WIDE2-11", "K1A-3"];
    let path = |n: usize, k: usize| (0..n).map(|i| if i == k { "?" } else { others[i] }).collect::<Vec<_>>().join(",");
    let paths = (1..=8).flat_map(|n| (0..n).map(move |k| path(n, k)));
    let digipeaters = paths.flat_map(|path| ["CQ", "APRS"].map(|dest| format!("K1A>{dest},{path}:hi")));
    PLACES.iter().map(|report| report.to_string()).chain(digipeaters).collect()
}

fn with_call(report: &str, call: &str) -> String {
    report.replace("?        ", &format!("{call:<9}")).replace('?', call)
}

/// The address field of a call, which has so many letters.
fn address(call: &str, letters: usize) -> Vec<u8> {
    let (call, repeated) = call.strip_suffix('*').map_or((call, 0), |call| (call, 0x80));
    let (base, ssid) = call.split_once('-').unwrap_or((call, "0"));
    let low = repeated | 0x60 | ssid.parse::<u8>().expect("an SSID") << 1;
    format!("{base:<letters$}").bytes().map(|c| c << 1).chain([low]).collect()
}

/// The frame of a report, with control 03 and PID F0.
fn frame(report: &str, letters: usize) -> Vec<u8> {
    let (head, information) = report.split_once(':').expect("an information");
    let (source, path) = head.split_once('>').expect("a destination");
    let mut calls: Vec<&str> = path.split(',').collect();
    calls.insert(1, source);
    let mut addresses: Vec<u8> = calls.into_iter().flat_map(|call| address(call, letters)).collect();
    *addresses.last_mut().expect("two addresses") |= 0x01;
    [&addresses[..], &[0x03, 0xF0], information.as_bytes()].concat()
}

fn encoded(command: Command, data: &[u8]) -> Vec<u8> {
    Encoder::new().encode(command, data).expect("it is coded").to_vec()
}

/// A message is read as these data, into an output of every length and by a decoder.
fn read(reading: Reading, message: &[u8], command: Command, data: &[u8]) {
    let lent = |(said, data): (Command, &[u8])| {
        assert_eq!(said, command);
        data.to_vec()
    };
    rooms(data, |out| xara::decode_as(reading, message, out).map(lent));
    assert_eq!(Decoder::with_reading(reading).decode(message), Ok((command, data)));
    if reading == Reading::default() {
        rooms(data, |out| xara::decode(message, out).map(lent));
        assert_eq!(Decoder::new().decode(message), Ok((command, data)));
        assert_eq!(Decoder::default().decode(message), Ok((command, data)));
    }
}

/// A message is read as this report. Calls in a short form, and those of up to five letters, have the same bits in a long frame.
fn read_report(reading: Reading, message: &[u8], report: &str) {
    let long = [&[message[0] | 0x10], &message[1..]].concat();
    read(reading, message, Command::Ax25, &frame(report, 6));
    read(reading, &long, Command::Ax25Long, &frame(report, 7));
}

/// A report with one call in its places comes back with another.
fn comes_back(reading: Reading, report: &str, sent: &str, back: &str) {
    let message = encoded(Command::Ax25, &frame(&with_call(report, sent), 6));
    read_report(reading, &message, &with_call(report, back));
}

#[test]
fn the_four_calls_in_every_place() {
    for report in places() {
        for (sent, misread) in MISREAD {
            comes_back(Reading::Original, &report, sent, misread);
            comes_back(Reading::Mended, &report, sent, sent);
        }
    }
}

/// Data of a long frame is coded and comes back. Its information is text, whatever it looks like.
#[test]
fn the_four_calls_of_long_frames() {
    for report in places() {
        for (sent, _) in MISREAD {
            let data = frame(&with_call(&report, sent), 7);
            read(Reading::Mended, &encoded(Command::Ax25Long, &data), Command::Ax25Long, &data);
        }
    }
}

#[test]
fn other_calls_are_read_alike() {
    for report in places() {
        for (call, reading) in ALIKE.into_iter().flat_map(|call| READINGS.map(|reading| (call, reading))) {
            comes_back(reading, &report, call, call);
        }
    }
}

/// The text A, in seven bits, with the first bit that fills up the last byte.
const TEXT_A: &str = "10000010";

/// A path of WIDE1-1, WIDE2-1 and so on to an AP destination is a single number in place of its calls.
#[test]
fn aliases_are_read_alike() {
    for (number, alias) in (1..).zip(["WIDE", "PNW", "MW", "OR", "WA"]) {
        for n in 1..=8 {
            let path = (1..=n).map(|i| format!("{alias}{i}-1")).collect::<Vec<_>>().join(",");
            let report = format!("CQ>APVARA,{path}:A");
            let repeated = "0".repeat(n);
            let message = packed(0x47 + n as u8, &format!("{repeated}1100111010111{number:03b}000{TEXT_A}"));
            assert_eq!(encoded(Command::Ax25, &frame(&report, 6)), message);
            for reading in READINGS {
                read_report(reading, &message, &report);
            }
        }
    }
}

/// Every value of the last three bits of the short form: a frame to such a call from CQ, with the text A.
#[test]
fn the_bits_of_the_short_form() {
    let original = ["1", "1-1", "1-10", "1-11", "2", "2-1", "2-10", "2-11"];
    let mended = ["1", "1-1", "1-2", "1-3", "2", "2-1", "2-2", "2-3"];
    for (reading, calls) in READINGS.into_iter().zip([original, mended]) {
        for (last, call) in calls.iter().enumerate() {
            let message = packed(0x40, &format!("100101{last:03b}1010110{TEXT_A}"));
            read_report(reading, &message, &format!("CQ>WIDE{call}:A"));
        }
    }
}

fn bytes(hex: &str) -> Vec<u8> {
    hex.as_bytes().chunks(2).map(|b| u8::from_str_radix(std::str::from_utf8(b).unwrap(), 16).unwrap()).collect()
}

/// Data, its message, and what the original reading makes of it; the mended one hands back the data.
const EXAMPLES: [[&str; 3]; 5] = [
    [
        "86A2404040406096628240404062AE92888A64406503F041",
        "48565B808032E410",
        "86A2404040406096628240404062AE92888A64407503F041",
    ],
    [
        "86A2404040406096628240404060AE92888A624066AE92888A64406703F041",
        "492B2DC040095CBD04",
        "86A2404040406096628240404060AE92888A624076AE92888A64407703F041",
    ],
    [
        "82A0A4A640406096628240404060AE92888A6240E2AE92888A64406503F03E6869",
        "49B449300B701001299707DA3480",
        "82A0A4A640406096628240404060AE92888A6240E2AE92888A64407503F03E6869",
    ],
    [
        "82A0A4A64040609662824040406103F03A57494445322D3220203A6869",
        "40D124C02DC040092ED1A4",
        "82A0A4A64040609662824040406103F03A57494445322D3130203A6869",
    ],
    [
        "86A2404040406096628240404060AE92888A64407503F041",
        "48565B80800B9220AE814820",
        "86A2404040406096628240404060AE92888A64407503F041",
    ],
];

#[test]
fn worked_examples() {
    for [data, message, original] in EXAMPLES.map(|row| row.map(bytes)) {
        assert_eq!(encoded(Command::Ax25, &data), message);
        read(Reading::Original, &message, Command::Ax25, &original);
        read(Reading::Mended, &message, Command::Ax25, &data);
    }
}

/// A third party's calls are not padded: each of the three is a byte longer in the original reading.
#[test]
fn rooms_between_the_two_answers() {
    let report = frame("K1A>APRS:}WIDE1-2>WIDE2-2,TCPIP,WIDE2-3*:>hi", 6);
    let message = encoded(Command::Ax25, &report);
    for room in report.len()..report.len() + 3 {
        let mut out = vec![SENTINEL; room];
        assert_eq!(xara::decode(&message, &mut out), Err(Refusal::Output));
        assert_eq!(out, vec![SENTINEL; room]);
        let said = xara::decode_as(Reading::Mended, &message, &mut out);
        assert_eq!(said, Ok((Command::Ax25, &report[..])));
        assert_eq!(out[report.len()..], vec![SENTINEL; room - report.len()]);
    }
    let mut out = vec![SENTINEL; report.len() + 3];
    assert_eq!(xara::decode(&message, &mut out).map(|(_, data)| data.len()), Ok(report.len() + 3));
}

/// Refused with this in both readings, whatever the room, and nothing is written.
fn refused(message: &[u8], refusal: Refusal) {
    for (reading, room) in READINGS.into_iter().flat_map(|reading| [0, 1, 100].map(|room| (reading, room))) {
        let mut out = vec![SENTINEL; room];
        assert_eq!(xara::decode_as(reading, message, &mut out), Err(refusal));
        assert_eq!(out, vec![SENTINEL; room]);
        assert_eq!(Decoder::with_reading(reading).decode(message), Err(refusal));
    }
}

/// A message that is too long is refused for that even if it can't be decoded, and both come before a room that is too short.
#[test]
fn refusals_in_order() {
    for header in [0x20, 0x30, 0x48] {
        refused(&[header; 5001], Refusal::TooLong);
    }
    refused(&[0x30; 5000], Refusal::NotDecoded);
    refused(&[], Refusal::NotDecoded);
    for n in 0..5 {
        refused(&bytes(EXAMPLES[0][1])[..n], Refusal::NotDecoded);
    }
}

/// Messages that are cut short anywhere, with every header byte: both readings refuse the same ones.
#[test]
fn the_same_messages_are_refused() {
    let third = "K1A>APRS,WIDE2-2:}WIDE1-2>WIDE2-2,TCPIP,WIDE2-3*::WIDE1-3  :hi";
    let examples = EXAMPLES.map(|[_, message, _]| bytes(message));
    let (mut original, mut mended) = (Decoder::new(), Decoder::with_reading(Reading::Mended));
    let mut told = [0; 2];
    for message in examples.into_iter().chain([encoded(Command::Ax25, &frame(third, 6))]) {
        for (header, n) in (0..=255).flat_map(|header| (0..message.len()).map(move |n| (header, n))) {
            let cut = [&[header], &message[1..=n]].concat();
            let said = [original.decode(&cut), mended.decode(&cut)];
            let [a, b] = said.map(|said| said.map(|(command, _)| command));
            assert_eq!(a, b, "{cut:02X?}");
            told[usize::from(a.is_ok())] += 1;
        }
    }
    assert!(told.into_iter().all(|times| times > 1000), "{told:?}");
}
