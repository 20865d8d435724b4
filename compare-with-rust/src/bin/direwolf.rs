//! Sends plain frames through a whole journey of our calls, and holds what Dire Wolf's `decode_aprs` reads of the result
//! against what was sent: the path, the position and the altitude, or the addressee and the text.

#[allow(dead_code)]
#[path = "../xara.rs"]
mod xara;

use answers::random::Random;
use std::fs;
use std::process::{Command, ExitCode};
use xara::{Control, Heard, Receiver};

const AX25: u8 = 0;
const FIELD: usize = 30;
const MASK: u8 = 0xF0;
const FRAMES: usize = 60;

/// A frame, and the lines that `decode_aprs` is to say of it, in this order.
struct Report {
    frame: Vec<u8>,
    lines: Vec<String>,
}

fn main() -> ExitCode {
    let mut r = Random::new(1, "direwolf");
    let mut wrong = 0;
    for k in 0..FRAMES {
        let report = Report::new(k, &mut r);
        let arrived = journey(&report.frame).expect("a plain frame is accepted by every call");
        let said = read(&arrived);
        let mut rest = said.lines();
        let missing = report.lines.iter().find(|&line| !rest.any(|found| found.contains(line.as_str())));
        if let Some(line) = missing {
            wrong += 1;
            println!("not read: {line}\nDire Wolf said:\n{said}");
        } else if k < 3 {
            println!("{}", report.lines.join("\n"));
        }
    }
    println!("{FRAMES} frames read, {wrong} wrong");
    if wrong == 0 { ExitCode::SUCCESS } else { ExitCode::FAILURE }
}

impl Report {
    /// Positions, positions with a time, and messages in turn.
    fn new(k: usize, r: &mut Random) -> Self {
        let source = station(r);
        let digis: Vec<(String, bool)> = (0..r.below(3)).map(|i| (station(r), i == 0)).collect();
        let mut path = format!("{source}>APRS");
        for (digi, heard) in &digis {
            path += &format!(",{digi}{}", if *heard { "*" } else { "" });
        }
        let (information, read) = match k % 3 {
            0 => place("!".to_string(), r),
            1 => place(format!("@{:02}{:02}{:02}h", r.below(24), r.below(60), r.below(60)), r),
            _ => message(r),
        };
        let mut frame = address("APRS", false, false);
        frame.extend(address(&source, false, digis.is_empty()));
        for (i, (digi, heard)) in digis.iter().enumerate() {
            frame.extend(address(digi, *heard, i + 1 == digis.len()));
        }
        frame.extend([0x03, 0xF0]);
        frame.extend(information.bytes());
        Report { frame, lines: vec![format!("{path}:{information}"), read] }
    }
}

/// A position with an altitude behind what its information starts with, and how Dire Wolf writes it.
fn place(start: String, r: &mut Random) -> (String, String) {
    let (lat, lon) = ((r.below(90), r.below(6000)), (r.below(180), r.below(6000)));
    let (ns, we) = (if r.below(2) == 0 { 'N' } else { 'S' }, if r.below(2) == 0 { 'E' } else { 'W' });
    let minutes = |m: usize| format!("{:02}.{:02}", m / 100, m % 100);
    let feet = 1 + r.below(9999);
    let (lat_minutes, lon_minutes) = (minutes(lat.1), minutes(lon.1));
    let information = format!(
        "{start}{:02}{lat_minutes}{ns}/{:03}{lon_minutes}{we}>On the way, VARA HF /A=00{feet:04}",
        lat.0, lon.0
    );
    (information, format!("{ns} {:02} {lat_minutes}00, {we} {:03} {lon_minutes}00, alt {feet} ft", lat.0, lon.0))
}

fn message(r: &mut Random) -> (String, String) {
    let to = station(r);
    let number = r.below(100);
    (format!(":{to:<9}:net at 1900, Digi ok{{{number}"), format!("APRS Message {number} for \"{to}\""))
}

/// A call of six letters and digits, at times with an SSID.
fn station(r: &mut Random) -> String {
    let letter = |r: &mut Random| char::from(r.one_of(b"ABCDEFGHIJKLMNOPQRSTUVWXYZ"));
    let base: String =
        [letter(r), letter(r), char::from(r.one_of(b"0123456789")), letter(r), letter(r), letter(r)].iter().collect();
    match r.below(16) {
        0 => base,
        ssid => format!("{base}-{ssid}"),
    }
}

fn address(call: &str, heard: bool, last: bool) -> Vec<u8> {
    let (base, ssid) = call.split_once('-').unwrap_or((call, "0"));
    let ssid: u8 = ssid.parse().expect("a number");
    let mut field: Vec<u8> = format!("{base:<6}").bytes().map(|c| c << 1).collect();
    field.push(0x60 | ssid << 1 | u8::from(heard) << 7 | u8::from(last));
    field
}

/// Coded, cut into fragments, framed, pushed, and decoded again.
fn journey(frame: &[u8]) -> Result<Vec<u8>, u8> {
    let (mut message, mut store, mut data) = ([0; 5000], [0; 5000], vec![0; 45_764]);
    let (n, _) = xara::encode(AX25, frame, &mut message).told()?;
    let message = &message[..n];
    let mut receiver = Receiver::fresh(MASK).told()?;
    let mut done = 0;
    for k in 0..xara::count(message.len(), FIELD).told()? {
        let (mut fragment, mut sent) = ([0; FIELD], [0; FIELD + 3]);
        let n = xara::fragment(message, FIELD, MASK, k, &mut fragment).told()?;
        let control = Control { reply: 0, compressed: 0, hint: 0 };
        let n = xara::frame(FIELD, &fragment[..n], control, 0xFF, &mut sent).told()?;
        let pushed = receiver.push(&mut store, &sent[..n], FIELD);
        receiver = pushed.receiver;
        if let Heard::Done(length) = pushed.heard() {
            done = length;
        }
    }
    let (n, _) = xara::decode(&store[..done], &mut data).told()?;
    data.truncate(n);
    Ok(data)
}

/// What `decode_aprs` says of a frame, without its colours.
fn read(frame: &[u8]) -> String {
    let path = std::env::temp_dir().join(format!("direwolf-{}.txt", std::process::id()));
    let hex: Vec<String> = frame.iter().map(|b| format!("{b:02X}")).collect();
    fs::write(&path, hex.join(" ") + "\n").expect("a file can be written");
    let output = Command::new("decode_aprs").arg(&path).output().expect("decode_aprs of Debian's package direwolf");
    fs::remove_file(&path).expect("the file is there");
    let text = String::from_utf8_lossy(&output.stdout).into_owned();
    let mut plain = String::new();
    let mut rest = text.as_str();
    while let Some((before, behind)) = rest.split_once('\x1b') {
        plain += before;
        rest = behind.split_once(|c: char| c.is_ascii_alphabetic()).map_or("", |(_, behind)| behind);
    }
    plain + rest
}
