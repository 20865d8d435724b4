//! Asks the source: one request a line on the input, one answer a line on the output.

use answers::kept::Kept;
use answers::{Answer, FIELDS, Receiver, hex};
use std::collections::HashMap;
use std::io::{self, BufRead, Write};
use std::str::FromStr;

/// Every request with its words. Numbers are decimal, MASK, MARKER, HEX and KEPT hexadecimal.
const REQUESTS: [(&str, &str); 16] = [
    ("encode", "CMD HEX"),
    ("decode", "HEX"),
    ("parse", "CMD HEX"),
    ("crc", "HEX"),
    ("count", "TOTAL FIELD"),
    ("split", "FIELD MASK HEX"),
    ("preview", "CMD FIELD MASK HEX"),
    ("frame", "FIELD REPLY COMPRESSED HINT MARKER HEX"),
    ("new", "NAME MASK"),
    ("push", "NAME FIELD HEX"),
    ("join", "NAME N HEX"),
    ("reset", "NAME"),
    ("state", "NAME"),
    ("keep", "NAME KEPT"),
    ("return", "NAME KEPT"),
    ("drop", "KEPT"),
];

type Receivers = HashMap<String, Receiver>;

fn main() -> io::Result<()> {
    let (mut receivers, mut kept) = (Receivers::new(), Kept::none());
    let mut out = io::stdout().lock();
    for line in io::stdin().lock().split(b'\n') {
        let answer = answer(&mut receivers, &mut kept, &line?).unwrap_or_else(|wrong| format!("error: {wrong}"));
        writeln!(out, "{answer}")?;
        out.flush()?;
    }
    Ok(())
}

fn answer(receivers: &mut Receivers, kept: &mut Kept<Receiver>, line: &[u8]) -> Result<String, String> {
    let line = std::str::from_utf8(line).map_err(|_| "the line is not text".to_string())?;
    let words: Vec<&str> = line.split(' ').collect();
    Ok(match words[..] {
        ["encode", command, data] => encode(number(command)?, &bytes(data)?),
        ["decode", message] => decode(&bytes(message)?),
        ["parse", command, data] => parse(number(command)?, &bytes(data)?),
        ["crc", data] => format!("{:04X}", answers::crc(&bytes(data)?)),
        ["count", total, field] => count(number(total)?, number(field)?),
        ["split", field, mask, message] => split(size(field)?, byte(mask)?, &bytes(message)?),
        ["preview", command, field, mask, data] => {
            preview(number(command)?, number(field)?, byte(mask)?, &bytes(data)?)
        }
        ["frame", field, reply, compressed, hint, marker, data] => {
            let (field, reply, compressed) = (size(field)?, number(reply)?, flag(compressed)?);
            hex::to_hex(&answers::frame(field, &bytes(data)?, reply, compressed, number(hint)?, byte(marker)?))
        }
        ["new", name, mask] => create(receivers, name, byte(mask)?),
        ["push", name, field, frame] => received(receiver(receivers, name)?.push(&bytes(frame)?, size(field)?)),
        ["join", name, n, fragment] => received(receiver(receivers, name)?.join(&bytes(fragment)?, number(n)?)),
        ["reset", name] => reset(receiver(receivers, name)?),
        ["state", name] => state(receiver(receivers, name)?),
        ["keep", name, under] => numbered(kept.keep(&bytes(under)?, receiver(receivers, name)?)),
        ["return", name, under] => return_to(receiver(receivers, name)?, kept.returned(&bytes(under)?)),
        ["drop", under] => numbered(kept.drop_name(&bytes(under)?)),
        _ => return Err(misused(words[0])),
    })
}

fn encode(command: u8, data: &[u8]) -> String {
    let coded = answers::encode(command, data);
    or_refused(coded.map(|(message, kind)| format!("{kind} {}", hex::to_hex(&message))))
}

fn decode(message: &[u8]) -> String {
    let decoded = answers::decode(message);
    or_refused(decoded.map(|(command, data)| format!("{command} {}", hex::to_hex(&data))))
}

fn parse(command: u8, data: &[u8]) -> String {
    let summary = answers::summary(command, data);
    or_refused(summary.map(|(kind, digipeaters, ui)| format!("{kind} {digipeaters} {}", u8::from(ui))))
}

fn count(total: usize, field: usize) -> String {
    numbered(answers::count(total, field))
}

/// The fragments in order; an empty message has none.
fn split(field: usize, mask: u8, message: &[u8]) -> String {
    let fragments: Vec<String> = answers::split(message, field, mask).iter().map(|f| hex::to_hex(f)).collect();
    if fragments.is_empty() { "none".to_string() } else { fragments.join(" ") }
}

/// The message's length and the number of its fragments. Fields and masks outside the domain are refused, not bad lines.
fn preview(command: u8, field: usize, mask: u8, data: &[u8]) -> String {
    let price = answers::preview(command, data, field, mask);
    or_refused(price.map(|(length, count)| format!("{length} {count}")))
}

/// A new receiver takes the place of one with the same name.
fn create(receivers: &mut Receivers, name: &str, mask: u8) -> String {
    receivers.insert(name.to_string(), Receiver::new(mask));
    "ok".to_string()
}

fn reset(receiver: &mut Receiver) -> String {
    receiver.reset();
    "ok".to_string()
}

fn received(answer: Answer) -> String {
    match answer {
        Answer::Dropped => "dropped".to_string(),
        Answer::More => "more".to_string(),
        Answer::Done(message) => format!("done {}", hex::to_hex(&message)),
    }
}

fn state(receiver: &Receiver) -> String {
    let s = receiver.state();
    let (held, overflow) = (hex::to_hex(&s.held), u8::from(s.overflow));
    format!("held {held} fragments {} check {:02X} mask {:02X} overflow {overflow}", s.fragments, s.check, s.mask)
}

fn numbered(answer: Result<usize, u8>) -> String {
    or_refused(answer.map(|n| n.to_string()))
}

/// The receiver goes on as the one that was kept, where there is one.
fn return_to(receiver: &mut Receiver, returned: Result<Receiver, u8>) -> String {
    or_refused(returned.map(|kept| {
        *receiver = kept;
        "ok".to_string()
    }))
}

fn or_refused(answer: Result<String, u8>) -> String {
    answer.unwrap_or_else(|refusal| format!("refused {refusal}"))
}

fn receiver<'a>(receivers: &'a mut Receivers, name: &str) -> Result<&'a mut Receiver, String> {
    receivers.get_mut(name).ok_or_else(|| format!("no receiver {name}"))
}

fn number<T: FromStr>(word: &str) -> Result<T, String> {
    let digits = word.bytes().all(|c| c.is_ascii_digit());
    word.parse().ok().filter(|_| digits).ok_or_else(|| format!("not a number in range: {word}"))
}

/// The source has no answer outside the domain's field sizes.
fn size(word: &str) -> Result<usize, String> {
    number(word).ok().filter(|f| FIELDS.contains(f)).ok_or_else(|| format!("not a field from 3 to 512: {word}"))
}

fn flag(word: &str) -> Result<bool, String> {
    match word {
        "0" => Ok(false),
        "1" => Ok(true),
        _ => Err(format!("not 0 or 1: {word}")),
    }
}

fn bytes(word: &str) -> Result<Vec<u8>, String> {
    hex::from_hex(word).ok_or_else(|| format!("not bytes in capital hexadecimal: {word}"))
}

fn byte(word: &str) -> Result<u8, String> {
    match bytes(word)?[..] {
        [byte] => Ok(byte),
        _ => Err(format!("not one byte: {word}")),
    }
}

fn misused(request: &str) -> String {
    match REQUESTS.iter().find(|(name, _)| *name == request) {
        Some((name, words)) => format!("use {name} {words}"),
        None if request.is_empty() => "nothing asked".to_string(),
        None => format!("no request {request}"),
    }
}
