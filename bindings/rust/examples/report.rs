//! Sends a position report through all calls, hears it whole, then with a frame lost and sent again, and shows where the frames
//! went: the same as bindings/c/report.c, with the same output.

use xara::{Buffer, Command, Control, Decoder, Encoder, Heard, Mask, Reassembler, Refusal};

const FIELD: usize = 10;
const MARKER: u8 = 0xFF;

fn show(what: &str, bytes: &[u8]) {
    let hex: String = bytes.iter().map(|b| format!("{b:02X}")).collect();
    println!("{what:<9}{hex}");
}

/// A call of up to six letters in an address field; the last field of a frame ends the list.
fn address(call: &str, ssid: u8, last: bool) -> Vec<u8> {
    let letters = format!("{call:<6}").bytes().map(|c| c << 1).collect::<Vec<u8>>();
    [&letters[..], &[0x60 | ssid << 1 | u8::from(last)]].concat()
}

/// The report: an AX.25 frame with a position, an altitude and a comment.
fn report() -> Vec<u8> {
    let addresses = [address("APRS", 0, false), address("DL1ABC", 9, false), address("WIDE1", 1, true)].concat();
    let information = b"!4903.50N/00723.75E>/A=001234 mast moved, VARA HF ";
    [&addresses[..], &[0x03, 0xF0], information].concat()
}

/// Pushes all frames of a message but the lost one, and decodes the message that is done.
fn transmit(message: &[u8], lost: Option<usize>, receiver: &mut Reassembler) -> Result<Option<Vec<u8>>, Refusal> {
    let mut decoder = Decoder::new();
    let mut arrived = None;
    for (k, frame) in xara::fragments(message, FIELD, Mask::Hf)?.frames(Control::default(), MARKER)?.enumerate() {
        show(if lost == Some(k) { "lost" } else { "frame" }, &frame);
        if lost == Some(k) {
            continue;
        }
        match receiver.push(&frame, FIELD)? {
            Heard::Dropped => {
                let cause = receiver.cause().expect("a frame that is dropped has a cause");
                println!("{:<9}dropped\n{:<9}{cause}", "", "");
            }
            Heard::More => println!("{:<9}more", ""),
            Heard::Done(message) => {
                println!("{:<9}done", "");
                let (_, data) = decoder.decode(message)?;
                show("decoded", data);
                arrived = Some(data.to_vec());
            }
        }
    }
    Ok(arrived)
}

fn main() -> Result<(), Refusal> {
    let report = report();
    show("report", &report);
    let mut encoder = Encoder::new();
    let message @ Buffer { aprs_type, .. } = encoder.encode(Command::Ax25, &report)?;
    show("message", &message);
    println!("{:<9}type {}, {} bytes for {}", "", aprs_type.code(), message.len(), report.len());

    let mut receiver = Reassembler::new(Mask::Hf);
    assert_eq!(transmit(&message, None, &mut receiver)?, Some(report.clone()));

    println!("\nthe same with frame 1 lost, then sent again");
    assert_eq!(transmit(&message, Some(1), &mut receiver)?, None);
    assert_eq!(transmit(&message, None, &mut receiver)?, Some(report));
    println!("\n{}", receiver.tallies());

    let refusal = xara::fragments(&message, 2, Mask::Hf).expect_err("field 2 is refused");
    println!("\nfield 2: refused {}: {refusal}", refusal.number());
    Ok(())
}
