//! What data costs: worked examples, the limits of each mask and field, and previews against coding and then sending.

use xara::{Command, Encoder, Mask, Preview, Refusal};

const COMMANDS: [Command; 3] = [Command::Ax25, Command::Ax25Long, Command::Generic];

/// Document 01's frame.
const FRAME: [u8; 17] =
    [0x86, 0xA2, 0x40, 0x40, 0x40, 0x40, 0x60, 0x96, 0x62, 0x82, 0x40, 0x40, 0x40, 0x61, 0x03, 0xF0, 0x41];

fn costs(length: usize, count: usize) -> Result<Preview, Refusal> {
    Ok(Preview { length, count })
}

#[test]
fn worked_examples() {
    let generic = |data: &[u8], field, mask| xara::preview(Command::Generic, data, field, mask);
    assert_eq!(xara::preview(Command::Ax25, &FRAME, 5, Mask::Hf), costs(7, 2));
    assert_eq!(generic(&[], 3, Mask::Hf), costs(2, 1));
    assert_eq!(generic(&[0x80; 33], 3, Mask::Hf), costs(34, 17));
    assert_eq!(generic(&[0x80; 34], 3, Mask::Hf), Err(Refusal::Count));
    assert_eq!(generic(&[0x80; 17], 3, Mask::Fm), costs(18, 9));
    assert_eq!(generic(&[0x80; 18], 3, Mask::Fm), Err(Refusal::Count));
    assert_eq!(generic(&[0x80; 4999], 512, Mask::Hf), costs(5000, 10));
    assert_eq!(generic(&[0x41; 4999], 512, Mask::Hf), costs(4376, 9));
    assert_eq!(generic(&[0x80; 5000], 2, Mask::Hf), Err(Refusal::TooLong));
}

/// Under each mask the longest message at some fields: it has the most fragments, or 5,000 bytes. A byte more is refused.
#[test]
fn limits() {
    let data = [0x80; xara::MAX_DATA + 1];
    for (mask, field) in Mask::ALL.into_iter().flat_map(|mask| [3, 4, 40, 511, 512].map(|field| (mask, field))) {
        let room = mask.max_fragments() * (field - 1);
        let longest = room.min(xara::MAX_MESSAGE);
        let (count, after) = if room > xara::MAX_MESSAGE {
            (longest.div_ceil(field - 1), Refusal::TooLong)
        } else {
            (mask.max_fragments(), Refusal::Count)
        };
        let said = |n: usize| xara::preview(Command::Generic, &data[..n], field, mask);
        assert_eq!(said(longest - 1), costs(longest, count), "{field} under {mask:?}");
        assert_eq!(said(longest), Err(after), "{field} under {mask:?}");
    }
}

/// A message of field bytes is one fragment, and of a byte more two, at every field.
#[test]
fn every_field() {
    let data = [0x80; xara::MAX_FIELD];
    for field in xara::MIN_FIELD..=xara::MAX_FIELD {
        let said = |n: usize| xara::preview(Command::Generic, &data[..n], field, Mask::Bits7);
        assert_eq!((said(field - 1), said(field)), (costs(field, 1), costs(field + 1, 2)), "{field}");
    }
}

/// The length and the number of fragments, by coding and sending all of them.
fn sent(command: Command, data: &[u8], field: usize, mask: Mask) -> Result<Preview, Refusal> {
    let mut encoder = Encoder::new();
    let message = encoder.encode(command, data)?;
    let fragments = xara::fragments(&message, field, mask)?;
    assert_eq!(fragments.len(), xara::count_for_field(message.len(), field)?);
    Ok(Preview { length: message.len(), count: fragments.fold(0, |count, _| count + 1) })
}

/// Data under each command and mask at some fields.
fn each_price(data: &[u8]) {
    for (command, mask) in COMMANDS.into_iter().flat_map(|command| Mask::ALL.map(|mask| (command, mask))) {
        for field in [2, 3, 10, 512, 513] {
            let said = xara::preview(command, data, field, mask);
            assert_eq!(said, sent(command, data, field, mask), "{data:02X?} at {field} under {command:?} and {mask:?}");
        }
    }
}

/// The frame from K1A to APRS with this information, for calls of so many letters.
fn frame(information: &str, letters: usize) -> Vec<u8> {
    let address = |call: &str, last: u8| {
        let letters = format!("{call:<letters$}").into_bytes();
        letters.iter().map(|c| c << 1).chain([0x60 | last]).collect::<Vec<u8>>()
    };
    [&address("APRS", 0)[..], &address("K1A", 1), &[0x03, 0xF0], information.as_bytes()].concat()
}

/// Reports of every type, cut short anywhere, and any bytes of some lengths.
#[test]
fn as_coded_and_sent() {
    let reports = [
        "any text",
        "!4903.50N/07201.75W-/A=001234 mast",
        "!4903.50N/07201.75W-/A=00x234 mast",
        "@092345h4903.50N/07201.75W>moved",
        ":WIDE2-2  :hi",
        "}WIDE1-2>WIDE2-2,TCPIP,WIDE2-3*::WIDE1-3  :hi",
    ];
    for (report, letters) in reports.into_iter().flat_map(|report| [(report, 6), (report, 7)]) {
        let frame = frame(report, letters);
        (0..=frame.len()).for_each(|n| each_price(&frame[..n]));
    }
    let any: Vec<u8> = (0..600_usize).map(|i| (i * 37) as u8).collect();
    (0..any.len()).step_by(7).for_each(|n| each_price(&any[..n]));
}

/// Every byte in every place of a frame.
#[test]
fn every_byte() {
    let clean = frame("!4903.50N/07201.75W-/A=001234", 6);
    for (place, byte) in (0..clean.len()).flat_map(|place| (0..=255).map(move |byte| (place, byte))) {
        let mut frame = clean.clone();
        frame[place] = byte;
        let said = xara::preview(Command::Ax25, &frame, 5, Mask::Fm);
        assert_eq!(said, sent(Command::Ax25, &frame, 5, Mask::Fm), "{byte:02X} at {place}");
    }
}
