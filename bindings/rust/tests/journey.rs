//! Reports that go all the way, by the types that own their buffers.

use xara::{AprsType, Command, Control, Decoder, Encoder, Heard, Mask, Reassembler, Refusal, Summary};

/// A position report: K1A-9 to APRS by WIDE1-1, which has repeated it.
fn report() -> Vec<u8> {
    let address = |call: &[u8; 6], low: u8| call.iter().map(|c| c << 1).chain([low]).collect::<Vec<u8>>();
    let information = b"!4903.50N/00723.75E>/A=001234 mast moved";
    let addresses =
        [address(b"APRS  ", 0x60), address(b"K1A   ", 0x60 | 9 << 1), address(b"WIDE1 ", 0xE0 | 1 << 1 | 1)];
    [&addresses.concat()[..], &[0x03, 0xF0], information].concat()
}

/// What the receiver says of each frame of a message but the lost one, and the data at the end.
fn heard(
    message: &[u8],
    field: usize,
    mask: Mask,
    receiver: &mut Reassembler,
    lost: usize,
) -> (String, Option<Vec<u8>>) {
    let (mut said, mut decoder, mut data) = (String::new(), Decoder::new(), None);
    let frames =
        xara::fragments(message, field, mask).and_then(|f| f.frames(Control::default(), 0xFF)).expect("accepted");
    for (_, frame) in frames.enumerate().filter(|(k, _)| *k != lost) {
        said.push(match receiver.push(&frame, field).expect("the field is accepted") {
            Heard::Dropped => 'd',
            Heard::More => 'm',
            Heard::Done(message) => {
                let (command, bytes) = decoder.decode(message).expect("it is decoded");
                data = Some([&[command.byte()], bytes].concat());
                'D'
            }
        });
    }
    (said, data)
}

#[test]
fn a_report_arrives() {
    let mut encoder = Encoder::new();
    let summary = Summary { aprs_type: AprsType::Position, ui: true, digis: 1 };
    assert_eq!(xara::summary(Command::Ax25, &report()), Ok(summary));
    let message = encoder.encode(Command::Ax25, &report()).expect("it is coded");
    assert_eq!(message.aprs_type, AprsType::Position);
    for mask in Mask::ALL {
        for field in [8, 10, 20, 64, 512] {
            let mut receiver = Reassembler::new(mask);
            let count = xara::count_for_field(message.len(), field).expect("accepted");
            if count > mask.max_fragments() {
                assert_eq!(xara::fragments(&message, field, mask).err(), Some(Refusal::Count));
                continue;
            }
            let whole = ("m".repeat(count - 1) + "D", Some([&[0], &report()[..]].concat()));
            assert_eq!(heard(&message, field, mask, &mut receiver, usize::MAX), whole);
            assert_eq!(heard(&message, field, mask, &mut receiver, usize::MAX), whole);
        }
    }
}

/// A message of as many fragments as the mask leaves room for arrives, or one of 5,000 bytes; a byte more is refused.
#[test]
fn the_longest_messages_arrive() {
    for mask in Mask::ALL {
        for field in [3, 40, 512] {
            let most = mask.max_fragments() * (field - 1);
            let (length, refusal) =
                if most < xara::MAX_MESSAGE { (most, Refusal::Count) } else { (xara::MAX_MESSAGE, Refusal::TooLong) };
            let message: Vec<u8> = [0x20].into_iter().chain((1..=length).map(|i| (i * 37) as u8)).collect();
            let whole = [&[2], &message[1..length]].concat();
            let said = "m".repeat(length.div_ceil(field - 1) - 1) + "D";
            let mut receiver = Reassembler::new(mask);
            assert_eq!(heard(&message[..length], field, mask, &mut receiver, usize::MAX), (said, Some(whole)));
            assert_eq!(xara::fragments(&message, field, mask).err(), Some(refusal));
        }
    }
}

#[test]
fn a_frame_is_lost_and_the_report_sent_again() {
    let mut encoder = Encoder::new();
    let message = encoder.encode(Command::Ax25, &report()).expect("it is coded");
    let mut receiver = Reassembler::default();
    assert_eq!(xara::count_for_field(message.len(), 10), Ok(4));
    assert_eq!(heard(&message, 10, Mask::Hf, &mut receiver, 1), ("mmd".to_string(), None));
    assert_eq!(heard(&message, 10, Mask::Hf, &mut receiver, 3), ("mmm".to_string(), None));
    assert_eq!(receiver.first(), Some(message[0] | 0x80));
    receiver.reset();
    assert_eq!((receiver.first(), receiver.held()), (None, &[][..]));
    assert_eq!(heard(&message, 10, Mask::Hf, &mut receiver, usize::MAX).0, "mmmD");
}

/// Of several fragments each before the last has exactly field bytes, the last at least 2. One fragment alone is the message.
fn full_before_the_last(length: usize, field: usize, mask: Mask) {
    let message = vec![0x21; length];
    let fragments = xara::fragments(&message, field, mask).expect("accepted");
    let lengths: Vec<usize> = fragments.map(|fragment| fragment.len()).collect();
    assert_eq!(xara::count_for_field(length, field), Ok(lengths.len()));
    let full = match lengths[..] {
        [one] => one == length,
        [ref before @ .., last] => before.iter().all(|&n| n == field) && (2..=field).contains(&last),
        [] => false,
    };
    assert!(full, "{length} bytes by fields of {field}: {lengths:?}");
}

#[test]
fn each_fragment_before_the_last_is_full() {
    for mask in Mask::ALL {
        for field in [3, 4, 5, 40, 511, 512] {
            let most = (mask.max_fragments() * (field - 1)).min(xara::MAX_MESSAGE);
            let edges = (1..=mask.max_fragments()).flat_map(|count| [count * (field - 1), count * (field - 1) + 1]);
            for length in edges.chain([1, most]).filter(|&length| length <= most) {
                full_before_the_last(length, field, mask);
            }
        }
    }
}

#[test]
fn the_fragments_are_exact() {
    let message: Vec<u8> = (0..100).collect();
    let fragments = xara::fragments(&message, 9, Mask::Hf).expect("accepted");
    assert_eq!((fragments.len(), fragments.field()), (13, 9));
    let all: Vec<_> = fragments.clone().collect();
    assert_eq!(all.len(), 13);
    for (k, fragment) in all.iter().enumerate() {
        assert_eq!(fragments.get(k).as_ref(), Some(fragment));
        assert_eq!(fragments.clone().nth(k).as_ref(), Some(fragment));
        assert_eq!(fragment[0] & 0x80 == 0, k == 12);
    }
    let tails: Vec<u8> = all.iter().enumerate().flat_map(|(k, f)| f[if k == 0 { 2 } else { 1 }..].to_vec()).collect();
    assert_eq!(tails, message[1..]);
    let mut some = fragments.clone();
    assert_eq!((some.next(), some.nth(3), some.len()), (fragments.get(0), fragments.get(4), 8));
    assert_eq!(fragments.get(13), None);
    assert_eq!(fragments.clone().nth(13), None);
    assert_eq!(fragments.clone().nth(usize::MAX), None);
}

#[test]
fn the_frames_are_exact() {
    let message: Vec<u8> = (0..100).collect();
    let control = Control { reply: 2, compressed: true, hint: 5 };
    let frames = xara::fragments(&message, 9, Mask::Hf).and_then(|f| f.frames(control, 0x01)).expect("accepted");
    assert_eq!(frames.len(), 13);
    for (k, frame) in frames.clone().enumerate() {
        assert_eq!(frames.get(k), Some(frame));
        assert_eq!(frames.clone().nth(k), Some(frame));
        assert_eq!(frame.len(), 12);
        assert_eq!(frame[9], 0xB4 | u8::from(k < 12));
        assert_eq!(frame[10..], xara::crc16_genibus(&frame[..10]).to_be_bytes());
    }
    assert_eq!(frames.get(13), None);
}

/// A sender's marker and a zero stand after a last fragment that is shorter than its field.
#[test]
fn a_shorter_fragment_is_filled() {
    let mut out = [0xA5; 8];
    let frame = xara::build_frame(5, b"AB", Control::default(), 0x77, &mut out).expect("accepted");
    assert_eq!(frame[..6], [b'A', b'B', 0x14, 0x77, 0x00, 0x00]);
}

#[test]
fn a_receiver_is_cloned_with_what_it_holds() {
    let message = [0x40, 1, 2, 3];
    let check = (xara::crc16_genibus(&message) >> 8) as u8 & Mask::Hf.byte();
    let mut receiver = Reassembler::new(Mask::Hf);
    assert_eq!(receiver.join(&[0xC0, check, 1, 2], 4), Ok(Heard::More));
    let mut other = receiver.clone();
    assert_eq!(receiver.held(), [0xC0, 1, 2]);
    receiver.reset();
    assert_eq!(other.held(), [0xC0, 1, 2]);
    assert_eq!(other.join(&[0x40, 3], 2).map(Heard::done), Ok(Some(&message[..])));
    assert_eq!(receiver.join(&[0x40, 3], 2).map(Heard::done), Ok(Some(&[0x40, 3][..])));
}

/// The address fields of K1A and a destination, then what a frame ends with.
fn frame(dest: &[u8; 6], end: &[u8]) -> Vec<u8> {
    let address = |call: &[u8; 6], low: u8| call.iter().map(|c| c << 1).chain([low]).collect::<Vec<u8>>();
    [&address(dest, 0x60)[..], &address(b"K1A   ", 0x61), end].concat()
}

#[test]
fn every_type() {
    let third = b"}K1A-9>APRS,TCPIP,K1A*:!4903.50N/00723.75E>";
    let all: [(AprsType, u8, &[u8]); 6] = [
        (AprsType::Text, 0, b">on the way"),
        (AprsType::Binary, 1, b"\x80"),
        (AprsType::Position, 2, b"!4903.50N/00723.75E>"),
        (AprsType::TimestampedPosition, 3, b"@092345h4903.50N/00723.75E>"),
        (AprsType::Message, 4, b":K1A      :hello"),
        (AprsType::ThirdParty, 6, third),
    ];
    let mut encoder = Encoder::new();
    for (aprs_type, code, information) in all {
        assert_eq!((aprs_type.code(), AprsType::from_code(code)), (code, Some(aprs_type)));
        assert_eq!(aprs_type.has_position(), code == 2 || code == 3);
        for (control, ui) in [(0x03, true), (0x13, true), (0x93, false)] {
            let data = frame(b"APRS  ", &[&[control, 0xF0], information].concat());
            let summary = Summary { aprs_type, ui, digis: 0 };
            assert_eq!(xara::summary(Command::Ax25, &data), Ok(summary));
            assert_eq!(encoder.encode(Command::Ax25, &data).map(|message| message.aprs_type), Ok(aprs_type));
        }
    }
    assert_eq!([5, 7, 255].map(AprsType::from_code), [None; 3]);
    let generic = Summary { aprs_type: AprsType::Text, ui: false, digis: 0 };
    assert_eq!(xara::summary(Command::Generic, &frame(b"APRS  ", &[&[0x03, 0xF0][..], third].concat())), Ok(generic));
}

/// UI is control 03 or 13, whatever the PID is; the coder goes on treating only 03 with PID F0 as the short header.
#[test]
fn polled_frames() {
    let all: [(&[u8], bool); 7] = [
        (b"\x03\xF0A", true),
        (b"\x13\xF0A", true),
        (b"\x0F\xF0A", false),
        (b"\x23\xF0A", false),
        (b"\x93\xF0A", false),
        (b"\x83\xF0A", false),
        (b"\x13\x00", true),
    ];
    for (end, ui) in all {
        let summary = Summary { aprs_type: AprsType::Text, ui, digis: 0 };
        assert_eq!(xara::summary(Command::Ax25, &frame(b"CQ    ", end)), Ok(summary), "{end:02X?}");
    }
    let mut encoder = Encoder::new();
    let message = encoder.encode(Command::Ax25, &frame(b"CQ    ", b"\x13\xF0A")).expect("it is coded");
    assert_eq!(&message[..], [0x00, 0xAC, 0xB7, 0x01, 0x00, 0x04, 0xF8, 0x41, 0x00]);
    assert_eq!(Decoder::new().decode(&message), Ok((Command::Ax25, &frame(b"CQ    ", b"\x13\x70A")[..])));
}

/// A long frame has calls of seven letters, and comes back as one. Its summary tells UI by control, too.
#[test]
fn a_long_frame_arrives() {
    let address = |call: &[u8; 7], low: u8| call.iter().map(|c| c << 1).chain([low]).collect::<Vec<u8>>();
    let data = [&address(b"CQ     ", 0x60)[..], &address(b"ABCDEFG", 0x61), &[0x03, 0xF0], b"hello"].concat();
    let mut encoder = Encoder::new();
    let message = encoder.encode(Command::Ax25Long, &data).expect("it is coded");
    assert_eq!(Decoder::new().decode(&message), Ok((Command::Ax25Long, &data[..])));
    for (control, ui) in [(0x03, true), (0x13, true), (0x93, false)] {
        let polled = [&data[..16], &[control], &data[17..]].concat();
        let summary = Summary { aprs_type: AprsType::Text, ui, digis: 0 };
        assert_eq!(xara::summary(Command::Ax25Long, &polled), Ok(summary));
    }
}

#[test]
fn new_receivers() {
    for mask in Mask::ALL {
        let made = Reassembler::with_crc_mask(mask.byte()).expect("the mask is accepted");
        assert_eq!(Reassembler::new(mask).state(), made.state());
        assert_eq!(made.state().crc_mask, mask.byte());
    }
    assert_eq!(Reassembler::default().state(), Reassembler::new(Mask::Hf).state());
}

/// Empty slices are lent, too.
#[test]
fn nothing_at_all() {
    assert_eq!(xara::crc16_genibus(&[]), 0);
    assert_eq!(xara::encode(Command::Generic, &[], &mut []), Err(Refusal::Output));
    assert_eq!(xara::decode(&[0x21], &mut []), Ok((Command::Generic, &[][..])));
    assert_eq!(xara::fragment(&[], 3, Mask::Hf, 0, &mut []), Err(Refusal::Empty));
    assert_eq!(xara::build_frame(3, &[], Control::default(), 0, &mut []), Err(Refusal::Fragment));
    assert_eq!(Reassembler::default().join(&[], 0), Ok(Heard::Dropped));
    assert_eq!(Reassembler::default().push(&[], 3), Ok(Heard::Dropped));
}
