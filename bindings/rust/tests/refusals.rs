//! Each refusal that the types leave, in the order in which a call decides them, with nothing written.

use xara::{Command, Control, Mask, Refusal};

/// A frame from K1A with control 03, PID F0 and this information.
fn frame(dest: &[u8; 6], information: &[u8]) -> Vec<u8> {
    let address = |call: &[u8; 6], last: u8| call.iter().map(|c| c << 1).chain([0x60 | last]).collect::<Vec<u8>>();
    [&address(dest, 0)[..], &address(b"K1A   ", 1), &[0x03, 0xF0], information].concat()
}

fn encoded(command: Command, data: &[u8]) -> Result<usize, Refusal> {
    let mut out = [0xA5; 100];
    let said = xara::encode(command, data, &mut out).map(|a| a.len());
    if said.is_err() {
        assert_eq!(out, [0xA5; 100]);
    }
    said
}

#[test]
fn coder() {
    assert_eq!(encoded(Command::Generic, &[0; 5000]), Err(Refusal::TooLong));
    assert_eq!(encoded(Command::Ax25, &[0; 5000]), Err(Refusal::TooLong));
    let plain = frame(b"CQ    ", b"A");
    for n in 0..16 {
        assert_eq!(encoded(Command::Ax25, &plain[..n]), Err(Refusal::Short));
    }
    assert!(encoded(Command::Ax25, &plain[..16]).is_ok());
    assert_eq!(encoded(Command::Ax25, &frame(b"C@    ", b"A")), Err(Refusal::BadCall));
    let place = |altitude: &str| format!("!4903.50N/00723.75E>/A=00{altitude}");
    assert_eq!(encoded(Command::Ax25, &frame(b"APRS  ", place("x234").as_bytes())), Err(Refusal::Format));
    assert!(encoded(Command::Ax25, &frame(b"APRS  ", place("1234").as_bytes())).is_ok());
    assert_eq!(encoded(Command::Generic, &[0x80; 100]), Err(Refusal::Output));
}

#[test]
fn summary() {
    assert_eq!(xara::summary(Command::Ax25, &[0; 5000]), Err(Refusal::TooLong));
    assert_eq!(xara::summary(Command::Ax25, &[0; 15]), Err(Refusal::Short));
    assert_eq!(xara::summary(Command::Ax25Long, &[0; 17]), Err(Refusal::Short));
}

/// What the coder refuses comes before the field, and the field before the count.
#[test]
fn preview() {
    let (form, bad) = (frame(b"APRS  ", b"!4903.50N/00723.75E>/A=00x234"), frame(b"C@    ", b"A"));
    let plain = frame(b"CQ    ", b"A");
    for (field, mask) in [0, 1, 2, 3, 512, 513, usize::MAX].into_iter().zip(Mask::ALL) {
        let said = |command, data: &[u8]| xara::preview(command, data, field, mask).unwrap_err();
        assert_eq!([Command::Ax25, Command::Generic].map(|command| said(command, &[0; 5000])), [Refusal::TooLong; 2]);
        assert_eq!(said(Command::Ax25, &[]), Refusal::Short);
        assert_eq!(said(Command::Ax25, &plain[..15]), Refusal::Short);
        assert_eq!(said(Command::Ax25Long, &[0; 17]), Refusal::Short);
        assert_eq!(said(Command::Ax25, &bad), Refusal::BadCall);
        assert_eq!(said(Command::Ax25, &form), Refusal::Format);
    }
    for field in [0, 1, 2, 513, usize::MAX] {
        assert_eq!(xara::preview(Command::Ax25, &plain, field, Mask::Hf), Err(Refusal::Field));
        assert_eq!(xara::preview(Command::Generic, &[0x80; 4999], field, Mask::Bits7), Err(Refusal::Field));
    }
    for mask in Mask::ALL {
        assert_eq!(xara::preview(Command::Generic, &[0x80; 4999], 3, mask), Err(Refusal::Count));
    }
}

#[test]
fn decoder() {
    let mut out = [0xA5; 100];
    assert_eq!(xara::decode(&[0x20; 5001], &mut out), Err(Refusal::TooLong));
    assert_eq!(xara::decode(&[], &mut out), Err(Refusal::NotDecoded));
    assert_eq!(xara::decode(&[0x30, 1, 2, 3], &mut out), Err(Refusal::NotDecoded));
    assert_eq!(xara::decode(&[0x20; 5000], &mut out), Err(Refusal::Output));
    assert_eq!(out, [0xA5; 100]);
}

fn cut(message: &[u8], field: usize, mask: Mask, k: usize) -> Result<usize, Refusal> {
    let mut out = [0xA5; 600];
    let said = xara::fragment(message, field, mask, k, &mut out).map(<[u8]>::len);
    if let Err(refusal) = said {
        assert_eq!(out, [0xA5; 600]);
        let all = xara::fragments(message, field, mask).map(|list| list.len());
        assert!(all == Err(refusal) || refusal == Refusal::Number && all == Ok(k));
    }
    said
}

#[test]
fn sender() {
    for field in [0, 1, 2, 513, usize::MAX] {
        assert_eq!(cut(&[], field, Mask::Hf, 0), Err(Refusal::Field));
        assert_eq!(xara::count_for_field(usize::MAX, field), Err(Refusal::Field));
    }
    assert_eq!(xara::count_for_field(5001, 512), Err(Refusal::TooLong));
    assert_eq!(cut(&[], 3, Mask::Fm, 0), Err(Refusal::Empty));
    assert_eq!(cut(&[0x80; 5001], 512, Mask::Hf, 0), Err(Refusal::TooLong));
    assert_eq!(cut(&[0x80; 5000], 3, Mask::Hf, 0), Err(Refusal::FirstByte));
}

/// The longest message at field 3 under each mask, a number after its last fragment, and a byte more.
#[test]
fn sender_limits() {
    for (mask, most) in Mask::ALL.into_iter().zip([258, 130, 66, 34, 18, 10, 6]) {
        assert_eq!(mask.max_fragments(), most / 2);
        assert_eq!(cut(&[0x7F; 300][..most], 3, mask, most / 2 - 1), Ok(3));
        assert_eq!(cut(&[0x7F; 300][..most], 3, mask, most / 2), Err(Refusal::Number));
        assert_eq!(cut(&[0x7F; 300][..most + 1], 3, mask, usize::MAX), Err(Refusal::Count));
    }
}

fn framed(field: usize, fragment: &[u8], control: Control, marker: u8, room: usize) -> Result<usize, Refusal> {
    let mut out = [0xA5; 600];
    let said = xara::build_frame(field, fragment, control, marker, &mut out[..room]).map(<[u8]>::len);
    if said.is_err() {
        assert_eq!(out, [0xA5; 600]);
    }
    said
}

#[test]
fn frame_of_a_fragment() {
    let most = Control { reply: 3, compressed: true, hint: 7 };
    let (reply, hint) = (Control { reply: 4, ..most }, Control { hint: 8, ..most });
    for field in [0, 1, 2, 513, usize::MAX] {
        assert_eq!(framed(field, &[], reply, 0x14, 0), Err(Refusal::Field));
    }
    assert_eq!(framed(5, &[], reply, 0x14, 0), Err(Refusal::Fragment));
    assert_eq!(framed(5, &[1; 6], reply, 0x14, 0), Err(Refusal::Fragment));
    assert_eq!(framed(5, &[1; 5], reply, 0x14, 0), Err(Refusal::Marker));
    assert_eq!(framed(5, &[1; 5], reply, 0x13, 0), Err(Refusal::Control));
    assert_eq!(framed(5, &[1; 5], hint, 0x13, 0), Err(Refusal::Control));
    assert_eq!(framed(5, &[1; 5], most, 0x13, 7), Err(Refusal::Output));
    assert_eq!(framed(5, &[1; 5], most, 0x13, 8), Ok(8));
}

#[test]
fn frames_of_a_message() {
    let fragments = xara::fragments(b"A message of several fragments", 5, Mask::Hf).expect("it is accepted");
    let refusal = |control, marker| fragments.clone().frames(control, marker).map(|_| ()).unwrap_err();
    assert_eq!(refusal(Control { reply: 4, ..Control::default() }, 0x14), Refusal::Marker);
    assert_eq!(refusal(Control { reply: 4, ..Control::default() }, 0), Refusal::Control);
    assert_eq!(refusal(Control { hint: 8, ..Control::default() }, 0), Refusal::Control);
}
