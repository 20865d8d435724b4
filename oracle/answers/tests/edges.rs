//! The cases that document 01 marks P, the masks and their limits, and what the stubs must not break.

use answers::hex::{from_hex, to_hex};
use answers::random::Random;
use answers::{
    Answer, MASKS, Receiver, State, cases, count, crc, decode, encode, frame, most, preview, sent, split, summary,
};
use xara_arq::ax25::{token_decode, token_encode};
use xara_arq::bits::{Bits, Reader};
use xara_arq::{cq, kiss};
use xara_phy::hf::level::Record;

/// A plain frame from K1A to CQ with the text A, and its message.
const FRAME: &str = "86A240404040609662824040406103F041";
const MESSAGE: &str = "40ACB701001040";

fn bytes(hex: &str) -> Vec<u8> {
    from_hex(hex).unwrap()
}

fn coded(command: u8, data: &[u8]) -> String {
    to_hex(&encode(command, data).unwrap().0)
}

#[test]
fn generic_bytes() {
    assert_eq!(coded(2, b""), "21FF");
    assert_eq!(coded(2, b"A"), "2182");
    assert_eq!(coded(2, b"B"), "2185");
    assert_eq!(coded(2, &[0x80]), "2080");
    assert_eq!(decode(&[0x21]), Ok((2, vec![])));
}

#[test]
fn counts() {
    let field_5 = [5, 6, 8, 9].map(|total| count(total, 5));
    assert_eq!(field_5, [Ok(1), Ok(2), Ok(2), Ok(3)]);
    let field_3 = [34, 35, 18, 19].map(|total| count(total, 3));
    assert_eq!(field_3, [Ok(17), Ok(18), Ok(9), Ok(10)]);
}

/// Of the bytes whose ones stand at the top, all but 00 and FF.
#[test]
fn seven_masks() {
    let top = |mask: &u8| mask.leading_ones() == mask.count_ones() && (1..8).contains(&mask.count_ones());
    assert_eq!((0..=255).filter(top).collect::<Vec<u8>>(), MASKS);
    assert_eq!(MASKS.map(most), [129, 65, 33, 17, 9, 5, 3]);
}

#[test]
fn every_other_mask_is_refused() {
    let refused: Vec<u8> = (0..=255).filter(|&mask| sent(&[], 3, mask) == Err(9)).collect();
    assert_eq!(refused.len(), 249);
    assert!(refused.iter().all(|mask| !MASKS.contains(mask)));
    assert!(refused.iter().all(|&mask| sent(&[], 2, mask) == Err(8)));
}

#[test]
fn the_longest_messages_of_field_3() {
    for (mask, longest) in MASKS.into_iter().zip([258, 130, 66, 34, 18, 10, 6]) {
        let counted = |total: usize| sent(&vec![0x41; total], 3, mask).map(|fragments| fragments.len());
        assert_eq!(counted(longest), Ok(longest / 2), "{mask:02X}");
        assert_eq!(counted(longest + 1), Err(12), "{mask:02X}");
    }
}

/// Whatever the CRC's bits are, a message of the most fragments is done.
#[test]
fn the_most_fragments_are_joined() {
    let mut r = Random::new(1, "most");
    for mask in MASKS.repeat(32) {
        let mut receiver = Receiver::new(mask);
        let mut message = r.bytes(2 * most(mask));
        message[0] &= 0x7F;
        let fragments = sent(&message, 3, mask).unwrap();
        let heard: Vec<Answer> = fragments.iter().map(|f| receiver.join(f, f.len())).collect();
        assert_eq!(heard.last(), Some(&Answer::Done(message)), "{mask:02X}");
    }
}

#[test]
fn tokens() {
    assert_eq!(token_bits("WIDE1-1"), "100101001");
    assert_eq!(token_bits("WIDE2-2"), "100101110");
    let mut bits = Bits::default();
    token_encode("WIDE2-2", 6, &mut bits).unwrap();
    assert_eq!(token_decode(&mut Reader::new(&bits.0), 6).unwrap(), "WIDE2-10");
}

/// The worked examples of 02's request E2 on letter codes: a blank, the digits' and the letters' first and last, and what has none.
#[test]
fn letter_codes() {
    for (letter, code) in [(' ', 0), ('0', 27), ('9', 36), ('A', 1), ('Z', 26)] {
        assert_eq!(token_bits(&format!("K{letter}")), format!("001011{code:06b}0000000000"), "{letter}");
    }
    for letter in ['\0', '\x1F', '!', '/', ':', '@', '[', '_', '`', '{', '\x7F'] {
        assert!(token_encode(&format!("K{letter}"), 6, &mut Bits::default()).is_err(), "{letter}");
    }
    assert!(token_encode("APa", 6, &mut Bits::default()).is_err());
}

/// A call with an underscore is refused, in the source and in a digipeater. Small letters are coded as capitals, but for a
/// digipeater that starts with AP, which is refused for them.
#[test]
fn a_letter_without_a_code() {
    for letters in ["96BE62", "D6BE62"] {
        assert_eq!(encode(0, &bytes(&format!("86A24040404060{letters}4040406103F041"))), Err(4), "{letters}");
        let heard = format!("86A2404040406096628240404060{letters}4040406103F041");
        assert_eq!(encode(0, &bytes(&heard)), Err(4), "{letters}");
    }
    assert_eq!(coded(0, &bytes("86A24040404060D662C24040406103F041")), MESSAGE);
    assert_eq!(coded(0, &bytes("82A0E4E64040609662824040406103F041")), "40D124C02DC0400104");
    assert_eq!(encode(0, &bytes("86A240404040609662824040406082A0E4E640406103F041")), Err(4));
}

fn token_bits(call: &str) -> String {
    let mut bits = Bits::default();
    token_encode(call, 6, &mut bits).unwrap();
    bits.0.iter().map(|&b| if b { '1' } else { '0' }).collect()
}

#[test]
fn a_frame_of_17_bytes() {
    assert_eq!(coded(0, &bytes(FRAME)), MESSAGE);
    assert_eq!(decode(&bytes(MESSAGE)), Ok((0, bytes(FRAME))));
    assert_eq!(summary(0, &bytes(FRAME)), Ok((0, 0, true)));
}

/// The addresses of that frame with calls of six letters and of seven, as under commands 0 and 1.
const ADDRESSES: [&str; 2] = ["86A2404040406096628240404061", "86A24040404040609662824040404061"];

/// The frame under a command with another control byte, PID and information.
fn with_end(command: u8, end: &str) -> Vec<u8> {
    bytes(&[ADDRESSES[usize::from(command)], end].concat())
}

/// The worked examples of 02's request E4: UI in the summary is control 03 or 13, whatever the PID is.
#[test]
fn polled_frames() {
    let examples = [("03F041", true), ("13F041", true), ("0FF041", false), ("23F041", false), ("93F041", false)];
    for (end, ui) in examples.into_iter().chain([("83F041", false), ("1300", true)]) {
        for command in [0, 1] {
            assert_eq!(summary(command, &with_end(command, end)), Ok((0, 0, ui)), "{end}");
            assert!(cases::polled().contains(&(command, with_end(command, end))), "{end}");
        }
    }
    for control in 0..=0xFF {
        let ui = summary(0, &with_end(0, &format!("{control:02X}00"))).map(|(_, _, ui)| ui);
        assert_eq!(ui, Ok(control == 0x03 || control == 0x13), "{control:02X}");
    }
}

/// The coder treats only 03 with PID F0 as the short header: 13 is coded in the body, and so is the PID, whose high bit is lost.
#[test]
fn a_polled_frame_is_coded_as_before() {
    assert_eq!(coded(0, &with_end(0, "13F041")), "00ACB7010004F84100");
    assert_eq!(decode(&bytes("00ACB7010004F84100")), Ok((0, with_end(0, "137041"))));
}

/// Its fragments as the sender hands them out.
fn cut(field: usize, mask: u8) -> Result<Vec<String>, u8> {
    sent(&bytes(MESSAGE), field, mask).map(|fragments| fragments.iter().map(|f| to_hex(f)).collect())
}

#[test]
fn its_two_fragments_under_each_mask() {
    let firsts = ["C000ACB701", "C040ACB701", "C040ACB701", "C040ACB701", "C048ACB701", "C04CACB701", "C04CACB701"];
    for (mask, first) in MASKS.into_iter().zip(firsts) {
        assert_eq!(cut(5, mask).unwrap(), [first, "40001040"], "{mask:02X}");
    }
}

#[test]
fn its_four_fragments_under_each_mask_with_room() {
    let firsts = ["C002AC", "C042AC", "C042AC", "C042AC", "C04AAC", "C04EAC"];
    for (mask, first) in MASKS.into_iter().zip(firsts) {
        assert_eq!(cut(3, mask).unwrap(), [first, "C0B701", "C00010", "4040"], "{mask:02X}");
    }
    assert_eq!(cut(3, 0xFE), Err(12));
}

#[test]
fn its_fragments_are_joined() {
    let mut receiver = Receiver::new(0xF0);
    let frames: Vec<Vec<u8>> = split(&bytes(MESSAGE), 5, 0xF0).iter().map(|f| frame(5, f, 0, false, 0, 0x01)).collect();
    assert_eq!(receiver.push(&frames[0], 5), Answer::More);
    let check = (crc(&bytes(MESSAGE)) >> 8) as u8 & 0xF0;
    let held = bytes("C0ACB701");
    assert_eq!(receiver.state(), State { held, fragments: 1, check, mask: 0xF0, overflow: false });
    assert_eq!(receiver.push(&frames[1], 5), Answer::Done(bytes(MESSAGE)));
    assert_eq!(receiver.state(), State { held: vec![], fragments: 2, check, mask: 0xF0, overflow: false });
}

#[test]
fn the_fragment_after_255() {
    let mut receiver = Receiver::new(0xF8);
    for _ in 0..255 {
        assert_eq!(receiver.join(&[0x80, 0x00], 2), Answer::More);
    }
    assert_eq!(receiver.join(&[0x80, 0x00], 2), Answer::Dropped);
    assert!(receiver.state().overflow);
    receiver.reset();
    assert_eq!(receiver.state(), State { held: vec![], fragments: 0, check: 0, mask: 0xF8, overflow: false });
}

#[test]
fn field_15_is_a_field_size() {
    assert_eq!(kiss::payload_field(Record::of_field(15)), 15);
    assert_eq!(kiss::frame_len(Record::of_field(15)), 18);
    assert_eq!(kiss::payload_field(cq::RECORD), 6);
    let message: Vec<u8> = (0..15).collect();
    let pushed = Receiver::new(0xF0).push(&frame(15, &message, 3, true, 7, 0x01), 15);
    assert_eq!(pushed, Answer::Done(message));
}

#[test]
fn crc_check_values() {
    assert_eq!(crc(b"123456789"), 0xD64E);
    assert_eq!(crc(b""), 0x0000);
}

#[test]
fn refusals() {
    assert_eq!(encode(3, &[0; 5000]), Err(1));
    assert_eq!(encode(2, &[0; 5000]), Err(2));
    assert_eq!(encode(0, &[]), Err(3));
    assert_eq!(encode(0, &bytes("424242424242609662824040406103F041")), Err(4));
    assert_eq!(encode(0, &[bytes("82A040404040609662824040406103F0"), bad_altitude()].concat()), Err(5));
    assert_eq!(decode(&[0; 5001]), Err(2));
    assert_eq!(decode(&[]), Err(7));
    assert_eq!(summary(3, &[]), Err(1));
    assert_eq!(summary(2, &[0; 5000]), Err(2));
    assert_eq!(summary(1, &[0; 15]), Err(3));
    assert_eq!(summary(2, &[]), Ok((0, 0, false)));
    assert_eq!(count(5001, 2), Err(8));
    assert_eq!(count(5001, 513), Err(8));
    assert_eq!(count(5001, 512), Err(2));
}

fn bad_altitude() -> Vec<u8> {
    b"!1234.56N/01234.56W>/A=00-123".to_vec()
}

/// The coder's refusals come before the sender's, and 8 before 9 before 12.
#[test]
fn previews() {
    let (plain, bad) = (bytes(FRAME), bytes("86A24040404060D6BE624040406103F041"));
    assert_eq!(preview(0, &plain, 5, 0xF0), Ok((7, 2)));
    assert_eq!(preview(2, &[], 3, 0xFE), Ok((2, 1)));
    assert_eq!(preview(3, &[0; 5000], 2, 0x00), Err(1));
    assert_eq!(preview(2, &[0; 5000], 2, 0x00), Err(2));
    assert_eq!(preview(0, &plain[..10], 2, 0x00), Err(3));
    assert_eq!(preview(0, &bad, 513, 0xF1), Err(4));
    assert_eq!(preview(0, &[bytes("82A040404040609662824040406103F0"), bad_altitude()].concat(), 2, 0x00), Err(5));
    assert_eq!([2, 513].map(|field| preview(2, &[0x80; 600], field, 0x00)), [Err(8); 2]);
    assert_eq!([3, 512].map(|field| preview(2, &[0x80; 600], field, 0xFF)), [Err(9); 2]);
    assert_eq!([33, 34].map(|n| preview(2, &vec![0x80; n], 3, 0xF0)), [Ok((34, 17)), Err(12)]);
}

#[test]
fn a_full_receiver_is_read() {
    let mut receiver = Receiver::new(0xF0);
    let long: Vec<u8> = (0..5001).map(|i| i as u8 | 0x80).collect();
    assert_eq!(receiver.join(&long, long.len()), Answer::More);
    let state = receiver.state();
    assert_eq!((state.held.len(), state.held[0], &state.held[1..]), (5000, 0x80, &long[2..]));
    assert_eq!(receiver.join(&[0x00, 0x00], 2), Answer::Dropped);
    assert_eq!(receiver.state().held, []);
}
