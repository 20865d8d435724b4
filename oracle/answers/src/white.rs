//! Data whose calls and altitudes have white space, or a neighbour of it, at their edges.

use crate::cases::Data;
use crate::random::Random;

/// White space of a call is 09 to 0D and 1C to 20, that of an altitude 09 to 0D and 20: the first and the last of each,
/// and the bytes beside them.
const EDGES: [u8; 12] = [0x08, 0x09, 0x0A, 0x0D, 0x0E, 0x1B, 0x1C, 0x1D, 0x1F, 0x20, 0x20, 0x21];

/// The texts of a frame: destination, source, digipeater, addressee, a third party's three calls, and altitude.
type Texts = [Vec<u8>; 8];
const PLAIN: [&[u8]; 8] = [b"AP", b"K1A", b"K2B", b"A", b"K3C", b"APRS", b"K4D", b"1234"];
const ALTITUDE: usize = 7;

/// The information of a frame: a message to an addressee, a position with an altitude, one with a time and an altitude, a
/// third party's position, a third party's message, and a text.
const BODIES: [fn(&Texts) -> Vec<u8>; 6] =
    [addressed, position, timed, third_position, third_addressed, |_| b"x".to_vec()];

/// The bodies that have each of the texts.
const PLACES: [&[usize]; 8] = [&[0, 1, 5], &[0, 5], &[0, 5], &[0, 4], &[3, 4], &[3, 4], &[3, 4], &[1, 2, 3]];

/// A message of an addressee, of nine bytes.
fn addressed(texts: &Texts) -> Vec<u8> {
    let mut addressee = texts[3].clone();
    addressee.resize(9, b' ');
    [b":", &addressee[..], b":x"].concat()
}

fn position(texts: &Texts) -> Vec<u8> {
    [b"!1234.56N/01234.56W>/A=00", &texts[ALTITUDE][..]].concat()
}

fn timed(texts: &Texts) -> Vec<u8> {
    [b"@092345h4903.50N/07201.75W>Hi/A=00", &texts[ALTITUDE][..]].concat()
}

fn third_position(texts: &Texts) -> Vec<u8> {
    third(texts, &position(texts))
}

fn third_addressed(texts: &Texts) -> Vec<u8> {
    third(texts, &addressed(texts))
}

fn third(texts: &Texts, inner: &[u8]) -> Vec<u8> {
    [b"}", &texts[4][..], b">", &texts[5], b",TCPIP,", &texts[6], b"*:", inner].concat()
}

/// A text with bytes before and after it; an altitude is cut so that it has four.
fn edged(place: usize, front: &[u8], back: &[u8]) -> Vec<u8> {
    let plain = PLAIN[place];
    let kept = if place == ALTITUDE { plain.len().saturating_sub(front.len() + back.len()) } else { plain.len() };
    [front, &plain[..kept], back].concat()
}

/// The frame of these texts with a body, under command 0 with calls of six letters, or under 1 with calls of seven.
fn frame(command: u8, texts: &Texts, body: usize) -> Data {
    let mut data = Vec::new();
    for (k, letters) in texts[..3].iter().enumerate() {
        let padded = letters.iter().copied().chain(std::iter::repeat(b' ')).take(6 + usize::from(command));
        data.extend(padded.map(|c| c << 1));
        data.push(0x60 | u8::from(k == 2));
    }
    data.extend([0x03, 0xF0]);
    data.extend(BODIES[body](texts));
    (command, data)
}

/// A frame with up to two bytes of the edges before and after one of its texts, at times of two.
pub fn data(r: &mut Random) -> Data {
    let mut texts = PLAIN.map(<[u8]>::to_vec);
    let mut body = 0;
    for _ in 0..1 + r.below(2) {
        let place = r.below(PLAIN.len());
        let mut some = || (0..r.below(3)).map(|_| r.one_of(&EDGES)).collect::<Vec<u8>>();
        texts[place] = edged(place, &some(), &some());
        body = PLACES[place][r.below(PLACES[place].len())];
    }
    frame(u8::from(r.below(8) == 0), &texts, body)
}

/// The frame without a digipeater whose addressee starts with 21, which is no white space.
fn named() -> Data {
    let address = [0x82, 0xA0, 0x40, 0x40, 0x40, 0x40, 0x60, 0x96, 0x62, 0x82, 0x40, 0x40, 0x40, 0x61];
    (0, [&address[..], &[0x03, 0xF0], b":!A       :x"].concat())
}

/// Every byte below 80 before, after, and before and after each of the texts.
pub fn all() -> Vec<Data> {
    let mut all = vec![named()];
    for (place, bodies) in PLACES.iter().enumerate() {
        for c in 0..0x80 {
            for (front, back) in [(&[c][..], &[][..]), (&[], &[c]), (&[c], &[c])] {
                let mut texts = PLAIN.map(<[u8]>::to_vec);
                texts[place] = edged(place, front, back);
                all.extend(bodies.iter().map(|&body| frame(0, &texts, body)));
                all.push(frame(1, &texts, bodies[0]));
            }
        }
    }
    all
}

#[cfg(test)]
mod tests {
    use super::*;
    use crate::hex::to_hex;
    use std::collections::BTreeMap;

    #[test]
    fn the_named_frame_is_refused() {
        let (command, data) = named();
        assert_eq!(to_hex(&data), "82A040404040609662824040406103F03A2141202020202020203A78");
        assert_eq!(crate::encode(command, &data), Err(4));
    }

    /// Of each text white space is accepted at its edges and the bytes beside it are refused; that of an altitude is less.
    #[test]
    fn white_space_and_its_neighbours() {
        for place in 0..PLAIN.len() {
            for c in 0..0x21 {
                for (front, back) in [(&[c][..], &[][..]), (&[], &[c])] {
                    let mut texts = PLAIN.map(<[u8]>::to_vec);
                    texts[place] = edged(place, front, back);
                    let (command, data) = frame(0, &texts, PLACES[place][0]);
                    let white = matches!(c, 0x09..=0x0D | 0x20) || place != ALTITUDE && matches!(c, 0x1C..=0x1F);
                    let said = crate::encode(command, &data).map(|_| ());
                    let refusal = if place == ALTITUDE { 5 } else { 4 };
                    assert_eq!(said, if white { Ok(()) } else { Err(refusal) }, "byte {c:02X} of text {place}");
                }
            }
        }
    }

    #[test]
    fn drawn_frames_of_every_type() {
        let mut r = Random::new(1, "white");
        let mut seen = BTreeMap::new();
        for _ in 0..10_000 {
            let (command, data) = data(&mut r);
            *seen.entry(crate::encode(command, &data).map(|(_, typ)| typ)).or_insert(0) += 1;
        }
        println!("{seen:?}");
        for answer in [Ok(0), Ok(2), Ok(3), Ok(4), Ok(6), Err(4), Err(5)] {
            assert!(seen[&answer] > 50, "{answer:?}");
        }
    }
}
