//! What comes of messages on the air when a frame is lost: 4,000 messages of random bytes under each mask, every frame but one
//! pushed to a receiver that is reset before each message and counts the answers. Nothing of this is a fault of the receiver: the
//! format has 1 to 7 check bits for a message.
use xara::{Control, Encoder, Frame, Mask, Reassembler, Refusal, Tallies};

const MESSAGES: usize = 4_000;
const SMALLEST_FIELD: usize = 12;

/// Xorshift of 64 bits, the same numbers in each run.
struct Numbers(u64);

impl Numbers {
    fn next(&mut self, below: usize) -> usize {
        self.0 ^= self.0 << 13;
        self.0 ^= self.0 >> 7;
        self.0 ^= self.0 << 17;
        (self.0 >> 32) as usize % below
    }
}

/// Where the frames of the messages went, by what was lost. As many messages were still handed out as are done.
struct Counts {
    middle: Tallies,
    all_but_last: Tallies,
}

/// The frames of a message of 30 to 79 random bytes, three at least. The field is the smallest from 12 on at which the mask
/// leaves room for all of them: always 12 under one to five check bits, 12 to 17 under six and 12 to 28 under seven.
fn frames(numbers: &mut Numbers, mask: Mask) -> Result<Vec<Frame>, Refusal> {
    let data: Vec<u8> = (0..30 + numbers.next(50)).map(|_| numbers.next(256) as u8).collect();
    let mut encoder = Encoder::new();
    let message = encoder.encode(xara::Command::Generic, &data)?;
    let mut field = SMALLEST_FIELD;
    while xara::count_for_field(message.len(), field)? > mask.max_fragments() {
        field += 1;
    }
    Ok(xara::fragments(message.bytes, field, mask)?.frames(Control::default(), 0x01)?.collect())
}

/// Pushes frames of a message, which have field + 3 bytes each, to a receiver that then holds nothing of another.
fn hear(frames: &[&Frame], receiver: &mut Reassembler) -> Result<(), Refusal> {
    receiver.reset();
    for frame in frames {
        receiver.push(frame, frame.len() - 3)?;
    }
    Ok(())
}

fn lost(mask: Mask) -> Result<Counts, Refusal> {
    let mut numbers = Numbers(0x9E37_79B9_7F4A_7C15);
    let (mut middle, mut all_but_last) = (Reassembler::new(mask), Reassembler::new(mask));
    for _ in 0..MESSAGES {
        let all = frames(&mut numbers, mask)?;
        let gone = 1 + numbers.next(all.len() - 2);
        let rest: Vec<&Frame> = all.iter().enumerate().filter(|(i, _)| *i != gone).map(|(_, f)| f).collect();
        hear(&rest, &mut middle)?;
        hear(&rest[rest.len() - 1..], &mut all_but_last)?;
    }
    Ok(Counts { middle: middle.tallies(), all_but_last: all_but_last.tallies() })
}

fn main() -> Result<(), Refusal> {
    for mask in Mask::ALL {
        let (name, counts) = (mask.byte(), lost(mask)?);
        println!(
            "{name:02X}: of {MESSAGES} messages with one middle frame lost {} are Done, with other bytes",
            counts.middle.done
        );
        println!("{name:02X}: their frames: {}", counts.middle);
        println!(
            "{name:02X}: of {MESSAGES} messages of which only the last frame is heard {} are Done",
            counts.all_but_last.done
        );
    }
    Ok(())
}
