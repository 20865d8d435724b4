//! Masks to try.

use answers::MASKS;
use answers::random::Random;

/// Mostly a mask that is refused: an accepted one with one bit changed, bits in other places, or any byte.
pub fn other(r: &mut Random) -> u8 {
    match r.below(4) {
        0 => r.byte(),
        1 => r.one_of(&[0x00, 0x0F, 0x7F, 0xB0, 0xFF]),
        _ => r.one_of(&MASKS) ^ 1 << r.below(8),
    }
}

/// An accepted mask, or one time in so many another.
pub fn some(r: &mut Random, times: usize) -> u8 {
    if r.below(times) == 0 { other(r) } else { r.one_of(&MASKS) }
}

#[cfg(test)]
mod tests {
    use super::*;
    use std::collections::BTreeSet;

    /// Every accepted mask with one bit changed is drawn, and most that are drawn are refused.
    #[test]
    fn neighbours() {
        let mut r = Random::new(1, "other");
        let drawn: Vec<u8> = (0..10_000).map(|_| other(&mut r)).collect();
        let all: BTreeSet<u8> = drawn.iter().copied().collect();
        let mut near = MASKS.into_iter().flat_map(|mask| (0..8).map(move |bit| mask ^ 1 << bit));
        assert!(near.all(|mask| all.contains(&mask)));
        assert!([0x00, 0x0F, 0x7F, 0xB0, 0xFF].iter().all(|mask| all.contains(mask)));
        assert!(drawn.iter().filter(|mask| !MASKS.contains(mask)).count() > 8_000);
    }
}
