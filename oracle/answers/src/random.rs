//! A small generator (xorshift64*) that gives the same numbers on every run.

pub struct Random(u64);

impl Random {
    /// One seed gives each name numbers of its own, so that a new name leaves the others' as they are.
    pub fn new(seed: u64, name: &str) -> Self {
        let mixed = name.bytes().fold(seed, |s, b| (s ^ u64::from(b)).wrapping_mul(0x0000_0100_0000_01B3));
        Random(mixed.max(1))
    }

    pub fn number(&mut self) -> u64 {
        self.0 ^= self.0 >> 12;
        self.0 ^= self.0 << 25;
        self.0 ^= self.0 >> 27;
        self.0.wrapping_mul(0x2545_F491_4F6C_DD1D)
    }

    /// A number below n, which is not 0.
    pub fn below(&mut self, n: usize) -> usize {
        ((u128::from(self.number()) * n as u128) >> 64) as usize
    }

    pub fn byte(&mut self) -> u8 {
        (self.number() >> 56) as u8
    }

    pub fn bytes(&mut self, n: usize) -> Vec<u8> {
        (0..n).map(|_| self.byte()).collect()
    }

    /// One of the bytes of a list that is not empty.
    pub fn one_of(&mut self, list: &[u8]) -> u8 {
        list[self.below(list.len())]
    }
}
