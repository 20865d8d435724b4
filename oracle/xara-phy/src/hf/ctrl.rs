// Stub for the source's control codes and codebook, which kiss.rs names and the packet coding never uses.
use crate::hf::level::Bandwidth;

/// The codes' names; their numbers are made up and only differ from each other.
pub mod code {
    pub const KISS_L1: u32 = 1;
    pub const KISS_L2: u32 = 2;
    pub const KISS_L4: u32 = 3;
    pub const KISS: [u32; 3] = [KISS_L1, KISS_L2, KISS_L4];
    pub const CQ: u32 = 4;
}

#[derive(Clone, Copy, Debug, PartialEq, Eq)]
pub enum Fmt {
    F0,
    F1,
    F2,
}

impl Fmt {
    pub const ALL: [Fmt; 3] = [Fmt::F0, Fmt::F1, Fmt::F2];
}

#[derive(Clone, Copy, Debug, PartialEq, Eq)]
pub enum Role {
    Answerer,
    Caller,
}

pub type Codeword = Vec<u32>;

pub struct Codebook {
    none: Codeword,
}

impl Codebook {
    pub fn new(_seed: u32, _hashes: [u32; 5], _role: Role, _bw: Bandwidth) -> Self {
        Self { none: Codeword::new() }
    }

    pub fn tx(&self, _fmt: Fmt, _code: u32) -> &Codeword {
        &self.none
    }
}
