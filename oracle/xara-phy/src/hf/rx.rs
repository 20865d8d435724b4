// Stub for the source's receiving side, of which kiss.rs names one struct.
pub mod ctrl {
    use crate::hf::ctrl::{Codeword, Fmt};

    pub struct CtrlEntry {
        pub code: u32,
        pub fmt: Fmt,
        pub tag: u32,
        pub codeword: Codeword,
    }
}
