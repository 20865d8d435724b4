// Stub for the source's crate root: names only the modules of the packet coding.
#![allow(clippy::manual_is_multiple_of)]

pub mod ax25;
pub mod bits;
pub mod cq;
pub mod kiss;
