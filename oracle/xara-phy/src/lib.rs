// Stub for the source's crate root: names only the modules that the packet coding needs.
pub mod call;
pub mod crc;
pub mod hf;
