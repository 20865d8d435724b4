// Stub for the source's hf module: frame.rs is the source's own, the other three are stubs.
pub mod ctrl;
pub mod frame;
pub mod level;
pub mod rx;
