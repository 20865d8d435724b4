//! Tests of what only this crate sees: the structs as C has them, and calls with bytes that the types rule out.

mod bytes;
mod layout;
