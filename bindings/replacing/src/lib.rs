//! Runs every example of docs/REPLACING.md, old call and new one, as a test.
#![doc = include_str!("../../../docs/REPLACING.md")]
