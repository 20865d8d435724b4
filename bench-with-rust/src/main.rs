//! Times the exported functions and the unmodified Rust on the same inputs, and prints a table.

mod inputs;
mod kept;
mod previews;
mod receivers;
mod reports;
mod rows;
mod table;
#[allow(dead_code)]
#[path = "../../compare-with-rust/src/xara.rs"]
mod xara;

use std::process::ExitCode;
use table::Table;

/// The calls are timed with the allocator of the Rust's users; src/bin/free.rs has another.
mod area {
    pub fn mark() -> usize {
        0
    }

    pub fn release(_: usize) {}
}

fn main() -> ExitCode {
    let words: Vec<String> = std::env::args().skip(1).collect();
    if words.len() > 1 {
        eprintln!("usage: bench [PATTERN]");
        return ExitCode::from(2);
    }
    let mut table = Table::new(words.into_iter().next().unwrap_or_default());
    rows::codings(&mut table);
    rows::position(&mut table);
    rows::types(&mut table);
    rows::calls(&mut table);
    reports::bodies(&mut table);
    reports::dictionary(&mut table);
    reports::paths(&mut table);
    reports::example(&mut table);
    reports::journeys(&mut table);
    rows::summaries(&mut table);
    previews::codings(&mut table);
    previews::frames(&mut table);
    previews::refused(&mut table);
    rows::crc(&mut table);
    rows::fragments(&mut table);
    rows::frame(&mut table);
    receivers::push(&mut table);
    receivers::shorter(&mut table);
    receivers::in_turn(&mut table);
    receivers::join(&mut table);
    receivers::dropped(&mut table);
    receivers::reset(&mut table);
    receivers::new(&mut table);
    kept::by_name(&mut table);
    kept::copies(&mut table);
    kept::none(&mut table);
    if table.is_empty() {
        eprintln!("no row's name and bytes hold the pattern");
        return ExitCode::from(2);
    }
    table.run();
    table.print();
    ExitCode::SUCCESS
}
