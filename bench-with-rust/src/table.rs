//! Times pairs of calls and writes a table of them.

use crate::area;
use std::hint::black_box;
use std::time::{Duration, Instant};

/// The whole table is gone through again and again for so long, so that no slow spell of the machine falls on one row alone.
const TIME: Duration = Duration::from_secs(12);
/// Rounds of each side in a pass, in turn; the best of all counts.
const ROUNDS: usize = 12;
/// A round makes as many calls as fit into this.
const ROUND: Duration = Duration::from_millis(1);
/// A byte between the second size and the longest may cost at most this share of one between the first and the second. What a call
/// costs whatever its length falls out of both.
const LINEAR: f64 = 1.5;
const FIRST: usize = 500;
const SECOND: usize = 2500;

/// Nanoseconds a call, over so many calls.
type Round = Box<dyn FnMut(u32) -> f64>;

/// One side of a row: its round, how many calls that makes, and the best so far.
struct Side {
    round: Round,
    calls: u32,
    best: f64,
}

impl Side {
    fn new<T>(mut call: impl FnMut() -> T + 'static) -> Self {
        let mut round: Round = Box::new(move |n| {
            let began = Instant::now();
            for _ in 0..n {
                let mark = area::mark();
                black_box(call());
                area::release(mark);
            }
            began.elapsed().as_nanos() as f64 / f64::from(n)
        });
        let mut calls = 1;
        while round(calls) * f64::from(calls) < ROUND.as_nanos() as f64 {
            calls *= 2;
        }
        Side { round, calls, best: f64::MAX }
    }

    fn run(&mut self) {
        self.best = self.best.min((self.round)(self.calls));
    }
}

/// A call of the source and ours.
struct Row {
    name: String,
    bytes: usize,
    bar: Option<f64>,
    source: Side,
    ours: Side,
}

impl Row {
    fn ratio(&self) -> f64 {
        self.source.best / self.ours.best
    }

    /// Whether the bar is reached, where there is one.
    fn reached(&self) -> Option<bool> {
        self.bar.map(|bar| self.ratio() >= bar)
    }

    fn print(&self) {
        let Row { name, bytes, source, ours, .. } = self;
        print!("{name:<24}{bytes:>7}{:>12.1}{:>12.1}{:>9.2}", source.best, ours.best, self.ratio());
        match self.bar {
            Some(bar) => println!("{bar:>6.1}  {}", if self.ratio() >= bar { "ok" } else { "below" }),
            None => println!(),
        }
    }
}

/// The rows that the pattern selects.
pub struct Table {
    pattern: String,
    rows: Vec<Row>,
}

impl Table {
    pub fn new(pattern: String) -> Self {
        Table { pattern, rows: Vec::new() }
    }

    /// Whether the pattern selects no row at all.
    pub fn is_empty(&self) -> bool {
        self.rows.is_empty()
    }

    /// Whether the pattern selects a row.
    pub fn wants(&self, name: &str, bytes: usize) -> bool {
        format!("{name} {bytes}").contains(&self.pattern)
    }

    /// A pair whose bytes were compared before.
    pub fn add<A, B>(
        &mut self,
        name: &str,
        bytes: usize,
        bar: Option<f64>,
        source: impl FnMut() -> A + 'static,
        ours: impl FnMut() -> B + 'static,
    ) {
        let name = name.to_string();
        self.rows.push(Row { name, bytes, bar, source: Side::new(source), ours: Side::new(ours) });
    }

    /// Times all rows.
    pub fn run(&mut self) {
        let began = Instant::now();
        while began.elapsed() < TIME {
            self.rows.iter_mut().for_each(pass);
        }
    }

    /// The rows alone.
    pub fn print_rows(&self) {
        println!("{:<24}{:>7}{:>12}{:>12}{:>9}{:>6}", "what", "bytes", "Rust ns", "ours ns", "ratio", "bar");
        self.rows.iter().for_each(Row::print);
    }

    /// The rows, how they grow, and which are below their bars.
    pub fn print(&self) {
        self.print_rows();
        self.linear();
        let reached = |wanted| self.rows.iter().filter(|row| row.reached() == Some(wanted)).count();
        println!("{} ok, {} below", reached(true), reached(false));
        for row in self.rows.iter().filter(|row| row.reached() == Some(false)) {
            println!(
                "below: {} {}, {:.2} where {:.1} is asked",
                row.name,
                row.bytes,
                row.ratio(),
                row.bar.unwrap_or_default()
            );
        }
    }

    /// For each call that was timed at three sizes: what a byte more costs up to the second, and after it.
    fn linear(&self) {
        for long in self.rows.iter().filter(|row| row.bytes > 4000) {
            let at = |bytes| self.rows.iter().find(|row| row.name == long.name && row.bytes == bytes);
            let (Some(first), Some(second)) = (at(FIRST), at(SECOND)) else { continue };
            let a_byte = |side: fn(&Row) -> &Side, from: &Row, to: &Row| {
                (side(to).best - side(from).best) / (to.bytes - from.bytes) as f64
            };
            let slopes = |side| (a_byte(side, first, second), a_byte(side, second, long));
            let (near, far) = slopes(|row| &row.ours);
            let (their_near, their_far) = slopes(|row| &row.source);
            let said = if far <= near * LINEAR { "linear" } else { "more than linear" };
            println!(
                "{:<24} ns a byte more, ours {near:.3} up to {SECOND} and {far:.3} up to {}: {said}; Rust {their_near:.3} and {their_far:.3}",
                long.name, long.bytes
            );
        }
    }
}

/// The rounds of one row in a pass, one side after the other.
fn pass(row: &mut Row) {
    for _ in 0..ROUNDS {
        row.source.run();
        row.ours.run();
    }
}

/// Says where our bytes are not those expected, and ends the program.
pub fn same(name: &str, expected: &[u8], ours: &[u8]) {
    if expected != ours {
        println!("{name}: the two sides differ\nexpected {expected:02X?}\nours     {ours:02X?}");
        std::process::exit(1);
    }
}
