//! Runs the exported functions and the unmodified Rust on the same inputs for some seconds, and says where they differ.

mod calls;
mod channels;
mod codings;
mod conserved;
mod expected;
mod histories;
mod journeys;
mod kept;
mod kept_made_up;
mod lent;
mod made_up;
mod masks;
mod mended;
mod met;
mod names;
mod previews;
mod readings;
mod receiver;
mod rules;
mod slots;
mod spoil;
mod tallies;
mod tally;
mod tokens;
mod wide;
mod writing;
// Other programs take what is not used here.
#[allow(dead_code)]
mod xara;

use answers::random::Random;
use std::process::ExitCode;
use std::time::{Duration, Instant};
use tally::Tally;

const SEED: u64 = 1;

/// Where this variable is set, each row that is as expected is spoiled afterwards, in one of its parts, and compared
/// again: by this it can be seen that a difference in any part of any kind of row is found.
const WRONG: &str = "COMPARE_WRONG";

/// The fields from 0 to 514 in an order that spreads them.
const FIELDS: usize = 515;
const STRIDE: usize = 211;

fn main() -> ExitCode {
    let mut words = std::env::args().skip(1).map(|word| word.parse::<u64>());
    let (Some(Ok(seconds)), seed, None) = (words.next(), words.next().unwrap_or(Ok(SEED)), words.next()) else {
        return usage();
    };
    let Ok(seed) = seed else { return usage() };
    println!("seed {seed}");
    let tally = run(Duration::from_secs(seconds), seed);
    print!("{}", tally.table());
    let unmet = tally.unmet();
    if !unmet.is_empty() {
        println!("NOT MET: {}", unmet.join(", "));
    }
    println!("{} compared, {} differ", tally.compared(), tally.differ());
    let (spoiled, found) = tally.spoiled().unwrap_or_else(|| (String::new(), true));
    print!("{spoiled}");
    if tally.differ() == 0 && unmet.is_empty() && found { ExitCode::SUCCESS } else { ExitCode::FAILURE }
}

fn usage() -> ExitCode {
    eprintln!("usage: compare SECONDS [SEED]");
    ExitCode::from(2)
}

/// All that is written down, then what is drawn: one round, and more until the time is over.
fn run(time: Duration, seed: u64) -> Tally {
    let began = Instant::now();
    let mut r = Random::new(seed, "compare");
    let wrong = std::env::var_os(WRONG).is_some();
    let mut tally = if wrong { Tally::spoiling() } else { Tally::default() };
    written_down(&mut r, &mut tally);
    let mut field = 0;
    loop {
        round(field, &mut r, &mut tally);
        field = (field + STRIDE) % FIELDS;
        if began.elapsed() >= time {
            return tally;
        }
    }
}

fn written_down(r: &mut Random, tally: &mut Tally) {
    calls::all_counts(tally);
    calls::all_masks(r, tally);
    made_up::all_masks(r, tally);
    made_up::all_stores(r, tally);
    made_up::all_tallies(r, tally);
    kept_made_up::written_down(r, tally);
    codings::longest(r, tally);
    codings::written_down(r, tally);
    codings::wide_calls(r, tally);
    previews::written_down(r, tally);
}

/// Something of every kind, with fragments and frames of this field.
fn round(field: usize, r: &mut Random, tally: &mut Tally) {
    calls::fragments(field, r, tally);
    calls::fragments(calls::small_field(r), r, tally);
    calls::frames(field, r, tally);
    calls::every_room(field, r, tally);
    codings::every_room(r, tally);
    for _ in 0..10 {
        calls::crc(r, tally);
    }
    for _ in 0..60 {
        channels::operations(r, tally);
    }
    for _ in 0..100 {
        calls::some_count(r, tally);
        made_up::calls(r, tally);
        kept_made_up::drawn(r, tally);
        histories::history(r, tally);
        journeys::journey(r, tally);
        codings::plain(r, tally);
    }
    for _ in 0..400 {
        codings::coding(r, tally);
        codings::decoding(r, tally);
        previews::drawn(field, r, tally);
    }
}
