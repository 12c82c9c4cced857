//! Times two implementations of one call in turns, and prints a table.

use std::time::Instant;

/// Rounds of a race; each times both, one after the other.
const ROUNDS: usize = 1_000;
/// Times that all races are run, so that a busy while doesn't hit one alone.
const PASSES: usize = 10;

/// Nanoseconds of one call: the least of all rounds.
pub struct Row {
    title: String,
    library: f64,
    rust: f64,
}

/// Nanoseconds for one call out of `calls`.
fn time(calls: u32, call: &mut impl FnMut()) -> f64 {
    let start = Instant::now();
    for _ in 0..calls {
        call();
    }
    start.elapsed().as_nanos() as f64 / f64::from(calls)
}

/// Both in turns, so that a busy machine is busy for both. Each is called
/// `calls` times in a round.
pub fn race(title: &str, calls: u32, mut library: impl FnMut(), mut rust: impl FnMut()) -> Row {
    let mut row = Row {
        title: title.to_string(),
        library: f64::INFINITY,
        rust: f64::INFINITY,
    };
    for _ in 0..ROUNDS {
        row.library = row.library.min(time(calls, &mut library));
        row.rust = row.rust.min(time(calls, &mut rust));
    }
    row
}

/// Runs all races again and again; the least of each.
pub fn least(mut races: impl FnMut() -> Vec<Row>) -> Vec<Row> {
    let mut least = races();
    for _ in 1..PASSES {
        for (row, again) in least.iter_mut().zip(races()) {
            row.library = row.library.min(again.library);
            row.rust = row.rust.min(again.rust);
        }
    }
    least
}

pub fn print(rows: &[Row]) {
    let rounds = PASSES * ROUNDS;
    println!("least of {rounds} rounds, library and Rust in turns; ns for one call");
    println!("{:<52}{:>9}{:>9}{:>7}", "", "library", "Rust", "ratio");
    for row in rows {
        println!(
            "{:<52}{:>9.1}{:>9.1}{:>7.2}",
            row.title,
            row.library,
            row.rust,
            row.library / row.rust
        );
    }
}
