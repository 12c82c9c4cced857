//! The long run of lists of calls, the library beside the plain machine:
//! `lists` for all of them, `lists COUNT` for so many, `lists COUNT SEED` for
//! so many from a seed on (`lists 1 SEED` is one list again).

use std::process::ExitCode;

use compare::generate::LIST_SEED;
use compare::lists::{run, Counts};

/// At least so many lists, and so many calls, in a run without a count.
const LISTS: u64 = 20_000;
const CALLS: u64 = 2_000_000;

fn main() -> ExitCode {
    let mut numbers = std::env::args().skip(1).map(|word| word.parse::<u64>());
    let (Ok(count), Ok(seed)) = (
        numbers.next().transpose(),
        // Past the seeds of the gate.
        numbers.next().unwrap_or(Ok(LIST_SEED + 1_000_000)),
    ) else {
        eprintln!("usage: lists [COUNT [SEED]]");
        return ExitCode::FAILURE;
    };
    println!("seeds from {seed} on");
    let mut counts = Counts::default();
    let enough = |counts: &Counts| match count {
        Some(count) => counts.lists >= count,
        None => counts.lists >= LISTS && counts.total() >= CALLS,
    };
    while !enough(&counts) {
        if let Err(difference) = run(seed + counts.lists, &mut counts) {
            println!("{difference}");
            return ExitCode::FAILURE;
        }
    }
    println!(
        "{} lists, {} calls: no difference",
        counts.lists,
        counts.total()
    );
    if count.is_none() {
        counts.settle();
    }
    ExitCode::SUCCESS
}
