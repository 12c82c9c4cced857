//! Lists of calls, given to the library that firmware links and to the plain
//! machine of 01 alike.

mod branches;
mod counts;
mod made_up;
mod pair;
mod spoilt;

pub use counts::Counts;
pub use pair::Pair;

use crate::generate::calls::{Calls, Installing};
use crate::generate::{outputs, Random};

/// One list in so many starts from a made-up sound unit, not from a fresh one.
const MADE_UP: u64 = 6;
/// One call in so many is followed by one with something spoilt.
const SPOILT: u64 = 5;

/// Runs the list of a seed; a difference is told in a line.
pub fn run(seed: u64, counts: &mut Counts) -> Result<(), String> {
    let mut random = Random::new(seed);
    let mut index = 0;
    run_list(&mut random, &mut index, counts)
        .map_err(|difference| format!("list of seed {seed}, call {index}: {difference}"))
}

fn run_list(random: &mut Random, index: &mut u64, counts: &mut Counts) -> Result<(), String> {
    counts.lists += 1;
    if random.once_in(8) {
        let install = outputs::install(random);
        spoilt::install(&install, counts)?;
    }
    let mut calls = Calls::some(random);
    let mut pair = if random.once_in(MADE_UP) {
        made_up::pair(calls.last(), random)
    } else {
        Pair::install(&Installing::some(random))?
    };
    if !pair.machine.schedule.hollow.is_empty() {
        counts.branches.add("made up: a month held without a rate");
    }
    counts.shapes.add(calls.words());
    let length = random.between(20, 180);
    while *index < length {
        let call = calls.next(&pair.machine, random);
        pair.call(&call, random, counts)?;
        if random.once_in(SPOILT) {
            let call = calls.next(&pair.machine, random);
            spoilt::call(&pair, &call, random, counts)?;
        }
        *index += 1;
    }
    pair.settle(random)
}
