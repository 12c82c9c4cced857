//! What lists of calls are made up of, each shape aimed at something that goes
//! wrong.

use super::almanac::{first_slot, some_moment, MONTHS, SLOTS};
use super::random::Random;

/// A shape's weights. The places of each array are named in `calls`,
/// `instants` and `files`.
pub struct Shape {
    pub words: &'static str,
    /// The second around which the list begins.
    pub home: fn(&mut Random) -> u64,
    pub calls: [u64; 10],
    pub ticks: [u64; 12],
    pub files: [u64; 6],
    /// How many months below and above the clock's a file may begin.
    pub reach: (u64, u64),
}

/// A second of a month's first or last days.
fn around_start(month: u64, random: &mut Random) -> u64 {
    let start = first_slot(month) * 1_800;
    start.saturating_sub(5 * 86_400) + random.below(9 * 86_400)
}

/// March or April, December or January, of any year but the first.
fn around_year_turn(random: &mut Random) -> u64 {
    let turn = 12 * random.between(1, 99) + random.pick(&[0, 3]);
    around_start(turn, random)
}

/// The days around 1 and 29 February, of leap years for the most part.
fn around_february(random: &mut Random) -> u64 {
    let year = match random.once_in(4) {
        true => random.below(100),
        false => 4 * random.below(25),
    };
    let month = 12 * year + random.between(1, 2);
    around_start(month, random)
}

/// The first months of 2000 or the last ones of 2099.
fn around_ends(random: &mut Random) -> u64 {
    let end = SLOTS * 1_800;
    let days = random.pick(&[1, 3, 40, 400]) * 86_400;
    match random.once_in(2) {
        true => random.below(days),
        false => end - 1 - random.below(days),
    }
}

fn around_any_month(random: &mut Random) -> u64 {
    around_start(random.below(MONTHS), random)
}

pub static SHAPES: &[Shape] = &[
    Shape {
        words: "days in order",
        home: around_any_month,
        calls: [8, 1, 5, 1, 1, 3, 4, 1, 1, 3],
        ticks: [1, 4, 6, 8, 6, 2, 1, 0, 1, 0, 0, 1],
        files: [1, 3, 8, 2, 1, 1],
        reach: (1, 2),
    },
    Shape {
        words: "turn of the year",
        home: around_year_turn,
        calls: [8, 1, 7, 1, 1, 2, 5, 1, 2, 4],
        ticks: [1, 2, 2, 4, 8, 6, 6, 0, 2, 2, 0, 1],
        files: [5, 6, 5, 2, 1, 1],
        reach: (2, 14),
    },
    Shape {
        words: "February",
        home: around_february,
        calls: [8, 1, 7, 1, 1, 2, 5, 1, 2, 3],
        ticks: [1, 2, 2, 4, 10, 8, 3, 1, 2, 1, 0, 1],
        files: [2, 6, 8, 2, 1, 1],
        reach: (2, 3),
    },
    Shape {
        words: "full store",
        home: around_any_month,
        calls: [3, 1, 16, 1, 1, 1, 5, 1, 4, 6],
        ticks: [1, 2, 2, 2, 4, 4, 8, 0, 2, 2, 0, 1],
        files: [4, 12, 5, 1, 1, 1],
        reach: (2, 18),
    },
    Shape {
        words: "retries",
        home: around_any_month,
        calls: [8, 1, 2, 2, 8, 12, 1, 1, 1, 2],
        ticks: [1, 2, 8, 3, 16, 2, 0, 0, 2, 0, 0, 1],
        files: [2, 1, 10, 1, 0, 1],
        reach: (1, 1),
    },
    Shape {
        words: "clock steps",
        home: around_any_month,
        calls: [12, 3, 6, 1, 1, 2, 5, 2, 2, 3],
        ticks: [2, 2, 2, 4, 4, 4, 4, 1, 8, 8, 2, 1],
        files: [3, 4, 6, 2, 1, 1],
        reach: (3, 6),
    },
    Shape {
        words: "long ticks",
        home: some_moment,
        calls: [10, 1, 6, 1, 1, 2, 5, 2, 2, 3],
        ticks: [1, 1, 1, 2, 2, 4, 6, 6, 2, 6, 4, 2],
        files: [4, 4, 4, 2, 1, 1],
        reach: (2, 14),
    },
    Shape {
        words: "first and last days",
        home: around_ends,
        calls: [8, 1, 6, 2, 3, 4, 5, 1, 2, 3],
        ticks: [1, 3, 3, 4, 8, 4, 3, 1, 3, 2, 1, 4],
        files: [3, 5, 6, 2, 1, 1],
        reach: (13, 13),
    },
    Shape {
        words: "damaged files",
        home: around_any_month,
        calls: [5, 1, 16, 1, 1, 1, 3, 1, 1, 10],
        ticks: [1, 2, 2, 4, 4, 4, 4, 0, 2, 2, 0, 2],
        files: [1, 2, 3, 20, 6, 2],
        reach: (2, 14),
    },
];
