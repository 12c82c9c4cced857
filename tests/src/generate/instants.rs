//! Seconds for ticks, slots for ceilings, statuses for failures: aimed at the
//! machine's present clock, times and files, and at every limit.

use super::almanac::{first_slot, some_moment, MONTHS, SLOTS};
use super::random::Random;
use crate::reference::requests::window_start;
use crate::reference::schedule::month_of_second;
use crate::reference::Machine;

const DAY: u64 = 86_400;
/// T
const END: u64 = SLOTS * 1_800;
/// The last second.
pub const LAST: u64 = END - 1;
/// A number that is lost where 64 bits are cut to 32.
const HIGH: u64 = 1 << 32;

/// One second before, at, or one second after.
fn close_to(second: u64, random: &mut Random) -> u64 {
    (second + random.below(3)).saturating_sub(1)
}

/// A second at which something changes: window, midnight, slot, month, f, u.
fn edge(machine: &Machine, clock: u64, random: &mut Random) -> u64 {
    let midnight = clock / DAY * DAY + DAY * random.below(2);
    let window = midnight + window_start(machine.check_digit());
    let month = u64::from(month_of_second(clock));
    let second = match random.below(9) {
        0 => window,
        1 => window + 20 * 60,
        2 => window + random.below(20 * 60),
        3 => midnight,
        4 => (clock / 1_800 + random.between(1, 3)) * 1_800,
        5 => first_slot((month + random.between(1, 2)).min(MONTHS)) * 1_800,
        6 => machine.requests.fixed_at,
        7 => machine.requests.update_at,
        _ => first_slot(u64::from(machine.schedule.floor) + random.below(3)) * 1_800,
    };
    close_to(second, random).min(LAST)
}

/// Clock plus some months of 28 to 31 days.
fn months_on(clock: u64, least: u64, most: u64, random: &mut Random) -> u64 {
    let months = random.between(least, most);
    clock + months * 28 * DAY + random.below(months * 3 * DAY + 1)
}

/// A tick's second. The weights stand for: the same second, one second on,
/// some seconds, up to three hours, an edge, days, months, years, a little
/// back, months back, anywhere, and T or above.
pub fn second(machine: &Machine, last: u64, weights: &[u64; 12], random: &mut Random) -> u64 {
    let clock = machine.clock.unwrap_or(last);
    let floor = machine.schedule.floor;
    if month_of_second(clock) < floor && random.once_in(3) {
        // Below the floor nothing has a rate: back to where something may.
        let month = u64::from(floor) + random.below(2);
        return (first_slot(month) * 1_800 + random.below(30 * DAY)).min(LAST);
    }
    let second = match random.weighted(weights) {
        0 => clock,
        1 => clock + 1,
        2 if random.once_in(2) => clock + random.pick(&[2, 60, 299, 300]),
        2 => clock + random.between(2, 300),
        3 => clock + random.between(1, 10_800),
        4 => edge(machine, clock, random),
        5 => clock + random.between(DAY / 2, 40 * DAY),
        6 => months_on(clock, 1, 14, random),
        7 => months_on(clock, 12, 120, random),
        8 if random.once_in(2) => clock.saturating_sub(random.pick(&[1, 30, 1_800, DAY])),
        8 => clock.saturating_sub(random.between(1, DAY)),
        9 => clock.saturating_sub(random.between(DAY, 500 * DAY)),
        10 => some_moment(random),
        _ => return random.pick(&[END, END + 1, END + DAY, HIGH, HIGH + clock, u64::MAX]),
    };
    second.min(LAST)
}

/// A ceiling's slot: of the clock, at the edges of the latest files and of the
/// held months, anywhere, and at or above the end.
pub fn slot(machine: &Machine, last: u64, random: &mut Random) -> u64 {
    let now = machine.clock.unwrap_or(last) / 1_800;
    let files = &machine.schedule.files;
    let slot = match random.below(12) {
        0 | 1 => now + random.below(60),
        2..6 if !files.is_empty() => {
            let newest = random.below(files.len().min(4) as u64) as usize;
            let file = &files[files.len() - 1 - newest];
            let record = &file.records[random.place(file.records.len())];
            let n = record.rates.len() as u64;
            let inside = random.below(n + 1);
            let place = random.pick(&[0, n, n / 2, inside]);
            close_to(u64::from(record.start_slot) + place, random)
        }
        6 => close_to(first_slot(u64::from(machine.schedule.floor)), random),
        7 | 8 => {
            let month = u64::from(month_of_second((now * 1_800).min(LAST)));
            let edge = (month + random.below(16)).saturating_sub(2).min(MONTHS);
            close_to(first_slot(edge), random)
        }
        9 => random.below(SLOTS),
        10 => return random.pick(&[SLOTS, SLOTS + 1, HIGH, HIGH + now, u64::MAX]),
        _ => now,
    };
    slot.min(SLOTS - 1)
}

/// A status of every class, its edges, and those that aren't lawful.
pub fn status(random: &mut Random) -> u64 {
    match random.below(16) {
        0..4 => 0,
        4 => random.between(100, 199),
        5 => random.between(300, 399),
        6 | 7 => random.between(400, 499),
        8..11 => random.between(500, 599),
        11 | 12 => random.pick(&[100, 199, 300, 399, 400, 499, 500, 599]),
        13 => random.pick(&[99, 200, 299, 600, 1]),
        14 => random.pick(&[HIGH, HIGH + 404, (1 << 16) + 404, 256, u64::MAX]),
        _ => random.below(700),
    }
}
