//! Units and stores with one thing changed from outside: most aren't sound
//! any more, some are by a hair, some stand for the same machine as before.

use super::draft::check_digit;
use super::random::Random;
use super::spoil_store::STORE_SPOILS;
use crate::firmware::Unit;
use crate::reference::calendar::END;

/// What the change leaves behind.
#[derive(Clone, Copy, Debug, PartialEq, Eq)]
pub enum Outcome {
    /// A unit that isn't sound.
    Unit,
    /// A store that isn't sound, or not of 01's length.
    Store,
    /// Unit and store still sound.
    Sound,
    /// One or the other.
    Chance,
}

/// One kind of change. It says whether there was something to change.
pub struct Spoil {
    pub words: &'static str,
    pub outcome: Outcome,
    pub apply: fn(&mut Unit, &mut Vec<u8>, &mut Random) -> bool,
}

pub const fn spoil(
    outcome: Outcome,
    words: &'static str,
    apply: fn(&mut Unit, &mut Vec<u8>, &mut Random) -> bool,
) -> Spoil {
    Spoil {
        words,
        outcome,
        apply,
    }
}

/// f and u must be below this.
const TIMES_END: u64 = END + 172_800;

/// Flips a bit of a field, counted in the header's order.
fn flip(unit: &mut Unit, field: u64, random: &mut Random) {
    let bit = random.below(64);
    let place = random.below(16) as usize;
    match field {
        0 => unit.id[place + 10 * random.below(2) as usize] ^= 1 << (bit % 8),
        1 => unit.mac[place % 12] ^= 1 << (bit % 8),
        2 => unit.wanted_flag ^= 1 << (bit % 8),
        3 => unit.held_flag ^= 1 << (bit % 8),
        4 => unit.failures ^= 1 << (bit % 8),
        5 => unit.clock_set ^= 1 << (bit % 8),
        6 => unit.floor ^= 1 << (bit % 16),
        7 => unit.months[place] ^= 1 << (bit % 16),
        8 => unit.clock ^= 1 << (bit % 32),
        9 => unit.command ^= 1 << (bit % 32),
        10 => unit.fixed_at ^= 1 << bit,
        11 => unit.update_at ^= 1 << bit,
        12 => unit.settings.panel ^= 1 << bit,
        13 => unit.settings.inverter ^= 1 << bit,
        _ => unit.settings.minutes ^= 1 << bit,
    }
}

/// A setting out of range: one of these, the greatest of 32 or 64 bits, or one
/// whose low 32 bits are the old one.
fn wrong(setting: u64, near: &[u64], random: &mut Random) -> u64 {
    match random.below(2) {
        0 => random.pick(near),
        _ => random.pick(&[u64::from(u32::MAX), u64::MAX, setting + (1 << 32)]),
    }
}

/// The command at 100%.
fn full_command(unit: &Unit) -> u32 {
    6_000 * unit.settings.minutes as u32
}

/// The changes to ID, MAC, settings, flags, times and command.
static VALUE_SPOILS: &[Spoil] = &[
    spoil(Outcome::Unit, "check digit", |unit, _, random| {
        unit.id[25] = random.other_digit(check_digit(&unit.id));
        true
    }),
    spoil(Outcome::Unit, "ID byte above 9", |unit, _, random| {
        unit.id[random.place(26)] = random.non_digit();
        true
    }),
    spoil(Outcome::Unit, "MAC byte", |unit, _, random| {
        unit.mac[random.place(12)] = random.pick(b"/:@Gaf\0\xFF");
        true
    }),
    spoil(Outcome::Unit, "panel", |unit, _, random| {
        unit.settings.panel = wrong(unit.settings.panel, &[0, 2_000_001], random);
        true
    }),
    spoil(Outcome::Unit, "inverter", |unit, _, random| {
        unit.settings.inverter = wrong(unit.settings.inverter, &[0, 2_000_001], random);
        true
    }),
    spoil(Outcome::Unit, "ramp minutes", |unit, _, random| {
        unit.settings.minutes = wrong(unit.settings.minutes, &[0, 4, 11, 261], random);
        true
    }),
    spoil(Outcome::Unit, "wanted flag above 10", |unit, _, random| {
        unit.wanted_flag = random.pick(&[11, 12, 255]);
        true
    }),
    spoil(Outcome::Unit, "held flag above 10", |unit, _, random| {
        unit.held_flag = random.pick(&[11, 12, 255]);
        true
    }),
    spoil(Outcome::Unit, "failures above 5", |unit, _, random| {
        unit.failures = random.pick(&[6, 7, 255]);
        true
    }),
    spoil(
        Outcome::Unit,
        "clock neither set nor unset",
        |unit, _, random| {
            unit.clock_set = random.pick(&[2, 3, 255]);
            true
        },
    ),
    spoil(
        Outcome::Unit,
        "unset clock with a second",
        |unit, _, random| {
            unit.clock_set = 0;
            unit.clock = random.pick(&[1, 5, unit.clock.max(1)]);
            true
        },
    ),
    spoil(Outcome::Unit, "clock not below T", |unit, _, random| {
        unit.clock_set = 1;
        unit.clock = random.pick(&[END as u32, END as u32 + 1, u32::MAX]);
        true
    }),
    spoil(
        Outcome::Unit,
        "fixed time at its limit or above",
        |unit, _, random| {
            unit.fixed_at = random.pick(&[TIMES_END, TIMES_END + 1, 1 << 32, u64::MAX]);
            true
        },
    ),
    spoil(
        Outcome::Unit,
        "update time at its limit or above",
        |unit, _, random| {
            unit.update_at = random.pick(&[TIMES_END, TIMES_END + 1, 1 << 32, u64::MAX]);
            true
        },
    ),
    spoil(Outcome::Unit, "command above 100%", |unit, _, random| {
        unit.command = random.pick(&[full_command(unit) + 1, u32::MAX]);
        true
    }),
    spoil(
        Outcome::Sound,
        "each value at its limit",
        |unit, _, random| {
            match random.below(7) {
                0 => unit.wanted_flag = random.pick(&[0, 9, 10]),
                1 => unit.held_flag = random.pick(&[0, 9, 10]),
                2 => unit.failures = random.pick(&[0, 5]),
                3 => unit.command = full_command(unit),
                4 => unit.fixed_at = TIMES_END - 1,
                5 => unit.update_at = TIMES_END - 1,
                _ => {
                    unit.clock_set = 1;
                    unit.clock = END as u32 - 1;
                }
            }
            true
        },
    ),
    spoil(Outcome::Sound, "clock taken away", |unit, _, _| {
        (unit.clock_set, unit.clock) = (0, 0);
        true
    }),
    spoil(
        Outcome::Chance,
        "a bit of any field flipped",
        |unit, _, random| {
            flip(unit, random.below(15), random);
            true
        },
    ),
    spoil(
        Outcome::Chance,
        "bits of all fields flipped",
        |unit, _, random| {
            for field in 0..15 {
                flip(unit, field, random);
            }
            true
        },
    ),
];

/// Every kind of change.
pub fn all_spoils() -> impl Iterator<Item = &'static Spoil> {
    VALUE_SPOILS.iter().chain(STORE_SPOILS)
}
