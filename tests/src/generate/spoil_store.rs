//! Changes from outside to floor, months, free map and store.

use super::random::Random;
use super::spoil::{spoil, Outcome, Spoil};
use crate::firmware::{Unit, BLOCK_COUNT, BLOCK_LENGTH};
use crate::reference::calendar::{days_of_month, MONTHS};

/// A month that has a block, with that block.
fn some_held(unit: &Unit, random: &mut Random) -> Option<(u16, usize)> {
    let held: Vec<(u16, usize)> = unit.held().collect();
    match held.is_empty() {
        true => None,
        false => Some(held[random.place(held.len())]),
    }
}

fn some_free(unit: &Unit, random: &mut Random) -> Option<usize> {
    let free: Vec<usize> = (0..BLOCK_COUNT)
        .filter(|block| unit.free >> block & 1 == 1)
        .collect();
    match free.is_empty() {
        true => None,
        false => Some(free[random.place(free.len())]),
    }
}

/// Puts a byte somewhere into the part of a held block that belongs to its
/// month (`past` false) or lies past its end.
fn put(unit: &Unit, store: &mut [u8], past: bool, byte: u8, random: &mut Random) -> bool {
    let Some((month, block)) = some_held(unit, random) else {
        return false;
    };
    let slots = 48 * days_of_month(month) as usize;
    let place = match past {
        false => random.place(slots),
        true if slots < BLOCK_LENGTH => slots + random.place(BLOCK_LENGTH - slots),
        true => return false,
    };
    match store.get_mut(block * BLOCK_LENGTH + place) {
        Some(at) => *at = byte,
        None => return false,
    }
    true
}

/// The changes to floor, months, free map and store.
pub static STORE_SPOILS: &[Spoil] = &[
    spoil(Outcome::Unit, "floor above 1199", |unit, _, random| {
        unit.floor = random.pick(&[MONTHS, MONTHS + 1, u16::MAX]);
        true
    }),
    spoil(
        Outcome::Unit,
        "floor above a held month",
        |unit, _, random| {
            let held = some_held(unit, random);
            held.map(|(month, _)| unit.floor = month + 1).is_some()
        },
    ),
    spoil(
        Outcome::Unit,
        "held month below floor",
        |unit, _, random| match some_held(unit, random) {
            Some((_, block)) if unit.floor > 0 => {
                unit.months[block] = unit.floor - 1;
                true
            }
            _ => false,
        },
    ),
    spoil(Outcome::Unit, "held month above 1199", |unit, _, random| {
        let Some((_, block)) = some_held(unit, random) else {
            return false;
        };
        unit.months[block] = random.pick(&[MONTHS, MONTHS + 1, u16::MAX]);
        true
    }),
    spoil(
        Outcome::Unit,
        "one month in two blocks",
        |unit, _, random| {
            let held: Vec<(u16, usize)> = unit.held().collect();
            let Some(((month, _), block)) = held.first().zip(some_free(unit, random)) else {
                return false;
            };
            unit.months[block] = *month;
            unit.free &= !(1 << block);
            true
        },
    ),
    spoil(
        Outcome::Chance,
        "bit of the free map flipped",
        |unit, _, random| {
            unit.free ^= 1 << random.below(16);
            true
        },
    ),
    spoil(
        Outcome::Chance,
        "another month in a block",
        |unit, _, random| {
            let Some((month, block)) = some_held(unit, random) else {
                return false;
            };
            unit.months[block] = random.pick(&[month + 1, month + 12, month.saturating_sub(1)]);
            true
        },
    ),
    spoil(
        Outcome::Sound,
        "month number of a free block",
        |unit, _, random| match some_free(unit, random) {
            Some(block) => {
                unit.months[block] = random.bits() as u16;
                true
            }
            None => false,
        },
    ),
    spoil(
        Outcome::Sound,
        "byte of a free block",
        |unit, store, random| {
            let Some(block) = some_free(unit, random) else {
                return false;
            };
            let place = block * BLOCK_LENGTH + random.place(BLOCK_LENGTH);
            let byte = random.byte();
            store.get_mut(place).map(|at| *at = byte).is_some()
        },
    ),
    spoil(
        Outcome::Sound,
        "rate of a held block",
        |unit, store, random| {
            let rate = random.pick(&[0, 1, 50, 99, 100, 255]);
            put(unit, store, false, rate, random)
        },
    ),
    spoil(
        Outcome::Store,
        "byte 101 to 254 in a held block",
        |unit, store, random| {
            let byte = random.pick(&[101, 102, 127, 128, 200, 253, 254]);
            put(unit, store, false, byte, random)
        },
    ),
    spoil(
        Outcome::Chance,
        "any byte of the store",
        |_, store, random| {
            if store.is_empty() {
                return false;
            }
            let place = random.place(store.len());
            store[place] = random.byte();
            true
        },
    ),
    spoil(
        Outcome::Store,
        "byte past the month's end",
        |unit, store, random| {
            let byte = random.pick(&[0, 1, 100, 101, 254]);
            put(unit, store, true, byte, random)
        },
    ),
    spoil(Outcome::Store, "store too short", |_, store, random| {
        let less = random.pick(&[1, 2, BLOCK_LENGTH, store.len()]);
        store.truncate(store.len().saturating_sub(less));
        true
    }),
    spoil(Outcome::Store, "store too long", |_, store, random| {
        let more = random.pick(&[1, 2, BLOCK_LENGTH, 65_536]);
        store.resize(store.len() + more, 255);
        true
    }),
];
