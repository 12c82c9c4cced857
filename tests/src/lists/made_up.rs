//! Sound units and stores that no list of calls need have led to: 'Soundness
//! asks nothing that 01 does not list'.

use super::pair::Pair;
use crate::firmware::{Unit, BLOCK_COUNT, BLOCK_LENGTH, STORE_LENGTH};
use crate::generate::calls::Installing;
use crate::generate::Random;
use crate::reference::calendar::{days_of_month, END, MONTHS};
use crate::reference::schedule::month_of_second;
use crate::reference::soundness::machine_of;

/// A time below T + 172,800, often near the clock or at the limit.
fn some_time(clock: u64, random: &mut Random) -> u64 {
    match random.below(5) {
        0 => 0,
        1 => END + 172_799,
        2 => random.below(END + 172_800),
        _ => clock.saturating_sub(3_600) + random.below(2 * 86_400),
    }
}

/// Distinct months from the floor on, in any blocks.
fn some_months(unit: &mut Unit, random: &mut Random) {
    let room = u64::from(MONTHS - unit.floor);
    let reach = random.pick(&[3, 16, 17, 40]).min(room);
    let wanted = random.below(17).min(reach);
    let mut held: Vec<u16> = Vec::new();
    while (held.len() as u64) < wanted {
        let month = unit.floor + random.below(reach) as u16;
        if !held.contains(&month) {
            held.push(month);
        }
    }
    unit.free = u16::MAX;
    for month in held {
        let mut block = random.below(16) as usize;
        while unit.free >> block & 1 == 0 {
            block = (block + 1) % BLOCK_COUNT;
        }
        unit.free &= !(1 << block);
        unit.months[block] = month;
    }
}

/// Any bytes in free blocks, lawful ones in the others, at times without a
/// rate.
fn some_store(unit: &Unit, random: &mut Random) -> Vec<u8> {
    let mut store = random.bytes(STORE_LENGTH);
    for (month, block) in unit.held() {
        let bytes = &mut store[block * BLOCK_LENGTH..][..BLOCK_LENGTH];
        let slots = 48 * days_of_month(month) as usize;
        let rates = random.rates(slots);
        bytes.fill(255);
        if random.once_in(8) {
            continue;
        }
        let (from, to) = (random.place(slots), random.place(slots));
        let (from, to) = (from.min(to), from.max(to) + 1);
        bytes[from..to].copy_from_slice(&rates[from..to]);
    }
    store
}

/// A pair of a made-up sound unit and the machine that it stands for, its
/// clock often at `now`.
pub fn pair(now: u64, random: &mut Random) -> Pair {
    let values = Installing::some(random);
    let clock_set = random.pick(&[1, 1, 1, 0]);
    let floor = u64::from(month_of_second(now)) + random.below(6);
    let mut unit = Unit {
        id: values.id.try_into().expect("26 digits"),
        mac: values.mac.try_into().expect("12 bytes"),
        wanted_flag: random.below(11) as u8,
        held_flag: random.below(11) as u8,
        failures: random.below(6) as u8,
        clock_set,
        floor: floor.saturating_sub(4).min(u64::from(MONTHS - 1)) as u16,
        months: [0; BLOCK_COUNT],
        free: 0,
        clock: u32::from(clock_set) * now as u32,
        command: random.below(6_000 * values.settings.minutes + 1) as u32,
        fixed_at: some_time(now, random),
        update_at: some_time(now, random),
        settings: values.settings,
    };
    for month in &mut unit.months {
        *month = random.bits() as u16;
    }
    some_months(&mut unit, random);
    let store = some_store(&unit, random);
    let machine = machine_of(&unit, &store);
    Pair::of(machine, unit, &store)
}
