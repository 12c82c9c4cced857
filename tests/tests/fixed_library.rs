//! The unit with fixed arrays against the library that firmware links, so that
//! the benchmark times the same work: lists of calls, and units spoilt alike.

use compare::both::Both;
use compare::firmware::STORE_LENGTH;
use compare::fixed::{Month, Plant, Unit, BLOCK};
use compare::generate::calls::{Calls, Installing};
use compare::generate::spoil::{all_spoils, Spoil};
use compare::generate::{Random, LIST_SEED};
use compare::reference::Machine;
use compare::tally::Tally;

/// Lists, and the calls of each.
const LISTS: u64 = 150;
const CALLS: u64 = 60;

/// The library's unit and store as a unit with fixed arrays. Nothing where that
/// has no room for a setting.
fn in_arrays(both: &Both) -> Option<Unit> {
    let mut fixed = both.fixed.clone();
    let unit = &both.unit;
    fixed.plant = Plant::of(unit.id, unit.mac, unit.settings)?;
    (fixed.floor, fixed.command) = (unit.floor, unit.command);
    fixed.clock = (unit.clock_set == 1).then_some(unit.clock);
    fixed.requests.wanted_flag = unit.wanted_flag;
    fixed.requests.held_flag = unit.held_flag;
    fixed.requests.failures = unit.failures;
    fixed.requests.fixed_at = unit.fixed_at;
    fixed.requests.update_at = unit.update_at;
    fixed.months.0.fill(None);
    for (month, block) in unit.held() {
        let bytes = &both.store[block * BLOCK..(block + 1) * BLOCK];
        fixed.months.0[block] = Some(Month {
            number: month,
            rates: bytes.try_into().expect("a block"),
        });
    }
    Some(fixed)
}

/// Both with one thing changed from outside; nothing where fixed arrays can't
/// be changed like that.
fn spoilt(both: &Both, random: &mut Random) -> Option<Both> {
    let spoils: Vec<&Spoil> = all_spoils().collect();
    let mut spoilt = both.clone();
    let changed = (random.pick(&spoils).apply)(&mut spoilt.unit, &mut spoilt.store, random);
    let clock_fits = match spoilt.unit.clock_set {
        0 => spoilt.unit.clock == 0,
        mark => mark == 1,
    };
    if !changed || !clock_fits || spoilt.store.len() != STORE_LENGTH {
        return None;
    }
    spoilt.fixed = in_arrays(&spoilt)?;
    Some(spoilt)
}

#[test]
fn lists_of_calls() {
    println!("seeds from {LIST_SEED} on, {LISTS} lists of {CALLS}");
    let mut answers = Tally::new("fixed arrays and library: calls");
    let mut soundness = Tally::new("fixed arrays and library: soundness");
    for list in 0..LISTS {
        let mut random = Random::new(LIST_SEED + list);
        let mut calls = Calls::some(&mut random);
        let Installing {
            id, mac, settings, ..
        } = Installing::some(&mut random);
        let mut both = Both::install(&id, &mac, settings);
        // What the next call is aimed at.
        let mut machine =
            Machine::install(&id, &mac, settings, STORE_LENGTH).expect("valid values");
        for _ in 0..CALLS {
            let call = calls.next(&machine, &mut random);
            machine.answer(&call);
            if let Some(mut spoilt) = spoilt(&both, &mut random) {
                soundness.add(&spoilt.fixed.check());
                spoilt.ask(0);
                spoilt.call(&call);
                spoilt.compare();
            }
            let cause = both.call(&call);
            answers.add(&if cause == 0 { Ok(()) } else { Err(cause as u8) });
            both.compare();
        }
    }
    answers.settle(&[5, 6, 7, 8, 9, 10, 11, 12, 13, 14, 17]);
    soundness.settle(&[4]);
}
