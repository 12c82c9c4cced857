//! The machine's quick ways against its literal ones, over lists of calls.

use compare::call::{Answer, Call};
use compare::generate::calls::{Calls, Installing};
use compare::generate::{Random, LIST_SEED};
use compare::reference::calendar::{END, MONTHS};
use compare::reference::schedule::{Schedule, NO_RATE};
use compare::reference::Machine;

/// Lists, and the calls of each.
const LISTS: u64 = 150;
const CALLS: u64 = 60;

/// Both ways over the seconds end in the same machine.
fn compare_ticks(machine: &Machine, clock: u64, second: u64) {
    let (mut walked, mut ridden) = (machine.clone(), machine.clone());
    walked.walk_to(clock, second);
    ridden.ride_to(clock, second);
    assert!(
        walked == ridden,
        "from {clock} to {second}: {} by seconds, {} by slots",
        walked.command,
        ridden.command
    );
}

/// Both ways lay out the same block, and a month is held exactly where its
/// block has a rate.
fn compare_blocks(schedule: &Schedule) {
    let held = schedule.held();
    let floor = schedule.floor;
    let around = [floor.saturating_sub(1), floor, floor + 1];
    for month in held.iter().copied().chain(around) {
        if month >= MONTHS {
            continue;
        }
        let block = schedule.block(month);
        assert!(block == schedule.block_in_layers(month), "month {month}");
        let has_rate = block.iter().any(|byte| *byte != NO_RATE);
        assert_eq!(held.contains(&month), has_rate, "month {month}");
    }
}

#[test]
fn quick_ways_are_the_literal_ones() {
    println!("seeds from {LIST_SEED} on, {LISTS} lists");
    let (mut ticks, mut seconds, mut blocks) = (0, 0, 0);
    for list in 0..LISTS {
        let mut random = Random::new(LIST_SEED + list);
        let mut calls = Calls::some(&mut random);
        let Installing {
            id, mac, settings, ..
        } = Installing::some(&mut random);
        let mut machine = Machine::install(&id, &mac, settings, 23_808).expect("valid values");
        for _ in 0..CALLS {
            let call = calls.next(&machine, &mut random);
            if let (Call::Tick { second }, Some(clock)) = (&call, machine.clock) {
                // Some hours of it, at times a month and more.
                let hours = match random.once_in(60) {
                    true => 800,
                    false => random.pick(&[1, 3, 12]),
                };
                let end = (*second).min(clock + hours * 3_600).min(END - 1);
                if end > clock {
                    compare_ticks(&machine, clock, end);
                    ticks += 1;
                    seconds += end - clock;
                }
            }
            let before = machine.schedule.held().len();
            let answer = machine.answer(&call);
            assert!(machine.schedule.held().len() <= 16);
            if answer == Answer::Refused(14) {
                // A file covers 13 months at most, and 16 may be held.
                assert!(before > 3, "14 with {before} months held");
            }
        }
        compare_blocks(&machine.schedule);
        blocks += machine.schedule.held().len();
    }
    println!("{ticks} ticks over {seconds} seconds, {blocks} blocks");
    assert!(ticks > 0 && blocks > 0);
}
