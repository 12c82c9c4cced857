//! Demand 3 held against the library: lists of calls, each answer beside the
//! plain machine's.

use compare::call::Call;
use compare::firmware::answers::answer;
use compare::firmware::{self, BLOCK_LENGTH, STORE_LENGTH};
use compare::generate::cases::{example_10, special, values};
use compare::generate::draft::{PLANT_X, SETTINGS_X};
use compare::generate::{LISTS_IN_THE_GATE, LIST_SEED};
use compare::lists::{run, Counts};
use compare::reference::calendar::{moment, start_slot};
use compare::reference::Machine;

#[test]
fn lists_of_calls() {
    println!("seeds from {LIST_SEED} on, {LISTS_IN_THE_GATE} lists");
    let mut counts = Counts::default();
    for list in 0..LISTS_IN_THE_GATE {
        if let Err(difference) = run(LIST_SEED + list, &mut counts) {
            panic!("{difference}");
        }
    }
    counts.settle();
}

/// A sound unit may hold a month of which no slot has a rate. It counts as
/// held until the floor passes it, and a file for it goes into its block.
#[test]
fn a_month_without_a_rate() {
    let mac = b"012389ABCDEF";
    let fresh = firmware::install(&PLANT_X, mac, SETTINGS_X).unit;
    let mut store = vec![0; STORE_LENGTH];
    let second = moment(&values("20260327090000")).expect("exists");
    let mut unit = firmware::tick(fresh, second, &store).unit;
    let march = 26 * 12 + 2;
    unit.months[7] = march;
    unit.free = !(1 << 7);
    store[7 * BLOCK_LENGTH..8 * BLOCK_LENGTH].fill(255);
    assert_eq!(firmware::check(unit, &store), 0);
    assert_eq!(firmware::free_blocks(unit).value, 15);
    let slot = u64::from(start_slot(&values("202603270930")).expect("exists"));
    let answer = firmware::ceiling(unit, slot, &store);
    assert_eq!((answer.cause, answer.has_rate), (0, 0));

    let (name, body) = example_10();
    let taken = firmware::take_file(unit, &name, &body, &mut store);
    assert_eq!(taken.cause, 0);
    assert_eq!(firmware::free_blocks(taken.unit).value, 15);
    let place = 7 * BLOCK_LENGTH + 26 * 48 + 19;
    assert_eq!(store[place - 1..place + 4], [255, 100, 40, 28, 255]);

    let later = |digits| moment(&values(digits)).expect("exists");
    let april = firmware::tick(unit, later("20260430235959"), &store).unit;
    assert_eq!(firmware::free_blocks(april).value, 15);
    let may = firmware::tick(unit, later("20260501000000"), &store).unit;
    assert_eq!(firmware::free_blocks(may).value, 16);
}

/// The files that 01 and its readings speak of, each taken by a fresh unit.
#[test]
fn special_files_taken() {
    let mac = b"012389ABCDEF";
    let second = moment(&values("20260327090000")).expect("exists");
    for case in special() {
        let mut unit = firmware::install(&PLANT_X, mac, SETTINGS_X).unit;
        let mut store = vec![0; STORE_LENGTH];
        let mut machine =
            Machine::install(&PLANT_X, mac, SETTINGS_X, STORE_LENGTH).expect("valid values");
        let file = Call::TakeFile {
            name: case.name,
            body: case.body,
        };
        for call in [file.clone(), Call::Tick { second }, file, Call::FreeBlocks] {
            let library = answer(&mut unit, &mut store, &call).expect("an answer of 01");
            assert_eq!(library, machine.answer(&call), "{}", case.words[0]);
        }
        assert_eq!(firmware::check(unit, &store), 0, "{}", case.words[0]);
    }
}
