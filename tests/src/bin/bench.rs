//! Times the library that firmware links beside a unit in safe Rust with
//! fixed arrays, which makes the same checks: in turns, in one run, with
//! equal inputs and results compared. A benchmark, not a test: nothing is
//! judged.

use std::hint::black_box;

use compare::both::Both;
use compare::fast;
use compare::firmware::{self, FileAnswer};
use compare::generate::cases::values;
use compare::generate::draft::{ascii, PLANT_X, SETTINGS_X};
use compare::generate::frame::{Frame, BOUNDARY};
use compare::generate::Random;
use compare::reference::calendar::{digits_of_slot, first_slot, start_slot};
use compare::reference::{write, Fields};
use compare::timing::{least, print, race, Row};

const SLOT_SECONDS: u64 = 1_800;
/// April 2026, the first month of the yearly file.
const APRIL_2026: u16 = 26 * 12 + 3;
/// Slots of the 16 held months, March 2026 to June 2027.
const HELD_SLOTS: u64 = 487 * 48;

/// A name and body, good for plant X.
struct File {
    name: Vec<u8>,
    body: Vec<u8>,
}

/// A file with any rates.
fn file(format: u32, start: &str, length: usize, random: &mut Random) -> File {
    let fields = Fields {
        format,
        plant: PLANT_X.to_vec(),
        schedule: values("2604010001"),
        start: values(start),
        next: values("20260410120000"),
        rates: (0..length).map(|_| random.below(101) as u8).collect(),
        flag: 2,
    };
    let segment = match format {
        201 => "9990",
        202 => &start[2..6],
        _ => "0000",
    };
    let plant = String::from_utf8(ascii(&PLANT_X)).expect("ASCII");
    File {
        name: format!("{format}_{segment}_{plant}_20260327090000.data").into_bytes(),
        body: write(&fields).expect("lawful fields"),
    }
}

/// 13 months from April 2026 on.
fn yearly_file(random: &mut Random) -> File {
    file(201, "202604010000", 395 * 48, random)
}

fn second(start: &str) -> u64 {
    u64::from(start_slot(&values(start)).expect("a lawful start")) * SLOT_SECONDS
}

/// A pair that holds 16 months, March 2026 to June 2027, at a second not
/// later than April 2026.
fn full_pair(clock: u64, random: &mut Random) -> Both {
    let mut pair = Both::install(&PLANT_X, b"012389ABCDEF", SETTINGS_X);
    assert_eq!(pair.tick(clock), 0);
    let yearly = yearly_file(random);
    assert_eq!(pair.take_file(&yearly.name, &yearly.body), 0);
    for month in [APRIL_2026 - 1, APRIL_2026 + 13, APRIL_2026 + 14] {
        let slots = first_slot(month + 1) - first_slot(month);
        let start: String = digits_of_slot(first_slot(month))
            .iter()
            .map(u8::to_string)
            .collect();
        let monthly = file(202, &start, slots as usize, random);
        assert_eq!(pair.take_file(&monthly.name, &monthly.body), 0);
    }
    assert_eq!(pair.unit.free, 0);
    pair.compare();
    pair
}

/// The library's answer and the fast reader's must be the same.
fn compare_reading(file: &File) {
    let due = fast::read(None, &file.name, &file.body);
    assert!(due.is_ok(), "a good file");
    assert_eq!(firmware::read(&file.name, &file.body), FileAnswer::of(due));
}

fn race_reading(title: &str, calls: u32, file: &File) -> Row {
    compare_reading(file);
    let (name, body) = (file.name.as_slice(), file.body.as_slice());
    race(
        title,
        calls,
        || {
            black_box(firmware::read(black_box(name), black_box(body)));
        },
        || {
            let _ = black_box(fast::read(None, black_box(name), black_box(body)));
        },
    )
}

/// The file into the months that the pair holds; each call finds the unit as
/// it was before the first.
fn race_taking(title: &str, calls: u32, pair: &Both, file: &File) -> Row {
    let mut tried = pair.clone();
    assert_eq!(tried.take_file(&file.name, &file.body), 0);
    tried.compare();
    let (unit, mut store) = (pair.unit, pair.store.clone());
    let mut fixed = pair.fixed.clone();
    let (held, requests) = (pair.fixed.free_blocks() == Ok(0), fixed.requests);
    let (name, body) = (file.name.as_slice(), file.body.as_slice());
    race(
        title,
        calls,
        || {
            let store = black_box(store.as_mut_slice());
            let unit = *black_box(&unit);
            let done = firmware::take_file(unit, black_box(name), black_box(body), store);
            black_box(&done);
        },
        || {
            fixed.requests = requests;
            if !held {
                fixed.months.release_below(u16::MAX);
            }
            let _ = black_box(black_box(&mut fixed).take_file(black_box(name), black_box(body)));
        },
    )
}

/// 002's response around the file, into the months that the pair holds; each
/// call finds the unit as it was before the first.
fn race_response(title: &str, calls: u32, pair: &Both, file: &File) -> Row {
    let response = Frame::figure(BOUNDARY, &file.name, &file.body).bytes();
    let response = response.as_slice();
    let (mut tried, mut by_file) = (pair.clone(), pair.clone());
    assert_eq!(tried.take_response(BOUNDARY, response), 0);
    assert_eq!(by_file.take_file(&file.name, &file.body), 0);
    tried.compare();
    assert!((tried.unit, &tried.store) == (by_file.unit, &by_file.store));
    let (unit, mut store) = (pair.unit, pair.store.clone());
    let mut fixed = pair.fixed.clone();
    let requests = fixed.requests;
    race(
        title,
        calls,
        || {
            let store = black_box(store.as_mut_slice());
            let (boundary, response) = (black_box(BOUNDARY), black_box(response));
            let done = firmware::take_response(*black_box(&unit), boundary, response, store);
            black_box(&done);
        },
        || {
            fixed.requests = requests;
            let (boundary, response) = (black_box(BOUNDARY), black_box(response));
            let _ = black_box(black_box(&mut fixed).take_response(boundary, response));
        },
    )
}

/// One second after the other; both clocks go on through the rounds.
fn race_seconds(pair: &Both) -> Row {
    let (mut unit, store) = (pair.unit, pair.store.as_slice());
    let mut fixed = pair.fixed.clone();
    let row = race(
        "tick of one second",
        20,
        || {
            let next = u64::from(unit.clock) + 1;
            unit = firmware::tick(*black_box(&unit), next, black_box(store)).unit;
        },
        || {
            let next = u64::from(fixed.clock.unwrap_or(0)) + 1;
            let _ = black_box(black_box(&mut fixed).tick(next));
        },
    );
    let ended = Both {
        unit,
        store: pair.store.clone(),
        fixed,
    };
    ended.compare();
    assert_ne!(unit.command, pair.unit.command);
    row
}

/// From April 2016 into the held months; each call finds the unit as it was
/// before the first.
fn race_years(random: &mut Random) -> Row {
    let mut pair = full_pair(second("201604100930") + 7, random);
    let until = second("202604101500") + 11;
    let (unit, old) = (pair.unit, pair.fixed.clone());
    assert_eq!(pair.tick(until), 0);
    pair.compare();
    let (store, mut fixed) = (pair.store.as_slice(), pair.fixed);
    race(
        "tick over ten years",
        20,
        || {
            let done = firmware::tick(*black_box(&unit), black_box(until), black_box(store));
            black_box(&done);
        },
        || {
            (fixed.clock, fixed.floor, fixed.command) = (old.clock, old.floor, old.command);
            let _ = black_box(black_box(&mut fixed).tick(black_box(until)));
        },
    )
}

fn race_ceiling(pair: &Both) -> Row {
    let first = u64::from(first_slot(APRIL_2026 - 1));
    (0..HELD_SLOTS).for_each(|place| pair.ask(first + place * 7 % HELD_SLOTS));
    let (unit, store) = (pair.unit, pair.store.as_slice());
    let (mut here, mut there) = (0, 0);
    race(
        "ceiling of a slot",
        20,
        || {
            here = (here + 977) % HELD_SLOTS;
            let slot = black_box(first + here);
            let answer = firmware::ceiling(*black_box(&unit), slot, black_box(store));
            black_box(&answer);
        },
        || {
            there = (there + 977) % HELD_SLOTS;
            let slot = black_box(first + there);
            let _ = black_box(black_box(&pair.fixed).ceiling(slot));
        },
    )
}

fn race_checks(pair: &Both) -> [Row; 2] {
    let (unit, store) = (pair.unit, pair.store.as_slice());
    assert_eq!(firmware::check(unit, store), 0);
    assert_eq!(pair.fixed.check(), Ok(()));
    let whole = race(
        "soundness of unit and store",
        20,
        || {
            black_box(firmware::check(*black_box(&unit), black_box(store)));
        },
        || {
            let _ = black_box(black_box(&pair.fixed).check());
        },
    );
    let unit_alone = race(
        "what is due (soundness of the unit alone)",
        200,
        || {
            black_box(firmware::due(*black_box(&unit)));
        },
        || {
            let _ = black_box(black_box(&pair.fixed).due());
        },
    );
    [whole, unit_alone]
}

/// All races, with the same inputs each time.
fn races() -> Vec<Row> {
    let random = &mut Random::new(19_681);
    let yearly = yearly_file(random);
    let update = file(203, "202604290930", 336, random);
    let clock = second("202604100930");
    let full = full_pair(clock, random);
    let mut empty = Both::install(&PLANT_X, b"012389ABCDEF", SETTINGS_X);
    assert_eq!(empty.tick(clock), 0);
    let taking = "yearly file read and taken, 13 months";
    let mut rows = vec![
        race_reading("yearly file read, 19,681 bytes", 4, &yearly),
        race_reading("update of 336 slots read", 100, &update),
        race_taking(&format!("{taking} replaced"), 4, &full, &yearly),
        race_taking(&format!("{taking} new"), 4, &empty, &yearly),
        race_response(
            "yearly response taken, 13 months replaced",
            4,
            &full,
            &yearly,
        ),
        race_taking("update of 336 slots read and taken", 20, &full, &update),
        race_seconds(&full),
        race_years(random),
        race_ceiling(&full),
    ];
    rows.extend(race_checks(&full));
    rows
}

fn main() {
    let rows = least(races);
    println!("16 months held, but none where they are new; buffers not cleared between calls");
    print(&rows);
}
