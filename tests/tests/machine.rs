//! The plain machine against 01's bench examples.

use compare::call::{Answer, Call, Due};
use compare::generate::cases::{example_10, values};
use compare::generate::draft::{PLANT_X, SETTINGS_X};
use compare::reference::calendar::{moment, start_slot, END, SLOTS};
use compare::reference::machine::STORE_LENGTH;
use compare::reference::requests::{in_window, next_window, window_start};
use compare::reference::{write, Fields, Machine};

const MAC: &[u8] = b"012389ABCDEF";

fn second(digits: &str) -> u64 {
    moment(&values(digits)).expect("exists")
}

fn slot(digits: &str) -> u64 {
    u64::from(start_slot(&values(digits)).expect("exists"))
}

/// Plant X, panel 4,000, inverter 5,500, N 5, with the clock at a second.
fn plant_x_at(clock: &str) -> Machine {
    let mut machine = Machine::install(&PLANT_X, MAC, SETTINGS_X, STORE_LENGTH)
        .expect("a valid ID and valid settings");
    let tick = Call::Tick {
        second: second(clock),
    };
    assert_eq!(machine.answer(&tick), Answer::Accepted);
    machine
}

/// An update for plant X from a slot, with flag 2.
fn update(start: &str, rates: &[u8], next: &str) -> Call {
    let fields = Fields {
        format: 203,
        plant: PLANT_X.to_vec(),
        schedule: values("2603270001"),
        start: values(start),
        next: values(next),
        rates: rates.to_vec(),
        flag: 2,
    };
    Call::TakeFile {
        name: example_10().0,
        body: write(&fields).expect("valid fields"),
    }
}

#[test]
fn example_4_ceiling() {
    let mut machine = plant_x_at("20260327090000");
    let file = update("202603270930", &[40, 100], "20260327113000");
    assert_eq!(machine.answer(&file), Answer::Accepted);
    let mut ceiling = |start: &str| machine.answer(&Call::Ceiling { slot: slot(start) });
    assert_eq!(ceiling("202603270930"), Answer::Ceiling(Some((40, 29))));
    assert_eq!(ceiling("202603271000"), Answer::Ceiling(Some((100, 72))));
    assert_eq!(ceiling("202603270900"), Answer::Ceiling(None));
}

#[test]
fn example_5_ramp() {
    let mut machine = plant_x_at("20260327092959");
    let file = update("202603270930", &[40], "20260327113000");
    assert_eq!(machine.answer(&file), Answer::Accepted);
    assert_eq!(machine.target(Some(40)), 8_700);
    let start = second("20260327093000");
    for (passed, parts) in [(1, 100), (86, 8_600), (87, 8_700), (88, 8_700)] {
        let tick = Call::Tick {
            second: start + passed - 1,
        };
        assert_eq!(machine.answer(&tick), Answer::Accepted);
        assert_eq!(machine.answer(&Call::Command), Answer::Number(parts));
    }
}

#[test]
fn examples_6_and_7_windows() {
    assert!(in_window(5, second("20260327234000")));
    assert!(in_window(5, second("20260327235959")));
    assert!(!in_window(5, second("20260327233959")));
    assert!(!in_window(5, second("20260328000000")));
    assert!(in_window(6, second("20260327001000")));
    assert!(!in_window(6, second("20260327003000")));
    assert_eq!(window_start(0), (21 * 60 + 10) * 60);
    assert_eq!(window_start(9), (60 + 40) * 60);
}

#[test]
fn example_9_first_window_start_later() {
    let mut machine = plant_x_at("20260327000500");
    machine.requests.failures = 5;
    let failed = Call::FixedFailed { status: 0 };
    assert_eq!(machine.answer(&failed), Answer::Accepted);
    assert_eq!(machine.requests.failures, 0);
    assert_eq!(machine.requests.fixed_at, second("20260327234000"));
}

/// The window's start found by counting the seconds up.
#[test]
fn next_window_is_the_first_later_start() {
    let days = [0, second("20240228000000"), END - 86_400];
    for digit in 0..10 {
        let start = window_start(digit);
        for near in [start, 0, 86_399] {
            for day in days {
                let clock = (day + near).saturating_sub(1);
                for clock in clock..clock + 3 {
                    let counted = (clock + 1..).find(|second| second % 86_400 == start);
                    assert_eq!(Some(next_window(digit, clock)), counted);
                }
            }
        }
    }
}

#[test]
fn example_10_taken() {
    let mut machine = plant_x_at("20260327090000");
    let (name, body) = example_10();
    assert_eq!(body.len(), 79);
    let file = Call::TakeFile { name, body };
    assert_eq!(machine.answer(&Call::Due), Answer::Due(Due::Update));
    assert_eq!(machine.answer(&file), Answer::Accepted);
    let mut ceiling = |start: &str| machine.answer(&Call::Ceiling { slot: slot(start) });
    assert_eq!(ceiling("202603270930"), Answer::Ceiling(Some((100, 72))));
    assert_eq!(ceiling("202603271000"), Answer::Ceiling(Some((40, 29))));
    assert_eq!(ceiling("202603271030"), Answer::Ceiling(Some((28, 20))));
    assert_eq!(ceiling("202603271100"), Answer::Ceiling(None));
    assert_eq!(machine.answer(&Call::FreeBlocks), Answer::Number(15));
    assert_eq!(machine.requests.wanted_flag, Some(2));
    assert_eq!(machine.requests.update_at, second("20260327113000"));
    assert_eq!(machine.answer(&Call::Due), Answer::Due(Due::Nothing));
    let night = second("20260327234000");
    assert_eq!(
        machine.answer(&Call::Tick { second: night }),
        Answer::Accepted
    );
    machine.requests.update_at = END;
    assert_eq!(machine.answer(&Call::Due), Answer::Due(Due::Fixed(2)));
}

/// 'The lowest number that applies', across values and state.
#[test]
fn lowest_cause() {
    let mut unset = plant_x_at("20260327090000");
    assert_eq!(unset.answer(&Call::ClockLost), Answer::Accepted);
    let short = |machine: &Machine| Machine {
        store_length: 0,
        ..machine.clone()
    };
    let late = Call::Tick { second: END };
    let beyond = Call::Ceiling {
        slot: u64::from(SLOTS),
    };
    let failed = Call::UpdateFailed { status: 200 };
    let no_file = Call::TakeFile {
        name: Vec::new(),
        body: Vec::new(),
    };
    for (call, lent, set, cause) in [
        (&late, false, true, 6),
        (&late, true, true, 3),
        (&beyond, false, true, 6),
        (&beyond, false, false, 5),
        (&beyond, true, false, 3),
        (&failed, false, true, 6),
        (&failed, true, false, 5),
        (&no_file, false, true, 7),
        (&no_file, false, false, 5),
        (&no_file, true, false, 3),
    ] {
        let mut machine = match set {
            true => plant_x_at("20260327090000"),
            false => unset.clone(),
        };
        if lent {
            machine = short(&machine);
        }
        assert_eq!(machine.answer(call), Answer::Refused(cause), "{call:?}");
    }
}
