//! A list of calls to the library and to the plain machine: equal answers and
//! equal values after each call, and in the end the same months with the same
//! rates.
#![no_main]

use compare::call::Call;
use compare::firmware::{Settings, STORE_LENGTH};
use compare::generate::draft::check_digit;
use fuzz::calls::calls;
use fuzz::input::Input;
use fuzz::pair::Pair;

fuzz::fuzz_target!(run);

/// Any capacities, N from 5 to 10, an ID with any check digit, and a store of
/// any byte, now and then of another length.
fn install(input: &mut Input) -> Pair {
    let mut id = [0; 26];
    id[0] = input.byte() % 10;
    id[25] = check_digit(&id);
    let [panel, inverter] = [0; 2].map(|_: u64| 1 + input.number(3) % 2_000_000);
    let minutes = 5 + u64::from(input.byte() % 6);
    let length = match input.byte() {
        255 => STORE_LENGTH - 1,
        254 => STORE_LENGTH + 1,
        253 => 0,
        _ => STORE_LENGTH,
    };
    let settings = Settings::of(panel, inverter, minutes);
    Pair::install(&id, settings, vec![input.byte(); length])
}

fn run(bytes: &[u8]) {
    let mut input = Input::new(bytes);
    let mut pair = install(&mut input);
    let list = calls(&pair.unit.id, &mut input);
    for (place, call) in list.iter().enumerate() {
        let lines = || list[..=place].iter().map(Call::line).collect::<Vec<_>>();
        // What is due hangs on all that the unit keeps, so it is always asked.
        for call in [call, &Call::Due] {
            let [answer, due] = pair.answers(call);
            assert_eq!(answer, due, "{}, {:#?}", call.title(), lines());
        }
        pair.compare_values(&lines);
    }
    pair.compare_months();
}
