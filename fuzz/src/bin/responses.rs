//! A boundary and a response, given to a unit with a set clock: the library's
//! answer and what it leaves must be the machine's, and where the response is
//! well formed, what its file taken in its place leaves.
#![no_main]

use compare::call::{Answer, Call};
use compare::firmware::{self, STORE_LENGTH};
use compare::generate::cases::example_10;
use compare::generate::draft::{PLANT_X, SETTINGS_X};
use compare::reference::response::open;
use fuzz::file::{address, change, lawful};
use fuzz::input::Input;
use fuzz::pair::Pair;
use fuzz::response::{framed, raw};

fuzz::fuzz_target!(response);

/// 27 March 2026, 09:00.
const CLOCK: u64 = 827_917_200;
/// What the store holds before it is lent.
const JUNK: u8 = 171;

/// Any bytes; a response around example 10; one around a file that may be
/// changed.
fn boundary_and_response(input: &mut Input) -> (Vec<u8>, Vec<u8>) {
    let kind = input.byte();
    if kind < 64 {
        return raw(input.rest());
    }
    if kind < 192 {
        let (name, body) = example_10();
        return framed(&name, &body, input);
    }
    let mut draft = lawful(input);
    address(&mut draft, &PLANT_X);
    if kind >= 224 {
        change(&mut draft, input);
    }
    framed(&draft.name.bytes(), &draft.body(), input)
}

fn response(bytes: &[u8]) {
    let mut pair = Pair::install(&PLANT_X, SETTINGS_X, vec![JUNK; STORE_LENGTH]);
    let tick = Call::Tick { second: CLOCK };
    assert_eq!(pair.answers(&tick), [Answer::Accepted; 2]);
    let (unit, mut store) = (pair.unit, pair.store.clone());
    let (boundary, response) = boundary_and_response(&mut Input::new(bytes));
    let opened = open(&boundary, &response).ok();
    let call = Call::TakeResponse {
        boundary: boundary.clone(),
        response: response.clone(),
    };
    let [answer, due] = pair.answers(&call);
    assert_eq!(answer, due, "{}", call.line());
    pair.compare_values(&|| vec![call.line()]);
    pair.compare_months();
    let left = match opened {
        Some(part) => firmware::take_file(unit, part.name, part.file, &mut store).unit,
        None => unit,
    };
    assert_eq!(pair.unit, left, "{}", call.line());
    assert!(pair.store == store, "store, {}", call.line());
}
