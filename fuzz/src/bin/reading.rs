//! A name and body read without a unit, for no plant and for one: the library
//! and the reference must give the same answers.
#![no_main]

use compare::firmware::{self, FileAnswer};
use compare::generate::draft::PLANT_X;
use compare::reference::read;
use fuzz::file::{change, lawful, raw};
use fuzz::input::Input;

fuzz::fuzz_target!(reading);

fn name_and_body(input: &mut Input) -> (Vec<u8>, Vec<u8>) {
    if input.byte() < 64 {
        return raw(input.rest());
    }
    let mut draft = lawful(input);
    change(&mut draft, input);
    (draft.name.bytes(), draft.body())
}

fn reading(bytes: &[u8]) {
    let (name, body) = name_and_body(&mut Input::new(bytes));
    let expected = |plant| FileAnswer::of(read(plant, &name, &body).map(|file| file.summary()));
    let shown = String::from_utf8_lossy(&name);
    let answer = firmware::read(&name, &body);
    assert_eq!(answer, expected(None), "name {shown:?}, body {body:?}");
    let answer = firmware::read_for(&PLANT_X, &name, &body);
    let due = expected(Some(&PLANT_X));
    assert_eq!(answer, due, "for X: name {shown:?}, body {body:?}");
}
