//! A boundary and a whole response: 002's around a file, with some of its
//! parts and bytes changed, or any bytes.

use compare::generate::frame::{Frame, ALPHABET};
use compare::generate::responses::{all_changes, Change};
use compare::generate::Random;

use crate::input::Input;

/// Changes of one response at most, of parts and of bytes.
const CHANGES_MAX: u8 = 2;
const BYTES_MAX: u8 = 3;
/// Lengths of a boundary, unlawful ones among them.
const LENGTHS: u8 = 73;

/// The boundary ends at the first 0A.
pub fn raw(bytes: &[u8]) -> (Vec<u8>, Vec<u8>) {
    crate::file::raw(bytes)
}

fn boundary(input: &mut Input) -> Vec<u8> {
    let length = input.byte() % LENGTHS;
    let seed = usize::from(input.byte());
    let letter = |place: usize| ALPHABET[(seed + place * seed) % ALPHABET.len()];
    (0..usize::from(length)).map(letter).collect()
}

/// Changes a byte of the frame, or takes one off, or adds one. Places count
/// from the start and from the end.
fn change_byte(response: &mut Vec<u8>, input: &mut Input) {
    let (how, place, value) = (input.byte(), input.byte(), input.byte());
    if response.is_empty() {
        return;
    }
    let place = usize::from(place) % response.len();
    let place = match how & 1 {
        0 => place,
        _ => response.len() - 1 - place,
    };
    match how / 2 % 4 {
        0 => drop(response.remove(place)),
        1 => response.insert(place, value),
        2 => response.truncate(place),
        _ => response[place] = value,
    }
}

/// Boundary and response around a name and file.
pub fn framed(name: &[u8], file: &[u8], input: &mut Input) -> (Vec<u8>, Vec<u8>) {
    let mut frame = Frame::figure(&boundary(input), name, file);
    let how = input.byte();
    let changes: Vec<&Change> = all_changes().collect();
    for _ in 0..how % (CHANGES_MAX + 1) {
        let change = changes[usize::from(input.byte()) % changes.len()];
        // A kind of change expects a lawful response.
        if compare::reference::response::open(&frame.boundary, &frame.bytes()).is_ok() {
            (change.apply)(&mut frame, &mut Random::new(input.number(2)));
        }
    }
    let mut response = frame.bytes();
    for _ in 0..how / 16 % (BYTES_MAX + 1) {
        change_byte(&mut response, input);
    }
    (frame.boundary, response)
}
