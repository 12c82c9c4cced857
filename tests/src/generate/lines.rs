//! Calls as lines that `replay` reads, in any of the ways in which they may
//! be written.

use super::random::Random;
use crate::call::Call;
use crate::firmware::Settings;

/// Hex digits of either case.
fn hex(bytes: &[u8], random: &mut Random) -> String {
    let mut digits = String::with_capacity(2 * bytes.len());
    let upper = random.once_in(2);
    for byte in bytes {
        match upper {
            true => digits.push_str(&format!("{byte:02X}")),
            false => digits.push_str(&format!("{byte:02x}")),
        }
    }
    digits
}

/// Bytes as a word: as they are where they can stand in a line, else, and at
/// times anyway, `hex:` and their hex digits.
fn word(bytes: &[u8], random: &mut Random) -> Vec<u8> {
    let parts = bytes.iter().any(|byte| matches!(byte, b' ' | b'\n'));
    let plain = !parts && !bytes.is_empty() && !bytes.starts_with(b"hex:");
    if plain && !random.once_in(4) {
        return bytes.to_vec();
    }
    format!("hex:{}", hex(bytes, random)).into_bytes()
}

/// HEX: hex digits, `-` for none.
fn digits(bytes: &[u8], random: &mut Random) -> String {
    match bytes.is_empty() {
        true => "-".to_string(),
        false => hex(bytes, random),
    }
}

fn joined(words: &[&[u8]]) -> Vec<u8> {
    words.join(&b' ')
}

/// The line of a call.
pub fn call_line(call: &Call, random: &mut Random) -> Vec<u8> {
    match call {
        Call::Tick { second } => format!("tick {second}").into_bytes(),
        Call::ClockLost => b"lost".to_vec(),
        Call::TakeFile { name, body } => {
            let name = word(name, random);
            joined(&[b"take", &name, digits(body, random).as_bytes()])
        }
        Call::TakeResponse { boundary, response } => {
            let boundary = word(boundary, random);
            joined(&[b"response", &boundary, digits(response, random).as_bytes()])
        }
        Call::UpdateFailed { status } => format!("failure update {status}").into_bytes(),
        Call::FixedFailed { status } => format!("failure fixed {status}").into_bytes(),
        Call::Due => b"due".to_vec(),
        Call::Ceiling { slot } => format!("ceiling {slot}").into_bytes(),
        Call::Command => b"command".to_vec(),
        Call::FreeBlocks => b"free".to_vec(),
    }
}

/// The line of installing: a plain ID is written with its digits' characters,
/// one that has no such form as `hex:`.
pub fn install_line(id: &[u8], mac: &[u8], settings: Settings, random: &mut Random) -> Vec<u8> {
    let plain = !id.is_empty() && id.iter().all(|digit| *digit <= 9);
    let id = match plain && !random.once_in(4) {
        true => id.iter().map(|digit| b'0' + digit).collect(),
        false => format!("hex:{}", hex(id, random)).into_bytes(),
    };
    let Settings {
        panel,
        inverter,
        minutes,
    } = settings;
    let numbers = [panel, inverter, minutes].map(|number| number.to_string());
    joined(&[
        b"install",
        &id,
        &word(mac, random),
        numbers[0].as_bytes(),
        numbers[1].as_bytes(),
        numbers[2].as_bytes(),
    ])
}

/// The line of a request for a segment.
pub fn request_line(segment: &[u8], random: &mut Random) -> Vec<u8> {
    joined(&[b"request", &word(segment, random)])
}

/// Lines that are no call.
pub const NO_CALLS: [&[u8]; 15] = [
    b"nothing",
    b"tick",
    b"tick ",
    b"tick -1",
    b"tick 18446744073709551616",
    b"due now",
    b" due",
    b"take a",
    b"take a 0",
    b"response B",
    b"response B 0d0",
    b"response  00",
    b"failure both 0",
    b"store 32769 0",
    b"request ",
];
