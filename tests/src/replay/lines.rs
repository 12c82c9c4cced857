//! A line of a list of calls, read as the README describes it.

use crate::call::Call;
use crate::firmware::Settings;

/// The longest store.
const STORE_MAX: u64 = 32_768;

/// What a line asks for.
pub enum Asked {
    Install {
        id: Vec<u8>,
        mac: Vec<u8>,
        settings: Settings,
    },
    Store {
        length: usize,
        byte: u8,
    },
    Byte {
        index: u64,
        value: u8,
    },
    OfUnit(OfUnit),
}

/// What only a unit can answer.
pub enum OfUnit {
    Call(Call),
    Request { segment: Vec<u8> },
    State,
    Block { month: u64 },
}

/// A number of 64 bits, with any zeros before it and no sign.
fn number(word: &[u8]) -> Option<u64> {
    let digits = word.iter().all(u8::is_ascii_digit);
    let text = std::str::from_utf8(word).ok().filter(|_| digits)?;
    text.parse().ok()
}

fn byte(word: &[u8]) -> Option<u8> {
    number(word)?.try_into().ok()
}

/// Hex digits of either case, two to a byte.
fn hex(digits: &[u8]) -> Option<Vec<u8>> {
    let digit = |byte: u8| char::from(byte).to_digit(16).map(|value| value as u8);
    let byte = |pair: &[u8]| match *pair {
        [high, low] => Some(16 * digit(high)? + digit(low)?),
        _ => None,
    };
    digits.chunks(2).map(byte).collect()
}

/// MAC, NAME, BOUNDARY and SEGMENT: `hex:` and hex digits, or the bytes themselves.
fn bytes(word: &[u8]) -> Option<Vec<u8>> {
    match word.strip_prefix(b"hex:") {
        Some(digits) => hex(digits),
        None if word.is_empty() => None,
        None => Some(word.to_vec()),
    }
}

/// ID: the same, but the characters 0-9 stand for their values.
fn digits(word: &[u8]) -> Option<Vec<u8>> {
    let mut bytes = bytes(word)?;
    if !word.starts_with(b"hex:") {
        let characters = bytes.iter_mut().filter(|byte| byte.is_ascii_digit());
        characters.for_each(|byte| *byte -= b'0');
    }
    Some(bytes)
}

/// HEX: the bytes of a body or a response, `-` for none.
fn body(word: &[u8]) -> Option<Vec<u8>> {
    match word {
        b"" => None,
        b"-" => Some(Vec::new()),
        _ => hex(word),
    }
}

fn call(words: &[&[u8]]) -> Option<Call> {
    Some(match *words {
        [b"tick", second] => Call::Tick {
            second: number(second)?,
        },
        [b"lost"] => Call::ClockLost,
        [b"take", name, hex] => Call::TakeFile {
            name: bytes(name)?,
            body: body(hex)?,
        },
        [b"response", boundary, hex] => Call::TakeResponse {
            boundary: bytes(boundary)?,
            response: body(hex)?,
        },
        [b"failure", b"update", status] => Call::UpdateFailed {
            status: number(status)?,
        },
        [b"failure", b"fixed", status] => Call::FixedFailed {
            status: number(status)?,
        },
        [b"due"] => Call::Due,
        [b"ceiling", slot] => Call::Ceiling {
            slot: number(slot)?,
        },
        [b"command"] => Call::Command,
        [b"free"] => Call::FreeBlocks,
        _ => return None,
    })
}

fn of_unit(words: &[&[u8]]) -> Option<OfUnit> {
    Some(match *words {
        [b"request", segment] => OfUnit::Request {
            segment: bytes(segment)?,
        },
        [b"state"] => OfUnit::State,
        [b"block", month] => OfUnit::Block {
            month: number(month)?,
        },
        _ => OfUnit::Call(call(words)?),
    })
}

/// 'Words are parted by one space.' Nothing for a line that asks for nothing
/// that there is.
pub fn asked(line: &[u8]) -> Option<Asked> {
    let words: Vec<&[u8]> = line.split(|byte| *byte == b' ').collect();
    Some(match words[..] {
        [b"install", id, mac, panel, inverter, minutes] => Asked::Install {
            id: digits(id)?,
            mac: bytes(mac)?,
            settings: Settings::of(number(panel)?, number(inverter)?, number(minutes)?),
        },
        [b"store", length, value] => Asked::Store {
            length: number(length).filter(|length| *length <= STORE_MAX)? as usize,
            byte: byte(value)?,
        },
        [b"byte", index, value] => Asked::Byte {
            index: number(index)?,
            value: byte(value)?,
        },
        _ => Asked::OfUnit(of_unit(&words)?),
    })
}
