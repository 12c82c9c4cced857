//! A list of calls made from an input's bytes: most of them near the clock
//! that the unit would have, some with any values.

use compare::call::Call;
use compare::generate::almanac;
use compare::generate::draft::{ascii, Draft, RecordParts};
use compare::generate::Random;

use crate::file::{address, change, lawful, raw};
use crate::input::Input;
use crate::response::{self, framed};

/// Calls of a list at most.
const CALLS_MAX: usize = 40;
const DAY: u64 = 86_400;
const SLOT: u64 = 1_800;
/// 21:10:00, where the window of check digit 0 begins, and its seconds.
const FIRST_WINDOW: u64 = (21 * 60 + 10) * 60;
const WINDOW: u64 = 20 * 60;
const END: u64 = almanac::SLOTS * SLOT;
/// April 2026, where the clock is thought to be before the first tick.
const START: u64 = 828_230_400;
const STATUSES: [u64; 8] = [0, 199, 300, 399, 400, 499, 500, 599];

/// The month of a second below the end.
fn month_of(second: u64) -> u64 {
    let digits = almanac::moment(second.min(END - 1));
    let pair = |place: usize| u64::from(digits[place]) * 10 + u64::from(digits[place + 1]);
    pair(2) * 12 + pair(4) - 1
}

/// The window of a check digit: its start and its end, and the seconds before
/// them, on the clock's day.
fn window_edge(clock: u64, digit: u8, which: u64) -> u64 {
    let start = (FIRST_WINDOW + SLOT * u64::from(digit)) % DAY;
    clock / DAY * DAY + start + which % 2 * WINDOW - which / 2 % 2
}

/// A second: near the clock, at an edge of slot, window or month, or any.
fn second(clock: u64, digit: u8, input: &mut Input) -> u64 {
    let kind = input.byte();
    let near = input.number(2);
    match kind % 8 {
        0 => clock + 1 + near % 16,
        1 => clock + near,
        2 => clock.saturating_sub(near),
        3 => clock / SLOT * SLOT + near % 64 * SLOT - u64::from(kind >> 7),
        4 => window_edge(clock, digit, near),
        5 => almanac::first_slot((month_of(clock) + near % 18).min(1_199)) * SLOT,
        6 => input.number(4),
        _ => input.number(8),
    }
}

/// A file of a format with no records yet.
fn blank(format: u16, count: u64) -> Draft {
    let mut draft = Draft::valid(301, &mut Random::new(0));
    draft.format = format;
    draft.name.format = format.to_string().into_bytes();
    draft.count = almanac::digits(count, 6);
    draft.records.clear();
    draft
}

/// A record of a whole month, its rates all one value.
fn month_record(month: u64, rate: u8) -> RecordParts {
    let mut record = RecordParts {
        schedule: vec![0; 10],
        start: almanac::month_start(month),
        count: almanac::digits(almanac::slots(month) as u64, 5),
        rates: vec![rate; almanac::slots(month)],
        ..RecordParts::default()
    };
    record.seal();
    record
}

/// 13 months or one month of a fixed schedule near the clock.
fn fixed_schedule(clock: u64, months: u64, input: &mut Input) -> Draft {
    let first = (month_of(clock) + input.below(20)).saturating_sub(2);
    let first = first.min(1_200 - months);
    let (format, segment) = match months {
        13 => (201, 9_990 + input.below(10)),
        _ => (202, first / 12 * 100 + first % 12 + 1),
    };
    let mut draft = blank(format, months);
    draft.name.segment = ascii(&almanac::digits(segment, 4));
    let rate = input.byte() % 101;
    let record = |month| month_record(month, rate);
    draft.records = (first..first + months).map(record).collect();
    draft
}

/// An update near the clock, its rates rising by a step.
fn update(clock: u64, input: &mut Input) -> Draft {
    let n = input.below(337);
    let slot = (clock / SLOT + input.number(2)).saturating_sub(1_000);
    let slot = slot.min(almanac::SLOTS - n.max(1));
    let (rate, step) = (u64::from(input.byte()), u64::from(input.byte()));
    let mut record = RecordParts {
        schedule: vec![0; 10],
        start: almanac::start(slot),
        count: almanac::digits(n, 5),
        rates: (0..n).map(|i| ((rate + i * step) % 101) as u8).collect(),
        flag: vec![input.byte() % 10],
        next: almanac::moment((clock + input.number(3)).min(END - 1)),
        ..RecordParts::default()
    };
    record.seal();
    let mut draft = blank(203, 1);
    draft.name.segment = b"0000".to_vec();
    draft.records.push(record);
    draft
}

/// Name and body of a file: near the clock, changed, or any bytes.
fn file(clock: u64, plant: &[u8], input: &mut Input) -> (Vec<u8>, Vec<u8>) {
    let kind = input.byte();
    if kind >= 240 {
        let length = input.byte().into();
        return raw(input.bytes(length));
    }
    let mut draft = match kind % 4 {
        0 => fixed_schedule(clock, 13, input),
        1 => fixed_schedule(clock, 1, input),
        2 => update(clock, input),
        _ => lawful(input),
    };
    address(&mut draft, plant);
    if kind >= 160 {
        change(&mut draft, input);
    }
    (draft.name.bytes(), draft.body())
}

/// A file taken, or a response around it, or one of any bytes.
fn taking(kind: u8, clock: u64, plant: &[u8], input: &mut Input) -> Call {
    if kind >= 240 {
        let length = input.byte().into();
        let (boundary, response) = response::raw(input.bytes(length));
        return Call::TakeResponse { boundary, response };
    }
    let (name, body) = file(clock, plant, input);
    if kind < 160 {
        return Call::TakeFile { name, body };
    }
    let (boundary, response) = framed(&name, &body, input);
    Call::TakeResponse { boundary, response }
}

fn status(input: &mut Input) -> u64 {
    let kind = input.byte();
    match kind {
        0..192 => STATUSES[usize::from(kind) % STATUSES.len()],
        192..240 => input.number(2) % 700,
        _ => input.number(8),
    }
}

fn slot(clock: u64, input: &mut Input) -> u64 {
    match input.byte() {
        0..224 => (clock / SLOT + input.number(2)).saturating_sub(2_000),
        _ => input.number(8),
    }
}

/// The calls of an input for a plant.
pub fn calls(plant: &[u8], input: &mut Input) -> Vec<Call> {
    let mut clock = START;
    let mut list = Vec::new();
    while !input.is_empty() && list.len() < CALLS_MAX {
        let kind = input.byte();
        let call = match kind % 16 {
            0..4 => Call::Tick {
                second: second(clock, plant[25], input),
            },
            4 => Call::ClockLost,
            5..10 => taking(kind, clock, plant, input),
            10 => Call::UpdateFailed {
                status: status(input),
            },
            11 | 12 => Call::FixedFailed {
                status: status(input),
            },
            13 => Call::Due,
            14 => Call::Ceiling {
                slot: slot(clock, input),
            },
            _ => Call::FreeBlocks,
        };
        if let Call::Tick { second } = call {
            clock = if second < END { second } else { clock };
        }
        list.push(call);
    }
    list
}
