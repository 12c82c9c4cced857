//! Which branch of 01's rules a call took, told by the machine before and
//! after it.

use std::collections::BTreeSet;

use super::counts::Counts;
use crate::call::{Answer, Call};
use crate::reference::calendar::END;
use crate::reference::requests::{is_client_error, Reason, Requests};
use crate::reference::response::{open, Broken};
use crate::reference::schedule::{month_of_second, months_of};
use crate::reference::{read, Machine, Segment};
use crate::tally::Branches;

/// Every branch that must come.
pub const BRANCHES: [&str; 70] = [
    "made up: a month held without a rate",
    "tick: clock was unset",
    "tick: the same second",
    "tick: back",
    "tick: forward within the month",
    "tick: forward over a month's end",
    "tick: floor raised",
    "tick: a held month given up",
    "tick: command up",
    "tick: command down",
    "clock lost: was set",
    "clock lost: was unset",
    "file: yearly",
    "file: monthly",
    "file: update",
    "file: update with another flag than w",
    "file: update with the flag w",
    "file: update without rates",
    "file: update over a month's end",
    "file: wholly below floor",
    "file: partly below floor",
    "file: a month held before",
    "file: a month not held before",
    "file: 16 months held after it",
    "file: without rates, 16 months held",
    "file: yearly, refused with 14",
    "file: monthly, refused with 14",
    "file: update, refused with 14",
    "file: registration for the plant, refused with 7",
    "file: registration for another plant, refused with 7",
    "file: broken registration, refused with 7",
    "response: its boundary's length",
    "response: a byte of its boundary",
    "response: its end",
    "response: its first line",
    "response: no empty line",
    "response: no length",
    "response: two lengths",
    "response: a length's digits",
    "response: no disposition",
    "response: two dispositions",
    "response: no filename=",
    "response: another length than its file's",
    "response: well formed, 0D 0A at its end",
    "response: well formed, no 0D 0A at its end",
    "response: yearly taken",
    "response: monthly taken",
    "response: update taken",
    "response: its file refused with 14",
    "update failed: 400-499",
    "update failed: other",
    "update failed: u past T",
    "fixed failed: 400-499",
    "fixed failed: k below 5",
    "fixed failed: k is 5",
    "fixed failed: f past T",
    "due: update",
    "due: fixed in the window",
    "due: fixed by k above 0",
    "due: nothing, w is none",
    "due: nothing, w is h",
    "due: nothing, clock before f",
    "due: nothing, outside the window",
    "ceiling: a rate above 0",
    "ceiling: rate 0",
    "ceiling: no rate",
    "ceiling: no rate, below floor",
    "free blocks: all",
    "free blocks: some",
    "free blocks: none",
];

/// The check digits, for each of which something must be due in the window.
pub const WINDOWS: [&str; 10] = [
    "check digit 0",
    "check digit 1",
    "check digit 2",
    "check digit 3",
    "check digit 4",
    "check digit 5",
    "check digit 6",
    "check digit 7",
    "check digit 8",
    "check digit 9",
];

/// The machine before a call, without its files.
pub struct Before {
    clock: Option<u64>,
    floor: u16,
    held: BTreeSet<u16>,
    requests: Requests,
    command: u32,
}

impl Before {
    pub fn of(machine: &Machine) -> Before {
        Before {
            clock: machine.clock,
            floor: machine.schedule.floor,
            held: machine.schedule.held(),
            requests: machine.requests,
            command: machine.command,
        }
    }
}

/// What a registration, which no unit takes, would be refused with if it were
/// read; nothing of a name that is broken.
fn registration(machine: &Machine, name: &[u8], body: &[u8]) -> Option<&'static str> {
    match read(Some(&machine.id), name, body) {
        Ok(_) => Some("file: registration for the plant, refused with 7"),
        Err(7) => None,
        Err(8) => Some("file: registration for another plant, refused with 7"),
        Err(_) => Some("file: broken registration, refused with 7"),
    }
}

/// Counts the branches of a call, of a refused one only those of responses, of
/// cause 14 and of registrations.
pub fn note(before: &Before, machine: &Machine, call: &Call, answer: Answer, counts: &mut Counts) {
    let branches = &mut counts.branches;
    if let Call::TakeResponse { boundary, response } = call {
        note_response(machine, (boundary, response), answer, branches);
    }
    match (call, answer) {
        (Call::TakeFile { name, .. }, Answer::Refused(14)) => branches.add(match name[2] {
            b'1' => "file: yearly, refused with 14",
            b'2' => "file: monthly, refused with 14",
            _ => "file: update, refused with 14",
        }),
        (Call::TakeFile { name, body }, Answer::Refused(7)) if name.starts_with(b"301") => {
            if let Some(branch) = registration(machine, name, body) {
                branches.add(branch);
            }
        }
        (_, Answer::Refused(_)) => {}
        (Call::Tick { second }, _) => note_tick(before, machine, *second, branches),
        (Call::ClockLost, _) => branches.add(match before.clock {
            Some(_) => "clock lost: was set",
            None => "clock lost: was unset",
        }),
        (Call::TakeFile { .. } | Call::TakeResponse { .. }, _) => {
            note_file(before, machine, branches)
        }
        (Call::UpdateFailed { status } | Call::FixedFailed { status }, _) => {
            note_failure(before, machine, call, *status, branches)
        }
        (Call::Due, _) => note_due(before, machine, counts),
        (Call::Ceiling { slot }, Answer::Ceiling(rate)) => branches.add(match rate {
            Some((0, _)) => "ceiling: rate 0",
            Some(_) => "ceiling: a rate above 0",
            None if is_covered(machine, *slot) => "ceiling: no rate, below floor",
            None => "ceiling: no rate",
        }),
        (Call::FreeBlocks, _) => branches.add(match before.held.len() {
            0 => "free blocks: all",
            16 => "free blocks: none",
            _ => "free blocks: some",
        }),
        _ => {}
    }
}

fn note_failure(
    before: &Before,
    machine: &Machine,
    call: &Call,
    status: u64,
    branches: &mut Branches,
) {
    let update = matches!(call, Call::UpdateFailed { .. });
    branches.add(match (update, is_client_error(status)) {
        (true, true) => "update failed: 400-499",
        (true, false) => "update failed: other",
        (false, true) => "fixed failed: 400-499",
        (false, false) if before.requests.failures == 5 => "fixed failed: k is 5",
        (false, false) => "fixed failed: k below 5",
    });
    if update && machine.requests.update_at >= END {
        branches.add("update failed: u past T");
    }
    if !update && machine.requests.fixed_at >= END {
        branches.add("fixed failed: f past T");
    }
}

/// What breaks the form of a response, as the table has it.
fn broken_words(broken: Broken) -> &'static str {
    match broken {
        Broken::BoundaryLength => "response: its boundary's length",
        Broken::BoundaryByte => "response: a byte of its boundary",
        Broken::End => "response: its end",
        Broken::FirstLine => "response: its first line",
        Broken::NoEmptyLine => "response: no empty line",
        Broken::NoLength => "response: no length",
        Broken::TwoLengths => "response: two lengths",
        Broken::LengthDigits => "response: a length's digits",
        Broken::NoDisposition => "response: no disposition",
        Broken::TwoDispositions => "response: two dispositions",
        Broken::NoName => "response: no filename=",
        Broken::OtherLength => "response: another length than its file's",
    }
}

/// The branches of a response, where store and clock let it be looked at.
fn note_response(
    machine: &Machine,
    (boundary, response): (&[u8], &[u8]),
    answer: Answer,
    branches: &mut Branches,
) {
    if let Answer::Refused(3 | 5) = answer {
        return;
    }
    if let Err(broken) = open(boundary, response) {
        branches.add(broken_words(broken));
        return;
    }
    branches.add(match response.ends_with(b"\r\n") {
        true => "response: well formed, 0D 0A at its end",
        false => "response: well formed, no 0D 0A at its end",
    });
    match (answer, machine.schedule.files.last()) {
        (Answer::Refused(14), _) => branches.add("response: its file refused with 14"),
        (Answer::Accepted, Some(file)) => branches.add(match file.segment {
            Segment::Yearly { .. } => "response: yearly taken",
            Segment::Monthly { .. } => "response: monthly taken",
            _ => "response: update taken",
        }),
        _ => {}
    }
}

/// Does a file cover the slot, be it below the floor or not?
fn is_covered(machine: &Machine, slot: u64) -> bool {
    let files = machine.schedule.files.iter();
    files.flat_map(|file| &file.records).any(|record| {
        let start = u64::from(record.start_slot);
        (start..start + record.rates.len() as u64).contains(&slot)
    })
}

fn note_tick(before: &Before, machine: &Machine, second: u64, branches: &mut Branches) {
    branches.add(match before.clock {
        None => "tick: clock was unset",
        Some(clock) if second == clock => "tick: the same second",
        Some(clock) if second < clock => "tick: back",
        Some(clock) if month_of_second(clock) == month_of_second(second) => {
            "tick: forward within the month"
        }
        Some(_) => "tick: forward over a month's end",
    });
    if machine.schedule.floor > before.floor {
        branches.add("tick: floor raised");
    }
    if machine.schedule.held() != before.held {
        branches.add("tick: a held month given up");
    }
    if machine.command > before.command {
        branches.add("tick: command up");
    }
    if machine.command < before.command {
        branches.add("tick: command down");
    }
}

fn note_file(before: &Before, machine: &Machine, branches: &mut Branches) {
    let Some(file) = machine.schedule.files.last() else {
        return;
    };
    let months = months_of(file);
    match file.segment {
        Segment::Yearly { .. } => branches.add("file: yearly"),
        Segment::Monthly { .. } => branches.add("file: monthly"),
        _ => note_update(before, file.flag, months.len(), branches),
    }
    let (below, kept): (Vec<u16>, Vec<u16>) =
        months.iter().partition(|month| **month < before.floor);
    match (below.is_empty(), kept.is_empty()) {
        (false, true) => branches.add("file: wholly below floor"),
        (false, false) => branches.add("file: partly below floor"),
        _ => {}
    }
    if kept.iter().any(|month| before.held.contains(month)) {
        branches.add("file: a month held before");
    }
    if kept.iter().any(|month| !before.held.contains(month)) {
        branches.add("file: a month not held before");
    }
    if machine.schedule.held().len() == 16 {
        branches.add("file: 16 months held after it");
        if months.is_empty() {
            branches.add("file: without rates, 16 months held");
        }
    }
}

fn note_update(before: &Before, flag: Option<u8>, months: usize, branches: &mut Branches) {
    branches.add("file: update");
    branches.add(match flag == before.requests.wanted_flag {
        true => "file: update with the flag w",
        false => "file: update with another flag than w",
    });
    match months {
        0 => branches.add("file: update without rates"),
        1 => {}
        _ => branches.add("file: update over a month's end"),
    }
}

fn note_due(before: &Before, machine: &Machine, counts: &mut Counts) {
    let Some(clock) = before.clock else { return };
    let digit = machine.check_digit();
    let reason = before.requests.reason(clock, digit);
    if reason == Reason::Window {
        counts.windows.add(WINDOWS[usize::from(digit)]);
    }
    counts.branches.add(match reason {
        Reason::UpdateTime => "due: update",
        Reason::Window => "due: fixed in the window",
        Reason::Retry => "due: fixed by k above 0",
        Reason::NothingWanted => "due: nothing, w is none",
        Reason::AlreadyHeld => "due: nothing, w is h",
        Reason::NotYet => "due: nothing, clock before f",
        Reason::OutsideWindow => "due: nothing, outside the window",
    });
}
