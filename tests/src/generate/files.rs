//! Files for one plant, aimed at the machine's clock and floor: whole and
//! damaged ones.

use super::almanac::{self, first_slot, slots, some_moment, MONTHS, SLOTS};
use super::damage::all_damage;
use super::draft::{ascii, Draft};
use super::random::Random;
use super::shapes::Shape;
use crate::reference::schedule::month_of_second;
use crate::reference::Machine;

/// A month as far from the clock's as the shape reaches, no later than `last`.
fn near_month(machine: &Machine, now: u64, shape: &Shape, last: u64, random: &mut Random) -> u64 {
    let month = u64::from(month_of_second(now));
    let (below, above) = shape.reach;
    let near = (month + random.below(below + above + 1)).saturating_sub(below);
    let floor = u64::from(machine.schedule.floor);
    let chosen = match random.below(12) {
        0 => floor,
        1 => floor.saturating_sub(1),
        2 => floor + 15,
        3 => floor + 16,
        4 | 5 => month,
        _ => near,
    };
    chosen.min(last)
}

/// The first month of a yearly file: an April near the clock for the most
/// part, or any near month.
fn yearly_first(machine: &Machine, now: u64, shape: &Shape, random: &mut Random) -> u64 {
    let last = MONTHS - 13;
    let month = near_month(machine, now, shape, last, random);
    let april = month / 12 * 12 + 3;
    match random.below(6) {
        0..3 => april.min(last),
        // Twelve months below the floor and one at it.
        3 => u64::from(machine.schedule.floor)
            .saturating_sub(random.pick(&[0, 1, 12, 13]))
            .min(last),
        _ => month,
    }
}

/// Start slot and n of an update: about now, across a month's end, nothing.
fn span(machine: &Machine, now: u64, shape: &Shape, random: &mut Random) -> (u64, u64) {
    let n = match random.below(6) {
        0 => 0,
        1 => 336,
        2 => random.pick(&[1, 2, 48, 335]),
        _ => random.below(337),
    };
    let month = near_month(machine, now, shape, MONTHS - 1, random);
    let slot = match random.below(6) {
        0..2 => now / 1_800 + random.below(48),
        2 => (now / 1_800).saturating_sub(random.below(400)),
        3 | 4 => {
            let end = first_slot(month) + slots(month) as u64;
            end.saturating_sub(random.below(n + 2))
        }
        _ => first_slot(month) + random.below(slots(month) as u64),
    };
    (slot.min(SLOTS - n.max(1)), n)
}

/// The next access: soon, in some days, far off, past, or anywhere.
fn next_access(now: u64, random: &mut Random) -> u64 {
    let last = SLOTS * 1_800 - 1;
    let next = match random.below(8) {
        0 => now + random.below(7_200),
        1..5 => now + random.between(86_400, 60 * 86_400),
        5 => last,
        6 => now.saturating_sub(random.below(86_400)),
        _ => some_moment(random),
    };
    next.min(last)
}

/// Flags and segment digits out of few, so that they often meet.
fn few_flags(random: &mut Random) -> u8 {
    match random.once_in(4) {
        true => random.below(10) as u8,
        false => random.below(3) as u8,
    }
}

fn draft(format: u16, machine: &Machine, now: u64, shape: &Shape, random: &mut Random) -> Draft {
    let plant = &machine.id;
    let schedule = random.digits(10);
    match format {
        201 => {
            let first = yearly_first(machine, now, shape, random);
            let mut draft = Draft::yearly(plant, &schedule, first, random);
            draft.name.segment[3] = b'0' + few_flags(random);
            draft
        }
        202 => {
            let month = near_month(machine, now, shape, MONTHS - 1, random);
            Draft::monthly(plant, &schedule, month, random)
        }
        203 => {
            let span = span(machine, now, shape, random);
            let mut draft = Draft::update(plant, &schedule, span, random);
            draft.records[0].flag = vec![few_flags(random)];
            draft.records[0].next = almanac::moment(next_access(now, random));
            draft
        }
        _ => Draft::registration(plant, random),
    }
}

/// Name and body.
type File = (Vec<u8>, Vec<u8>);

fn whole(draft: &Draft) -> File {
    (draft.name.bytes(), draft.body())
}

/// A file with one kind of damage.
fn damaged(machine: &Machine, now: u64, shape: &Shape, random: &mut Random) -> File {
    let all: Vec<_> = all_damage().collect();
    let damage = random.pick(&all);
    let mut format = random.pick(&[201, 202, 202, 203, 203, 203, 203]);
    if !damage.formats.contains(&format) {
        format = random.pick(damage.formats);
    }
    let mut draft = draft(format, machine, now, shape, random);
    (damage.apply)(&mut draft, random);
    whole(&draft)
}

/// A file with a byte of its name or of its body's head changed.
fn changed(machine: &Machine, now: u64, shape: &Shape, random: &mut Random) -> File {
    let format = random.pick(&[202, 203, 203]);
    let draft = draft(format, machine, now, shape, random);
    let (mut name, mut body) = whole(&draft);
    let bytes = match random.once_in(3) {
        true => &mut name,
        false => &mut body,
    };
    let reach = random.pick(&[60, bytes.len()]).min(bytes.len());
    let place = random.below(reach as u64) as usize;
    let end = random.pick(&[10, 102, 256]);
    bytes[place] = random.below(end) as u8;
    (name, body)
}

/// A registration, which no unit takes: for its plant, for another, broken.
fn registration(machine: &Machine, random: &mut Random) -> Draft {
    let mut draft = Draft::registration(&machine.id, random);
    match random.below(4) {
        0 => {}
        1 => draft = Draft::valid(301, random),
        2 => draft.records[0].flag = vec![random.between(2, 255) as u8],
        _ => draft.short = random.between(1, 33) as usize,
    }
    draft
}

/// A file to be taken. The weights stand for: yearly, monthly, update, with
/// one kind of damage, with a byte changed, and those that a unit doesn't take
/// although they read well.
pub fn file(machine: &Machine, last: u64, shape: &Shape, random: &mut Random) -> File {
    let now = machine.clock.unwrap_or(last);
    match random.weighted(&shape.files) {
        0 => whole(&draft(201, machine, now, shape, random)),
        1 => whole(&draft(202, machine, now, shape, random)),
        2 => whole(&draft(203, machine, now, shape, random)),
        3 => damaged(machine, now, shape, random),
        4 => changed(machine, now, shape, random),
        _ if random.once_in(2) => whole(&registration(machine, random)),
        _ => {
            let mut other = Draft::valid(203, random);
            if other.owner == machine.id {
                other.name.plant = ascii(&random.digits(26));
            }
            whole(&other)
        }
    }
}
