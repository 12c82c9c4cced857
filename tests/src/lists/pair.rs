//! The unit with its store, and the machine that was given the same calls.

use super::branches::{self, Before};
use super::counts::Counts;
use crate::call::{Answer, Call};
use crate::firmware::{self, Unit, Written, BLOCK_LENGTH};
use crate::generate::calls::Installing;
use crate::generate::{outputs, Random};
use crate::lent::Lent;
use crate::reference::request::request;
use crate::reference::response::open;
use crate::reference::schedule::months_of;
use crate::reference::soundness::{machine_of, verdict};
use crate::reference::Machine;

/// Single ticks that stand for one longer tick, on average over the ticks.
const SINGLE_TICKS: u64 = 10;
/// The longest tick that is made again by single ones.
const SINGLE_MAX: u64 = 5_000;

pub struct Pair {
    pub machine: Machine,
    pub unit: Unit,
    pub store: Lent,
    /// ID, MAC and settings as installed: no call changes them.
    installed: Unit,
}

/// Nothing where both are the same, else a line that names both.
pub fn same<T: PartialEq + std::fmt::Debug>(
    what: &str,
    library: T,
    machine: T,
) -> Result<(), String> {
    match library == machine {
        true => Ok(()),
        false => Err(format!(
            "{what}: library {library:?}, reference {machine:?}"
        )),
    }
}

/// A flag as the unit has it.
fn flag(flag: Option<u8>) -> u8 {
    flag.unwrap_or(firmware::NO_FLAG)
}

/// Demands that the unit's fields are the machine's.
pub fn agree(unit: &Unit, machine: &Machine) -> Result<(), String> {
    let requests = &machine.requests;
    same("clock set", unit.clock_set == 1, machine.clock.is_some())?;
    let clock = machine.clock.unwrap_or(0);
    same("clock", u64::from(unit.clock), clock)?;
    same("floor", unit.floor, machine.schedule.floor)?;
    same("w", unit.wanted_flag, flag(requests.wanted_flag))?;
    same("h", unit.held_flag, flag(requests.held_flag))?;
    same("k", unit.failures, requests.failures)?;
    same("f", unit.fixed_at, requests.fixed_at)?;
    same("u", unit.update_at, requests.update_at)?;
    same("command", unit.command, machine.command)?;
    let mut months: Vec<u16> = unit.held().map(|(month, _)| month).collect();
    months.sort_unstable();
    let held: Vec<u16> = machine.schedule.held().into_iter().collect();
    same("held months", months, held)
}

/// Demands that the block of each held month has the machine's rates. A store
/// of another length than 01's has no block.
pub fn blocks_agree(unit: &Unit, store: &[u8], machine: &Machine) -> Result<(), String> {
    for (month, block) in unit.held() {
        let bytes = &store[block * BLOCK_LENGTH..][..BLOCK_LENGTH];
        let rates = machine.schedule.block_in_layers(month);
        let place = (0..BLOCK_LENGTH).find(|place| bytes[*place] != rates[*place]);
        if let Some(place) = place {
            let what = format!("month {month}, byte {place} of its block {block}");
            same(&what, bytes[place], rates[place])?;
        }
    }
    Ok(())
}

/// 'File taken alone writes to it, only in blocks of months that its file
/// covers'; and a response taken, as its file.
pub fn writes_agree(
    unit: &Unit,
    machine: &Machine,
    call: &Call,
    answer: Answer,
    [before, after]: [&[u8]; 2],
) -> Result<(), String> {
    if after == before {
        return Ok(());
    }
    let taken = call.takes_a_file() && answer == Answer::Accepted;
    let Some(file) = machine.schedule.files.last().filter(|_| taken) else {
        return Err("store: library wrote, reference doesn't".to_string());
    };
    let covered = months_of(file);
    let mut may_change = [false; firmware::BLOCK_COUNT];
    for (month, block) in unit.held() {
        may_change[block] = covered.contains(&month);
    }
    let blocks = after.chunks(BLOCK_LENGTH).zip(before.chunks(BLOCK_LENGTH));
    for (block, (after, before)) in blocks.enumerate() {
        if !may_change[block] && after != before {
            return Err(format!("store: library wrote to block {block}"));
        }
    }
    Ok(())
}

impl Pair {
    /// Installs both, from values that they accept.
    pub fn install(values: &Installing) -> Result<Pair, String> {
        let done = firmware::install(&values.id, &values.mac, values.settings);
        same("installing", done.cause, 0)?;
        let store = &values.store;
        let machine = Machine::install(&values.id, &values.mac, values.settings, store.len())
            .map_err(|cause| format!("installing: library 0, reference {cause}"))?;
        same("ID", done.unit.id.as_slice(), &values.id)?;
        same("MAC", done.unit.mac.as_slice(), &values.mac)?;
        same("settings", done.unit.settings, values.settings)?;
        agree(&done.unit, &machine)?;
        Ok(Pair::of(machine, done.unit, store))
    }

    /// A unit and store with the machine that they stand for.
    pub fn of(machine: Machine, unit: Unit, store: &[u8]) -> Pair {
        Pair {
            machine,
            unit,
            store: Lent::with(store),
            installed: unit,
        }
    }

    /// Gives the call to both and compares what it did.
    pub fn call(
        &mut self,
        call: &Call,
        random: &mut Random,
        counts: &mut Counts,
    ) -> Result<(), String> {
        let told = |difference: String| format!("{}: {difference}", call.line());
        self.try_call(call, random, counts).map_err(told)
    }

    fn try_call(
        &mut self,
        call: &Call,
        random: &mut Random,
        counts: &mut Counts,
    ) -> Result<(), String> {
        let unit_before = self.unit;
        let store_before = self.store.held().to_vec();
        let before = Before::of(&self.machine);
        let answer = firmware::answers::answer(&mut self.unit, self.store.room(), call)?;
        let due = self.machine.answer(call);
        same("answer", answer, due)?;
        if due != Answer::Accepted {
            same("unit", self.unit, unit_before)?;
        }
        let stores = [store_before.as_slice(), self.store.held()];
        writes_agree(&self.unit, &self.machine, call, due, stores)?;
        agree(&self.unit, &self.machine)?;
        if let Call::TakeResponse { boundary, response } = call {
            self.taken_as_file(unit_before, store_before, (boundary, response), due, counts)?;
        }
        counts.call(call.title(), due);
        branches::note(&before, &self.machine, call, due, counts);
        if let (Call::Tick { second }, Answer::Accepted) = (call, due) {
            self.tick_by_seconds(&unit_before, *second, random, counts)?;
        }
        Ok(())
    }

    /// 'Taking a response is then taking that name and file': answer, unit and
    /// store are those that its file, taken in its place, leaves.
    fn taken_as_file(
        &self,
        unit: Unit,
        mut store: Vec<u8>,
        (boundary, response): (&[u8], &[u8]),
        answer: Answer,
        counts: &mut Counts,
    ) -> Result<(), String> {
        let Ok(part) = open(boundary, response) else {
            return Ok(());
        };
        let done = firmware::take_file(unit, part.name, part.file, &mut store);
        counts.responses += 1;
        same("its file's answer", done.cause, u32::from(answer.cause()))?;
        same("unit after its file", done.unit, self.unit)?;
        same("store after its file", store == self.store.held(), true)
    }

    /// Demand 3: 'an accepted tick over n seconds and n one-second ticks in
    /// its place end with the same'. Made for a sample, long ticks less often.
    fn tick_by_seconds(
        &mut self,
        before: &Unit,
        second: u64,
        random: &mut Random,
        counts: &mut Counts,
    ) -> Result<(), String> {
        let clock = u64::from(before.clock);
        if before.clock_set == 0 || second <= clock || second - clock > SINGLE_MAX {
            return Ok(());
        }
        if random.below(second - clock) >= SINGLE_TICKS {
            return Ok(());
        }
        let store = self.store.held().to_vec();
        let mut unit = *before;
        for now in clock + 1..=second {
            let done = firmware::tick(unit, now, self.store.room());
            same("one-second tick", done.cause, 0)?;
            unit = done.unit;
        }
        counts.single_ticks += 1;
        counts.longest_single = counts.longest_single.max(second - clock);
        same("unit after one-second ticks", unit, self.unit)?;
        same(
            "store after one-second ticks",
            self.store.held() == store,
            true,
        )
    }

    /// After the list: blocks, soundness, what no call changes, the request.
    pub fn settle(&mut self, random: &mut Random) -> Result<(), String> {
        let store = self.store.held();
        blocks_agree(&self.unit, store, &self.machine)?;
        let sound = verdict(&self.unit, Some(store));
        let cause = sound.err().map_or(0, u32::from);
        same("check", firmware::check(self.unit, store), cause)?;
        let length_fits = store.len() == firmware::STORE_LENGTH;
        same("soundness after the list", sound.is_ok(), length_fits)?;
        same("bytes around the store", self.store.margins_stayed(), true)?;
        let Unit {
            id, mac, settings, ..
        } = self.unit;
        same("ID", id, self.installed.id)?;
        same("MAC", mac, self.installed.mac)?;
        same("settings", settings, self.installed.settings)?;
        check_request(&self.unit, random)?;
        self.check_view()
    }

    /// The unit read back as a machine holds what the list's machine holds.
    fn check_view(&self) -> Result<(), String> {
        if self.store.held().len() != firmware::STORE_LENGTH {
            return Ok(());
        }
        let view = machine_of(&self.unit, self.store.held());
        let made_up = &self.machine.schedule.hollow;
        same(
            "months without a rate",
            view.schedule.hollow.is_subset(made_up),
            true,
        )?;
        agree(&self.unit, &view)
    }
}

/// The request from the unit, into a buffer that may be too short.
pub fn check_request(unit: &Unit, random: &mut Random) -> Result<(), String> {
    let (_, _, segment, room, _) = outputs::request(random);
    let expected = match verdict(unit, None) {
        Ok(()) => request(&unit.id, &unit.mac, &segment, room),
        Err(cause) => Err(cause),
    };
    let mut buffer = Lent::new(room);
    let written = firmware::request(*unit, &segment, buffer.room());
    same("request", written, Written::of(&expected))?;
    buffer.check(&expected);
    Ok(())
}
