//! The library and the unit with fixed arrays side by side: one plant, the
//! same calls, and the demand that they hold the same.

use crate::call::Call;
use crate::firmware::{self, Settings};
use crate::fixed::{self, Month, BLOCK};

/// Both units, and the library's store.
#[derive(Clone)]
pub struct Both {
    pub unit: firmware::Unit,
    pub store: Vec<u8>,
    pub fixed: fixed::Unit,
}

/// A cause number as the library gives it.
fn number<T>(answer: &Result<T, u8>) -> u32 {
    match answer {
        Ok(_) => 0,
        Err(cause) => u32::from(*cause),
    }
}

impl Both {
    /// Both installed with lawful values.
    pub fn install(id: &[u8], mac: &[u8], settings: Settings) -> Both {
        let done = firmware::install(id, mac, settings);
        assert_eq!(done.cause, 0, "lawful values");
        Both {
            unit: done.unit,
            store: vec![0; firmware::STORE_LENGTH],
            fixed: fixed::Unit::install(id, mac, settings).expect("lawful values"),
        }
    }

    /// The library's answer must be the other's; its cause.
    fn settle(&mut self, done: firmware::Done, answer: Result<(), u8>) -> u32 {
        assert_eq!(done.cause, number(&answer), "{:?}", self.unit);
        self.unit = done.unit;
        done.cause
    }

    pub fn tick(&mut self, second: u64) -> u32 {
        let done = firmware::tick(self.unit, second, &self.store);
        let answer = self.fixed.tick(second);
        self.settle(done, answer)
    }

    pub fn take_file(&mut self, name: &[u8], body: &[u8]) -> u32 {
        let done = firmware::take_file(self.unit, name, body, &mut self.store);
        let answer = self.fixed.take_file(name, body);
        self.settle(done, answer)
    }

    pub fn take_response(&mut self, boundary: &[u8], response: &[u8]) -> u32 {
        let done = firmware::take_response(self.unit, boundary, response, &mut self.store);
        let answer = self.fixed.take_response(boundary, response);
        self.settle(done, answer)
    }

    /// Any call to both, or all questions; its cause.
    pub fn call(&mut self, call: &Call) -> u32 {
        let unit = self.unit;
        let (done, answer) = match call {
            Call::Tick { second } => return self.tick(*second),
            Call::TakeFile { name, body } => return self.take_file(name, body),
            Call::TakeResponse { boundary, response } => {
                return self.take_response(boundary, response)
            }
            Call::ClockLost => (firmware::clock_lost(unit), self.fixed.clock_lost()),
            Call::UpdateFailed { status } => (
                firmware::update_failed(unit, *status),
                self.fixed.update_failed(*status),
            ),
            Call::FixedFailed { status } => (
                firmware::fixed_failed(unit, *status),
                self.fixed.fixed_failed(*status),
            ),
            Call::Ceiling { slot } => {
                self.ask(*slot);
                return 0;
            }
            Call::Due | Call::Command | Call::FreeBlocks => {
                self.ask(0);
                return 0;
            }
        };
        self.settle(done, answer)
    }

    /// The library's held months with their blocks, by rising month.
    fn held_by_library(&self) -> Vec<(u16, &[u8])> {
        let block = |place: usize| &self.store[place * BLOCK..(place + 1) * BLOCK];
        let held = self.unit.held();
        let mut months: Vec<_> = held.map(|(month, place)| (month, block(place))).collect();
        months.sort();
        months
    }

    /// The same of the fixed arrays.
    fn held_by_arrays<'a>(&'a self) -> Vec<(u16, &'a [u8])> {
        let held = self.fixed.months.0.iter().flatten();
        let part = |month: &'a Month| (month.number, &month.rates[..]);
        let mut months: Vec<_> = held.map(part).collect();
        months.sort();
        months
    }

    /// Both must hold the same, in every value and every rate.
    pub fn compare(&self) {
        let (unit, fixed) = (&self.unit, &self.fixed);
        let clock = (unit.clock_set == 1).then_some(unit.clock);
        assert_eq!(clock, fixed.clock);
        assert_eq!((unit.floor, unit.command), (fixed.floor, fixed.command));
        let requests = fixed::Requests {
            wanted_flag: unit.wanted_flag,
            held_flag: unit.held_flag,
            failures: unit.failures,
            fixed_at: unit.fixed_at,
            update_at: unit.update_at,
        };
        assert_eq!(requests, fixed.requests);
        let plant = fixed::Plant::of(unit.id, unit.mac, unit.settings);
        assert_eq!(plant, Some(fixed.plant));
        assert!(self.held_by_library() == self.held_by_arrays(), "months");
    }

    /// Both must answer every question alike.
    pub fn ask(&self, slot: u64) {
        let answer = firmware::ceiling(self.unit, slot, &self.store);
        let due = self.fixed.ceiling(slot);
        let rated = due.ok().flatten();
        let expected = firmware::CeilingAnswer {
            cause: number(&due),
            has_rate: u32::from(rated.is_some()),
            rate: rated.map_or(0, |ceiling| u32::from(ceiling.rate)),
            percent: rated.map_or(0, |ceiling| ceiling.percent),
        };
        assert_eq!(answer, expected, "slot {slot}");
        let due = self.fixed.due();
        let (kind, flag) = match due {
            Ok(fixed::Due::Update) => (firmware::UPDATE, 0),
            Ok(fixed::Due::Fixed(flag)) => (firmware::FIXED, u32::from(flag)),
            _ => (firmware::NOTHING, 0),
        };
        let cause = number(&due);
        let expected = firmware::DueAnswer { cause, kind, flag };
        assert_eq!(firmware::due(self.unit), expected);
        for (answer, due) in [
            (firmware::command(self.unit), self.fixed.command()),
            (firmware::free_blocks(self.unit), self.fixed.free_blocks()),
        ] {
            assert_eq!(answer.cause, number(&due));
            assert_eq!(answer.value, due.unwrap_or(0));
        }
        let checked = firmware::check(self.unit, &self.store);
        assert_eq!(checked, number(&self.fixed.check()));
    }
}
