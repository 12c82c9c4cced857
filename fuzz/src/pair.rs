//! The library's unit and store, and the machine that gets the same calls.

use compare::call::{Answer, Call};
use compare::firmware::{self, Settings, Unit, BLOCK_LENGTH, STORE_LENGTH};
use compare::reference::machine::Machine;
use compare::reference::requests::Requests;

const MAC: &[u8] = b"012389ABCDEF";

pub struct Pair {
    pub unit: Unit,
    pub store: Vec<u8>,
    pub machine: Machine,
}

impl Pair {
    /// Both installed with lawful values.
    pub fn install(id: &[u8], settings: Settings, store: Vec<u8>) -> Pair {
        let done = firmware::install(id, MAC, settings);
        assert_eq!(done.cause, 0);
        let machine = Machine::install(id, MAC, settings, store.len());
        Pair {
            unit: done.unit,
            store,
            machine: machine.expect("lawful values"),
        }
    }

    /// The library's answer and the machine's.
    pub fn answers(&mut self, call: &Call) -> [Answer; 2] {
        let answer = firmware::answers::answer(&mut self.unit, &mut self.store, call);
        let answer = answer.expect("an answer of 01");
        [answer, self.machine.answer(call)]
    }

    /// Clock, floor, w, h, k, f, u and command must be the machine's.
    pub fn compare_values(&self, lines: &dyn Fn() -> Vec<String>) {
        let (unit, machine) = (&self.unit, &self.machine);
        let flag = |flag: u8| (flag != firmware::NO_FLAG).then_some(flag);
        let requests = Requests {
            wanted_flag: flag(unit.wanted_flag),
            held_flag: flag(unit.held_flag),
            failures: unit.failures,
            fixed_at: unit.fixed_at,
            update_at: unit.update_at,
        };
        let clock = (unit.clock_set == 1).then_some(u64::from(unit.clock));
        let values = (clock, unit.floor, unit.command, requests);
        let floor = machine.schedule.floor;
        let due = (machine.clock, floor, machine.command, machine.requests);
        assert_eq!(values, due, "{:#?}", lines());
    }

    /// Held months and their blocks must be the machine's.
    pub fn compare_months(&self) {
        let cause = if self.store.len() == STORE_LENGTH {
            0
        } else {
            3
        };
        assert_eq!(firmware::check(self.unit, &self.store), cause);
        let mut held: Vec<_> = self.unit.held().collect();
        held.sort();
        let months = held.iter().map(|(month, _)| *month);
        assert!(months.eq(self.machine.schedule.held()), "held months");
        for (month, block) in held {
            let bytes = &self.store[block * BLOCK_LENGTH..][..BLOCK_LENGTH];
            let due = self.machine.schedule.block_in_layers(month);
            assert!(bytes == due, "rates of month {month}");
        }
    }
}
