//! The tick: the clock, the floor and the command over the seconds (01,
//! 'Tick t').

use super::calendar::{days_of_month, first_slot, SLOT_SECONDS};
use super::machine::Machine;
use super::plant::percent;
use super::schedule::{month_of_second, NO_RATE};

/// 'By at most 100' parts in a second.
const STEP: u64 = 100;
/// Up to so many seconds a tick is walked second by second.
const WALKED_SECONDS: u64 = 2_000;

/// The command after so many seconds toward a target: 'and stops there'.
fn toward(command: u32, target: u32, seconds: u64) -> u32 {
    let reach = STEP * seconds;
    if u64::from(command.abs_diff(target)) <= reach {
        target
    } else if command < target {
        command + reach as u32
    } else {
        command - reach as u32
    }
}

impl Machine {
    /// '60 × N × p of that second's slot; no rate counts as r = 0.'
    pub fn target(&self, rate: Option<u8>) -> u32 {
        let p = percent(self.settings, rate.unwrap_or(0));
        60 * self.settings.minutes as u32 * p
    }

    /// A tick to a second below T.
    pub fn tick(&mut self, second: u64) {
        match self.clock {
            Some(clock) if second > clock + WALKED_SECONDS => self.ride_to(clock, second),
            Some(clock) if second > clock => self.walk_to(clock, second),
            _ => {
                // 'Clock unset or t ≤ clock: clock becomes t; the command stays.'
                self.clock = Some(second);
                self.schedule.raise_floor(second);
            }
        }
    }

    /// 'For each second from clock + 1 to t', as 01 words it.
    pub fn walk_to(&mut self, clock: u64, second: u64) {
        for now in clock + 1..=second {
            self.clock = Some(now);
            self.schedule.raise_floor(now);
            let rate = self.schedule.rate((now / SLOT_SECONDS) as u32);
            self.command = toward(self.command, self.target(rate), 1);
        }
    }

    /// The same by months and slots, through which floor and target stay.
    pub fn ride_to(&mut self, clock: u64, second: u64) {
        let mut now = clock;
        while now < second {
            let month = month_of_second(now + 1);
            let slots = first_slot(month) + 48 * days_of_month(month);
            let end = second.min(u64::from(slots) * SLOT_SECONDS - 1);
            self.schedule.raise_floor(now + 1);
            if self.schedule.held().contains(&month) {
                self.ride_through(month, now, end);
            } else {
                self.command = toward(self.command, self.target(None), end - now);
            }
            now = end;
        }
        self.clock = Some(second);
    }

    /// The seconds `now` + 1 to `end` of one held month, slot by slot.
    fn ride_through(&mut self, month: u16, now: u64, end: u64) {
        let block = self.schedule.block_in_layers(month);
        let first = u64::from(first_slot(month));
        let mut now = now;
        while now < end {
            let slot = (now + 1) / SLOT_SECONDS;
            let slot_end = end.min((slot + 1) * SLOT_SECONDS - 1);
            let rate = match block[(slot - first) as usize] {
                NO_RATE => None,
                rate => Some(rate),
            };
            self.command = toward(self.command, self.target(rate), slot_end - now);
            now = slot_end;
        }
    }
}
