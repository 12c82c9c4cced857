//! The tick: clock, floor and command, over any number of seconds at once.

use super::calendar::{month_of_second, END, SLOT};
use super::Unit;

/// Parts that the command moves in a second.
const STEP: u32 = 100;

/// The command after so many seconds toward one goal.
#[inline]
fn toward(goal: u32, seconds: u32, command: u32) -> u32 {
    let most = STEP * seconds;
    goal.clamp(command.saturating_sub(most), command + most)
}

impl Unit {
    /// The clock is at this second, whatever it was.
    pub fn tick(&mut self, second: u64) -> Result<(), u8> {
        self.check()?;
        if second >= u64::from(END) {
            return Err(6);
        }
        let second = second as u32;
        if let Some(from) = self.clock.filter(|from| *from < second) {
            self.command = self.command_after(from, second);
        }
        self.clock = Some(second);
        self.floor = self.floor.max(month_of_second(second).saturating_sub(1));
        self.months.release_below(self.floor);
        Ok(())
    }

    /// The command after the seconds from `from` + 1 to `until`.
    #[inline]
    fn command_after(&self, from: u32, until: u32) -> u32 {
        let first = (from + 1) / SLOT;
        let last = until / SLOT;
        if first == last {
            return toward(self.goal(first), until - from, self.command);
        }
        let rest = (first + 1) * SLOT - 1 - from;
        let mut command = toward(self.goal(first), rest, self.command);
        // A whole slot is enough for any way, so that of the slots between
        // the last alone counts.
        if first + 1 < last {
            command = self.goal(last - 1);
        }
        toward(self.goal(last), until + 1 - last * SLOT, command)
    }

    /// The parts that the command goes to in a slot.
    #[inline]
    fn goal(&self, slot: u32) -> u32 {
        self.plant.goal(self.months.rate_at(slot).unwrap_or(0))
    }
}
