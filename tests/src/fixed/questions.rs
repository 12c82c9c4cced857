//! The questions: ceiling, what is due, command, free months.

use super::calendar::SLOTS;
use super::requests::{in_window, NO_FLAG};
use super::Unit;

/// The ceiling of a slot that has a rate.
#[derive(Clone, Copy, Debug, PartialEq, Eq)]
pub struct Ceiling {
    /// Percent of the lesser capacity.
    pub rate: u8,
    /// Percent of the inverter's.
    pub percent: u32,
}

/// What is to be requested.
#[derive(Clone, Copy, Debug, PartialEq, Eq)]
pub enum Due {
    Nothing,
    Update,
    /// With the wanted flag.
    Fixed(u8),
}

impl Unit {
    pub fn ceiling(&self, slot: u64) -> Result<Option<Ceiling>, u8> {
        self.check()?;
        self.now()?;
        if slot >= u64::from(SLOTS) {
            return Err(6);
        }
        Ok(self.months.rate_at(slot as u32).map(|rate| Ceiling {
            rate,
            percent: self.plant.percent(rate),
        }))
    }

    pub fn due(&self) -> Result<Due, u8> {
        self.check_values()?;
        let now = self.now()?;
        let requests = &self.requests;
        if u64::from(now) >= requests.update_at {
            return Ok(Due::Update);
        }
        let wanted = requests.wanted_flag;
        let missing = wanted != NO_FLAG && wanted != requests.held_flag;
        let may_ask = u64::from(now) >= requests.fixed_at;
        let digit = self.plant.check_digit();
        if missing && may_ask && (requests.failures > 0 || in_window(digit, now)) {
            return Ok(Due::Fixed(wanted));
        }
        Ok(Due::Nothing)
    }

    /// In parts.
    pub fn command(&self) -> Result<u32, u8> {
        self.check_values()?;
        Ok(self.command)
    }

    /// How many more months can be held.
    pub fn free_blocks(&self) -> Result<u32, u8> {
        self.check_values()?;
        Ok(self.months.free_count())
    }
}
