//! The schedule unit with a fixed array for each month and no pool, as the
//! old coding standard had it: what the library's times are compared with.
//! Safe Rust, written for speed; its answers and its checks are the papers'.
//!
//! The unit owns its arrays, so cause 3 can't come: no length is given.

mod calendar;
mod months;
mod plant;
mod questions;
mod requests;
pub mod response;
mod take;
mod tick;

pub use months::{Month, Months, BLOCK};
pub use plant::Plant;
pub use questions::Due;
pub use requests::Requests;

use crate::firmware::Settings;
use calendar::{END, MONTHS};

/// Parts of a full command for each minute of the ramp.
const PARTS_OF_MINUTE: u64 = 6_000;

/// A unit with the rates that it holds. The fields are open so that a test
/// can spoil them.
#[derive(Clone)]
pub struct Unit {
    pub plant: Plant,
    pub months: Months,
    pub requests: Requests,
    /// The second, where the clock is set.
    pub clock: Option<u32>,
    /// Months below it are given up.
    pub floor: u16,
    /// In parts, of which 6,000 × N are 100%.
    pub command: u32,
}

impl Unit {
    /// The fresh unit of these values, or cause 1 or 2.
    pub fn install(id: &[u8], mac: &[u8], settings: Settings) -> Result<Unit, u8> {
        Ok(Unit {
            plant: Plant::install(id, mac, settings)?,
            months: Months::default(),
            requests: Requests::default(),
            clock: None,
            floor: 0,
            command: 0,
        })
    }

    /// Cause 4 by the unit's values alone.
    #[inline]
    fn check_values(&self) -> Result<(), u8> {
        let full = PARTS_OF_MINUTE * u64::from(self.plant.minutes);
        let sound = self.plant.is_valid()
            && self.floor < MONTHS
            && self.months.are_distinct_from(self.floor)
            && self.requests.are_sound()
            && self.clock.is_none_or(|second| second < END)
            && u64::from(self.command) <= full;
        if sound {
            Ok(())
        } else {
            Err(4)
        }
    }

    /// Cause 4 by the unit's values and every rate that it holds.
    #[inline]
    pub fn check(&self) -> Result<(), u8> {
        self.check_values()?;
        if self.months.are_sound() {
            Ok(())
        } else {
            Err(4)
        }
    }

    /// The clock is lost, and the command 0.
    pub fn clock_lost(&mut self) -> Result<(), u8> {
        self.check_values()?;
        self.clock = None;
        self.command = 0;
        Ok(())
    }

    /// The second, or cause 5.
    #[inline]
    fn now(&self) -> Result<u32, u8> {
        self.clock.ok_or(5)
    }
}
