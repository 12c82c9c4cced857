//! What the unit asks the server for, and when.

use super::calendar::{DAY, END};

/// The flag that is none.
pub const NO_FLAG: u8 = 10;

/// The most failures in a row that are answered with an early retry.
const RETRIES: u8 = 5;
const LATEST: u64 = END as u64 + 172_800;
const UPDATE_WAIT: u64 = 1_800;
const REFUSED_WAIT: u64 = 86_400;
const FIXED_WAIT: u64 = 300;
/// 21:10:00, the window's start for check digit 0.
const FIRST_WINDOW: u32 = 21 * 3_600 + 10 * 60;
const WINDOW_STEP: u32 = 1_800;
const WINDOW_LENGTH: u32 = 1_200;

/// Flags, failures and times of the requests.
#[derive(Clone, Copy, Debug, PartialEq, Eq)]
pub struct Requests {
    /// w, of the fixed schedule that is wanted.
    pub wanted_flag: u8,
    /// h, of the fixed schedule that is held.
    pub held_flag: u8,
    /// k.
    pub failures: u8,
    /// f, in seconds, as the next.
    pub fixed_at: u64,
    /// u.
    pub update_at: u64,
}

impl Default for Requests {
    fn default() -> Requests {
        Requests {
            wanted_flag: NO_FLAG,
            held_flag: NO_FLAG,
            failures: 0,
            fixed_at: 0,
            update_at: 0,
        }
    }
}

/// Cause 6 for a status that no report may have.
pub fn check_status(status: u64) -> Result<(), u8> {
    match status {
        0 | 100..=199 | 300..=599 => Ok(()),
        _ => Err(6),
    }
}

fn is_client_error(status: u64) -> bool {
    (400..=499).contains(&status)
}

/// When the window begins, in seconds of the day.
fn window_start(digit: u8) -> u32 {
    (FIRST_WINDOW + WINDOW_STEP * u32::from(digit)) % DAY
}

pub fn in_window(digit: u8, second: u32) -> bool {
    let start = window_start(digit);
    (start..start + WINDOW_LENGTH).contains(&(second % DAY))
}

/// The first window start later than a second.
fn next_window(digit: u8, second: u32) -> u64 {
    let midnight = u64::from(second - second % DAY);
    let today = midnight + u64::from(window_start(digit));
    if today > u64::from(second) {
        today
    } else {
        today + u64::from(DAY)
    }
}

impl Requests {
    #[inline]
    pub fn are_sound(&self) -> bool {
        self.wanted_flag <= NO_FLAG
            && self.held_flag <= NO_FLAG
            && self.failures <= RETRIES
            && self.fixed_at < LATEST
            && self.update_at < LATEST
    }

    /// After a 203.
    pub fn take_update(&mut self, flag: u8, next_access: u32) {
        if flag != self.wanted_flag {
            self.wanted_flag = flag;
            self.failures = 0;
            self.fixed_at = 0;
        }
        self.update_at = u64::from(next_access);
    }

    /// After a 201.
    pub fn take_year(&mut self, flag: u8) {
        self.held_flag = flag;
        self.failures = 0;
        self.fixed_at = 0;
    }

    pub fn update_failed(&mut self, now: u32, status: u64) {
        let wait = if is_client_error(status) {
            REFUSED_WAIT
        } else {
            UPDATE_WAIT
        };
        self.update_at = u64::from(now) + wait;
    }

    pub fn fixed_failed(&mut self, digit: u8, now: u32, status: u64) {
        if !is_client_error(status) && self.failures < RETRIES {
            self.failures += 1;
            self.fixed_at = u64::from(now) + FIXED_WAIT;
        } else {
            self.failures = 0;
            self.fixed_at = next_window(digit, now);
        }
    }
}
