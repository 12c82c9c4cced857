//! What is to be requested and when: wanted flag w, held flag h, failures k,
//! fixed time f, update time u (01, 'Failure reported', 'Due').

use super::body::File;
use super::name::Segment;
use crate::call::Due;

const DAY: u64 = 86_400;
/// 'Window for check digit d: 20 minutes from 21:10:00 + 30 × d minutes.'
const WINDOW_SECONDS: u64 = 20 * 60;
const FIRST_WINDOW: u64 = (21 * 60 + 10) * 60;
const WINDOW_DISTANCE: u64 = 30 * 60;

/// The most failures that are counted.
const FAILURES_MAX: u8 = 5;

#[derive(Clone, Copy, Debug, Default, PartialEq, Eq)]
pub struct Requests {
    /// w
    pub wanted_flag: Option<u8>,
    /// h
    pub held_flag: Option<u8>,
    /// k
    pub failures: u8,
    /// f
    pub fixed_at: u64,
    /// u
    pub update_at: u64,
}

/// Why something is due, or nothing is.
#[derive(Clone, Copy, Debug, PartialEq, Eq, PartialOrd, Ord)]
pub enum Reason {
    /// clock ≥ u
    UpdateTime,
    /// A wanted schedule that isn't held, in the window.
    Window,
    /// The same outside the window, since k > 0.
    Retry,
    /// w is none.
    NothingWanted,
    /// w = h
    AlreadyHeld,
    /// clock < f
    NotYet,
    /// k = 0, and the time of day isn't in the window.
    OutsideWindow,
}

/// The time of day at which the window of a check digit opens.
pub fn window_start(digit: u8) -> u64 {
    (FIRST_WINDOW + WINDOW_DISTANCE * u64::from(digit)) % DAY
}

/// Is the time of day in the window?
pub fn in_window(digit: u8, clock: u64) -> bool {
    let start = window_start(digit);
    (start..start + WINDOW_SECONDS).contains(&(clock % DAY))
}

/// 'The first window start later than clock.'
pub fn next_window(digit: u8, clock: u64) -> u64 {
    let today = clock / DAY * DAY + window_start(digit);
    if today > clock {
        today
    } else {
        today + DAY
    }
}

/// 400-499
pub fn is_client_error(status: u64) -> bool {
    (400..=499).contains(&status)
}

impl Requests {
    /// What a file taken changes here.
    pub fn take(&mut self, file: &File) {
        if let Segment::Yearly { digit } = file.segment {
            self.held_flag = Some(digit);
            self.failures = 0;
            self.fixed_at = 0;
        }
        if let (Segment::Update, Some(next)) = (file.segment, file.next) {
            if file.flag != self.wanted_flag {
                self.wanted_flag = file.flag;
                self.failures = 0;
                self.fixed_at = 0;
            }
            self.update_at = next;
        }
    }

    /// 'u = clock + 1,800; for 400-499 clock + 86,400.'
    pub fn update_failed(&mut self, clock: u64, status: u64) {
        self.update_at = clock + if is_client_error(status) { DAY } else { 1_800 };
    }

    /// 'If status isn't 400-499 and k < 5, k rises by 1 and f = clock + 300;
    /// else k = 0 and f is the first window start later than clock.'
    pub fn fixed_failed(&mut self, clock: u64, status: u64, digit: u8) {
        if !is_client_error(status) && self.failures < FAILURES_MAX {
            self.failures += 1;
            self.fixed_at = clock + 300;
        } else {
            self.failures = 0;
            self.fixed_at = next_window(digit, clock);
        }
    }

    /// 01's 'Due', with what decided it.
    pub fn reason(&self, clock: u64, digit: u8) -> Reason {
        if clock >= self.update_at {
            Reason::UpdateTime
        } else if self.wanted_flag.is_none() {
            Reason::NothingWanted
        } else if self.wanted_flag == self.held_flag {
            Reason::AlreadyHeld
        } else if clock < self.fixed_at {
            Reason::NotYet
        } else if in_window(digit, clock) {
            Reason::Window
        } else if self.failures > 0 {
            Reason::Retry
        } else {
            Reason::OutsideWindow
        }
    }

    /// 01's 'Due'.
    pub fn due(&self, clock: u64, digit: u8) -> Due {
        match (self.reason(clock, digit), self.wanted_flag) {
            (Reason::UpdateTime, _) => Due::Update,
            (Reason::Window | Reason::Retry, Some(flag)) => Due::Fixed(flag),
            _ => Due::Nothing,
        }
    }
}
