//! A file taken, and a failure reported.

use super::requests::check_status;
use super::Unit;
use crate::fast;

/// Where the records begin in a body.
const RECORDS: usize = 6;
/// Where a record's rate count and its rates begin.
const RATE_COUNT: usize = 48;
const RATES: usize = 53;

/// The rates of the record with which a good body goes on, and what follows
/// its `tail` digits.
fn split_record(rest: &[u8], tail: usize) -> (&[u8], &[u8]) {
    let count = rest[RATE_COUNT..RATES]
        .iter()
        .fold(0, |sum, digit| sum * 10 + usize::from(*digit));
    let (rates, rest) = rest[RATES..].split_at(count);
    (rates, &rest[tail..])
}

impl Unit {
    /// A file came in.
    pub fn take_file(&mut self, name: &[u8], body: &[u8]) -> Result<(), u8> {
        self.check()?;
        self.now()?;
        self.take_checked(name, body)
    }

    /// The same on a sound unit whose clock is set.
    pub(super) fn take_checked(&mut self, name: &[u8], body: &[u8]) -> Result<(), u8> {
        // Whatever the rest of the name, a 301 isn't taken.
        if name.starts_with(b"301") {
            return Err(7);
        }
        let [format, segment, records, rates, start, flag, next, _] =
            fast::read(Some(&self.plant.id), name, body)?;
        let lacking = self.months.lacking(self.floor, start, rates);
        if lacking > self.months.free_count() {
            return Err(14);
        }
        self.put_records(records, start, body, if format == 203 { 17 } else { 2 });
        match format {
            201 => self.requests.take_year((segment % 10) as u8),
            203 => self.requests.take_update(flag as u8, next),
            _ => {}
        }
        Ok(())
    }

    /// Puts the rates of a good body's records, one after the other.
    fn put_records(&mut self, records: u32, start: u32, body: &[u8], tail: usize) {
        let mut slot = start;
        let mut rest = &body[RECORDS..];
        for _ in 0..records {
            let (rates, later) = split_record(rest, tail);
            self.months.put(self.floor, slot, rates);
            slot += rates.len() as u32;
            rest = later;
        }
    }

    /// A request for the update failed.
    pub fn update_failed(&mut self, status: u64) -> Result<(), u8> {
        self.check_values()?;
        let now = self.now()?;
        check_status(status)?;
        self.requests.update_failed(now, status);
        Ok(())
    }

    /// A request for the fixed schedule failed.
    pub fn fixed_failed(&mut self, status: u64) -> Result<(), u8> {
        self.check_values()?;
        let now = self.now()?;
        check_status(status)?;
        let digit = self.plant.check_digit();
        self.requests.fixed_failed(digit, now, status);
        Ok(())
    }
}
