//! The plain machine of 01: no blocks, all accepted files kept whole.

use super::body::read_to_take;
use super::calendar::{END, SLOTS};
use super::plant::{self, percent};
use super::requests::Requests;
use super::response;
use super::schedule::Schedule;
use crate::call::{Answer, Call};
use crate::firmware::Settings;

/// The bytes of a store: 16 blocks of 1,488.
pub const STORE_LENGTH: usize = 23_808;
/// The most months that may be held.
const MONTHS_MAX: usize = 16;

/// The machine. 'It is told the plant ID, the settings, the store's length.'
#[derive(Clone, Debug, PartialEq, Eq)]
pub struct Machine {
    pub id: Vec<u8>,
    pub settings: Settings,
    pub store_length: usize,
    /// Nothing where it is unset.
    pub clock: Option<u64>,
    pub schedule: Schedule,
    pub requests: Requests,
    /// Parts; 6,000 × N are 100%.
    pub command: u32,
}

/// 'Status not 0, 100-199 or 300-599' is cause 6.
fn check_status(status: u64) -> Result<(), u8> {
    match status {
        0 | 100..=199 | 300..=599 => Ok(()),
        _ => Err(6),
    }
}

impl Machine {
    /// Installing: the fresh machine, or cause 1 or 2.
    pub fn install(
        id: &[u8],
        mac: &[u8],
        settings: Settings,
        store_length: usize,
    ) -> Result<Machine, u8> {
        plant::install(id, mac, settings)?;
        Ok(Machine {
            id: id.to_vec(),
            settings,
            store_length,
            clock: None,
            schedule: Schedule::default(),
            requests: Requests::default(),
            command: 0,
        })
    }

    /// The plant ID's digit 26.
    pub fn check_digit(&self) -> u8 {
        self.id[25]
    }

    /// Answers a call. 'A refused call leaves it as it was.'
    pub fn answer(&mut self, call: &Call) -> Answer {
        self.try_answer(call).unwrap_or_else(Answer::Refused)
    }

    /// Cause 3, 'by the store's length in the calls that it is lent to'.
    fn check_store(&self) -> Result<(), u8> {
        match self.store_length {
            STORE_LENGTH => Ok(()),
            _ => Err(3),
        }
    }

    fn try_answer(&mut self, call: &Call) -> Result<Answer, u8> {
        if call.is_lent_the_store() {
            self.check_store()?;
        }
        match call {
            Call::Tick { second } if *second >= END => return Err(6),
            Call::Tick { second } => self.tick(*second),
            Call::ClockLost => {
                self.clock = None;
                self.command = 0;
            }
            Call::TakeFile { name, body } => self.take_file(name, body)?,
            Call::TakeResponse { boundary, response } => self.take_response(boundary, response)?,
            Call::UpdateFailed { status } => {
                let clock = self.clock.ok_or(5)?;
                check_status(*status)?;
                self.requests.update_failed(clock, *status);
            }
            Call::FixedFailed { status } => {
                let clock = self.clock.ok_or(5)?;
                check_status(*status)?;
                let digit = self.check_digit();
                self.requests.fixed_failed(clock, *status, digit);
            }
            Call::Due => {
                let clock = self.clock.ok_or(5)?;
                return Ok(Answer::Due(self.requests.due(clock, self.check_digit())));
            }
            Call::Ceiling { slot } => return self.ceiling(*slot),
            Call::Command => return Ok(Answer::Number(self.command)),
            Call::FreeBlocks => {
                let held = self.schedule.held().len();
                return Ok(Answer::Number((MONTHS_MAX - held) as u32));
            }
        }
        Ok(Answer::Accepted)
    }

    /// 'File taken: appended.' Causes 5, 7 to 13 by the reader, and 14 'by the
    /// months that it would hold with the file added'.
    fn take_file(&mut self, name: &[u8], body: &[u8]) -> Result<(), u8> {
        self.clock.ok_or(5)?;
        let file = read_to_take(&self.id, name, body)?;
        if self.schedule.held_with(&file).len() > MONTHS_MAX {
            return Err(14);
        }
        self.requests.take(&file);
        self.schedule.files.push(file);
        Ok(())
    }

    /// 'A response that breaks this form is refused with 17, after 5 and before
    /// 7, by the machine as well.'
    fn take_response(&mut self, boundary: &[u8], response: &[u8]) -> Result<(), u8> {
        self.clock.ok_or(5)?;
        let part = response::open(boundary, response).map_err(|_| 17)?;
        self.take_file(part.name, part.file)
    }

    fn ceiling(&self, slot: u64) -> Result<Answer, u8> {
        self.clock.ok_or(5)?;
        if slot >= u64::from(SLOTS) {
            return Err(6);
        }
        let rate = self.schedule.rate(slot as u32);
        Ok(Answer::Ceiling(
            rate.map(|rate| (rate, percent(self.settings, rate))),
        ))
    }
}
