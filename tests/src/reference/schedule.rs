//! Floor and accepted files, kept whole: the rate of a slot and the months
//! held (01, 'Rate of slot s').

use std::collections::BTreeSet;

use super::body::File;
use super::calendar::{days_of_month, first_slot, month_of_slot, SLOT_SECONDS};

/// The bytes of a month's block.
pub const BLOCK_LENGTH: usize = 1_488;
/// The byte of a slot that no file gave a rate.
pub const NO_RATE: u8 = 255;

/// The floor month, and the list of accepted files, the latest last.
#[derive(Clone, Debug, Default, PartialEq, Eq)]
pub struct Schedule {
    pub floor: u16,
    pub files: Vec<File>,
    /// Months that a sound unit holds without a rate: no list of calls leads
    /// there, so this is empty but for made-up units.
    pub hollow: BTreeSet<u16>,
}

/// The month of a second.
pub fn month_of_second(second: u64) -> u16 {
    month_of_slot((second / SLOT_SECONDS) as u32) as u16
}

/// 'A file covers the n slots from the start of each of its records, with
/// their rates in order.'
fn rate_in(file: &File, slot: u32) -> Option<u8> {
    file.records.iter().find_map(|record| {
        let place = slot.checked_sub(record.start_slot)?;
        record.rates.get(place as usize).copied()
    })
}

/// The months of which a file covers a slot. A record's slots are consecutive,
/// so its first and last slot tell.
pub fn months_of(file: &File) -> BTreeSet<u16> {
    let mut months = BTreeSet::new();
    for record in &file.records {
        if record.rates.is_empty() {
            continue;
        }
        let last = record.start_slot + record.rates.len() as u32 - 1;
        months.extend(month_of_slot(record.start_slot) as u16..=month_of_slot(last) as u16);
    }
    months
}

impl Schedule {
    /// 'None if its month is below floor; else from the last file in the list
    /// covering s; else none.'
    pub fn rate(&self, slot: u32) -> Option<u8> {
        if month_of_slot(slot) < u32::from(self.floor) {
            return None;
        }
        self.files.iter().rev().find_map(|file| rate_in(file, slot))
    }

    /// 'A month is held if it is at or above floor and some listed file covers
    /// a slot of it.'
    pub fn held(&self) -> BTreeSet<u16> {
        let mut months = self.hollow.clone();
        for file in &self.files {
            months.extend(months_of(file));
        }
        months.split_off(&self.floor)
    }

    /// The months that would be held with the file added.
    pub fn held_with(&self, file: &File) -> BTreeSet<u16> {
        let mut months = self.held();
        months.extend(months_of(file).split_off(&self.floor));
        months
    }

    /// 'Floor first becomes the greater of itself and the clock's month - 1.'
    pub fn raise_floor(&mut self, second: u64) {
        self.floor = self.floor.max(month_of_second(second).saturating_sub(1));
    }

    /// The bytes that a held month's block must have, slot by slot.
    pub fn block(&self, month: u16) -> Vec<u8> {
        let first = first_slot(month);
        let slots = 48 * days_of_month(month);
        (0..BLOCK_LENGTH as u32)
            .map(|place| match place < slots {
                true => self.rate(first + place).unwrap_or(NO_RATE),
                false => NO_RATE,
            })
            .collect()
    }

    /// The same bytes sooner: the files are laid over each other in the
    /// list's order, the latest on top.
    pub fn block_in_layers(&self, month: u16) -> Vec<u8> {
        let mut block = vec![NO_RATE; BLOCK_LENGTH];
        if month < self.floor {
            return block;
        }
        let first = first_slot(month) as usize;
        let end = first + 48 * days_of_month(month) as usize;
        for record in self.files.iter().flat_map(|file| &file.records) {
            let start = record.start_slot as usize;
            let from = start.max(first);
            let to = (start + record.rates.len()).min(end);
            if from < to {
                block[from - first..to - first]
                    .copy_from_slice(&record.rates[from - start..to - start]);
            }
        }
        block
    }
}
