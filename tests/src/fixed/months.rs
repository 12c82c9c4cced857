//! The sixteen fixed arrays, each with the month that it holds.

use super::calendar::{first_slot, month_of_slot, slots_of_month, MONTHS};

/// Bytes of an array: the slots of a month of 31 days.
pub const BLOCK: usize = 1_488;
/// The arrays.
pub const MONTHS_HELD: usize = 16;
/// Where no file gave a rate.
pub const NO_RATE: u8 = 255;

const RATE_MAX: u8 = 100;
/// Words of a map with a bit for each month.
const WORDS: usize = (MONTHS as usize).div_ceil(64);

/// A month's rates: byte i is that of its slot i.
#[derive(Clone)]
pub struct Month {
    pub number: u16,
    pub rates: [u8; BLOCK],
}

impl Month {
    fn blank(number: u16) -> Month {
        Month {
            number,
            rates: [NO_RATE; BLOCK],
        }
    }

    /// Bytes 0 to 100 or 255, and 255 past the month's end.
    #[inline]
    fn is_sound(&self) -> bool {
        let (rates, past) = self.rates.split_at(slots_of_month(self.number));
        // One more than the byte, so that 255 counts as the least.
        let most = rates
            .iter()
            .fold(0, |most, rate| rate.wrapping_add(1).max(most));
        let least_past = past.iter().fold(NO_RATE, |least, rate| least.min(*rate));
        most <= RATE_MAX + 1 && least_past == NO_RATE
    }
}

/// The months held.
#[derive(Clone, Default)]
pub struct Months(pub [Option<Month>; MONTHS_HELD]);

impl Months {
    #[inline]
    fn held(&self) -> impl Iterator<Item = &Month> {
        self.0.iter().flatten()
    }

    /// Are they distinct, and from floor on?
    #[inline]
    pub fn are_distinct_from(&self, floor: u16) -> bool {
        let mut seen = [0_u64; WORDS];
        self.held().all(|month| {
            if !(floor..MONTHS).contains(&month.number) {
                return false;
            }
            let word = &mut seen[usize::from(month.number) / 64];
            let bit = 1 << (month.number % 64);
            let new = *word & bit == 0;
            *word |= bit;
            new
        })
    }

    #[inline]
    pub fn are_sound(&self) -> bool {
        self.held().all(Month::is_sound)
    }

    pub fn free_count(&self) -> u32 {
        self.0.iter().filter(|month| month.is_none()).count() as u32
    }

    #[inline]
    fn find(&self, number: u16) -> Option<&Month> {
        self.held().find(|month| month.number == number)
    }

    #[inline]
    pub fn rate_at(&self, slot: u32) -> Option<u8> {
        let number = month_of_slot(slot);
        let month = self.find(number)?;
        let rate = month.rates[(slot - first_slot(number)) as usize];
        (rate != NO_RATE).then_some(rate)
    }

    /// Gives up every month below floor.
    #[inline]
    pub fn release_below(&mut self, floor: u16) {
        for place in &mut self.0 {
            if place.as_ref().is_some_and(|month| month.number < floor) {
                *place = None;
            }
        }
    }

    /// How many months of a run of slots, from floor on, aren't held.
    #[inline]
    pub fn lacking(&self, floor: u16, slot: u32, count: u32) -> u32 {
        if count == 0 {
            return 0;
        }
        let first = month_of_slot(slot).max(floor);
        let last = month_of_slot(slot + count - 1);
        let lacks = |month: &u16| self.find(*month).is_none();
        (first..=last).filter(lacks).count() as u32
    }

    /// The array of a month, newly filled with 255 where it wasn't held.
    #[inline]
    fn open(&mut self, number: u16) -> &mut Month {
        let held = |place: &Option<Month>| place.as_ref().is_some_and(|m| m.number == number);
        let place = self.0.iter().position(held);
        let place = place.or_else(|| self.0.iter().position(Option::is_none));
        let place = place.expect("the room was judged before");
        self.0[place].get_or_insert_with(|| Month::blank(number))
    }

    /// Puts the rates of consecutive slots; those below floor are passed
    /// over.
    #[inline]
    pub fn put(&mut self, floor: u16, mut slot: u32, mut rates: &[u8]) {
        while !rates.is_empty() {
            let number = month_of_slot(slot);
            let from = (slot - first_slot(number)) as usize;
            let length = rates.len().min(slots_of_month(number) - from);
            let (piece, later) = rates.split_at(length);
            if number >= floor {
                self.open(number).rates[from..from + length].copy_from_slice(piece);
            }
            slot += length as u32;
            rates = later;
        }
    }
}
