//! Slots and months as numbers: four years are always 48 months and 1,461
//! days, so one table serves all of 2000 to 2099.

/// T, the end of 2099 in seconds since 2000.
pub const END: u32 = 36_525 * DAY;
/// Slots before T.
pub const SLOTS: u32 = END / SLOT;
/// Months from January 2000 to December 2099.
pub const MONTHS: u16 = 1_200;
/// Seconds of a slot.
pub const SLOT: u32 = 1_800;
/// Seconds of a day.
pub const DAY: u32 = 86_400;

const SLOTS_OF_DAY: u32 = DAY / SLOT;
const CYCLE_MONTHS: usize = 48;
const CYCLE_DAYS: u32 = 4 * 365 + 1;
/// Days of the longest month.
const LONGEST: u32 = 31;
const MONTH_DAYS: [u16; 12] = [31, 28, 31, 30, 31, 30, 31, 31, 30, 31, 30, 31];
/// The days before each month of four years, the first of which is a leap
/// year; the last entry is all of them.
const DAYS_BEFORE: [u16; CYCLE_MONTHS + 1] = days_before();

const fn days_before() -> [u16; CYCLE_MONTHS + 1] {
    let mut days = [0; CYCLE_MONTHS + 1];
    let mut month = 0;
    while month < CYCLE_MONTHS {
        let leap_day = (month == 1) as u16;
        days[month + 1] = days[month] + MONTH_DAYS[month % 12] + leap_day;
        month += 1;
    }
    days
}

/// The month in which a day lies.
#[inline]
fn month_of_day(day: u32) -> u16 {
    let in_cycle = day % CYCLE_DAYS;
    // 48 months lack fewer than 31 days of 48 longest ones, so this is the
    // month or the one before it.
    let guess = in_cycle / LONGEST;
    let later = u32::from(DAYS_BEFORE[guess as usize + 1]) <= in_cycle;
    (day / CYCLE_DAYS * CYCLE_MONTHS as u32 + guess + u32::from(later)) as u16
}

#[inline]
pub fn month_of_slot(slot: u32) -> u16 {
    month_of_day(slot / SLOTS_OF_DAY)
}

#[inline]
pub fn month_of_second(second: u32) -> u16 {
    month_of_day(second / DAY)
}

/// The slot with which a month begins.
#[inline]
pub fn first_slot(month: u16) -> u32 {
    let (cycle, month) = (
        u32::from(month) / CYCLE_MONTHS as u32,
        usize::from(month) % CYCLE_MONTHS,
    );
    SLOTS_OF_DAY * (cycle * CYCLE_DAYS + u32::from(DAYS_BEFORE[month]))
}

/// The slots of a month.
#[inline]
pub fn slots_of_month(month: u16) -> usize {
    let month = usize::from(month) % CYCLE_MONTHS;
    let days = DAYS_BEFORE[month + 1] - DAYS_BEFORE[month];
    usize::from(days) * SLOTS_OF_DAY as usize
}
