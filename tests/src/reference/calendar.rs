//! Dates: which exist, and which second, slot and month they are.
//!
//! Day numbers come from Howard Hinnant's `days_from_civil` with the full
//! Gregorian rule, although 01's years 2000 to 2099 do without it.

/// T, the end of 2099 in seconds since 2000-01-01 00:00:00.
pub const END: u64 = 3_155_760_000;
/// Seconds of a slot.
pub const SLOT_SECONDS: u64 = 1_800;
/// Slots before T.
pub const SLOTS: u32 = 1_753_200;
/// Months from January 2000 to December 2099.
pub const MONTHS: u16 = 1_200;

const FIRST_YEAR: i64 = 2000;
const LAST_YEAR: i64 = 2099;

/// Days from 1970-01-01 to a Gregorian date (Hinnant).
fn days_from_civil(year: i64, month: i64, day: i64) -> i64 {
    let y = if month <= 2 { year - 1 } else { year };
    let era = y.div_euclid(400);
    let year_of_era = y.rem_euclid(400);
    let months_from_march = (month + 9) % 12;
    let day_of_year = (153 * months_from_march + 2) / 5 + day - 1;
    let day_of_era = year_of_era * 365 + year_of_era / 4 - year_of_era / 100 + day_of_year;
    era * 146_097 + day_of_era - 719_468
}

/// The Gregorian date (year, month, day) of a day counted from 1970-01-01.
fn civil_from_days(days: i64) -> (i64, i64, i64) {
    let z = days + 719_468;
    let era = z.div_euclid(146_097);
    let day_of_era = z.rem_euclid(146_097);
    let year_of_era =
        (day_of_era - day_of_era / 1_460 + day_of_era / 36_524 - day_of_era / 146_096) / 365;
    let day_of_year = day_of_era - (365 * year_of_era + year_of_era / 4 - year_of_era / 100);
    let months_from_march = (5 * day_of_year + 2) / 153;
    let day = day_of_year - (153 * months_from_march + 2) / 5 + 1;
    let month = (months_from_march + 2) % 12 + 1;
    let january_or_february = i64::from(month <= 2);
    (era * 400 + year_of_era + january_or_february, month, day)
}

/// Days from 2000-01-01 to a date.
fn days_since_2000(year: i64, month: i64, day: i64) -> i64 {
    days_from_civil(year, month, day) - days_from_civil(FIRST_YEAR, 1, 1)
}

fn is_leap_year(year: i64) -> bool {
    year % 4 == 0 && (year % 100 != 0 || year % 400 == 0)
}

/// Does the date exist, with a year 2000 to 2099?
fn date_exists(year: i64, month: i64, day: i64) -> bool {
    let days = match month {
        1 | 3 | 5 | 7 | 8 | 10 | 12 => 31,
        4 | 6 | 9 | 11 => 30,
        2 if is_leap_year(year) => 29,
        2 => 28,
        _ => 0,
    };
    (FIRST_YEAR..=LAST_YEAR).contains(&year) && (1..=days).contains(&day)
}

/// Year and month (1 to 12) of a month numbered from January 2000 = 0.
fn year_and_month(month: u16) -> (i64, i64) {
    let month = i64::from(month);
    (FIRST_YEAR + month / 12, month % 12 + 1)
}

/// Days of a month, as the distance to the first of the next.
pub fn days_of_month(month: u16) -> u32 {
    let (year, number) = year_and_month(month);
    let (next_year, next_number) = year_and_month(month + 1);
    let days = days_from_civil(next_year, next_number, 1) - days_from_civil(year, number, 1);
    days as u32
}

/// The slot with which a month begins.
pub fn first_slot(month: u16) -> u32 {
    let (year, number) = year_and_month(month);
    (days_since_2000(year, number, 1) * 48) as u32
}

/// The month in which a slot lies.
pub fn month_of_slot(slot: u32) -> u32 {
    let days = i64::from(slot / 48) + days_from_civil(FIRST_YEAR, 1, 1);
    let (year, month, _) = civil_from_days(days);
    ((year - FIRST_YEAR) * 12 + month - 1) as u32
}

/// A number written in digits, one byte of value 0 to 9 each.
pub fn number(digits: &[u8]) -> i64 {
    digits
        .iter()
        .fold(0, |sum, digit| sum * 10 + i64::from(*digit))
}

/// Is it this many bytes of value 0 to 9?
pub fn are_digits(bytes: &[u8], length: usize) -> bool {
    bytes.len() == length && bytes.iter().all(|byte| *byte <= 9)
}

/// Seconds since 2000 of YYYYMMDDhhmmss, where that date and time exist.
pub fn moment(digits: &[u8]) -> Option<u64> {
    if !are_digits(digits, 14) {
        return None;
    }
    let year = number(&digits[0..4]);
    let month = number(&digits[4..6]);
    let day = number(&digits[6..8]);
    let hour = number(&digits[8..10]);
    let minute = number(&digits[10..12]);
    let second = number(&digits[12..14]);
    if !date_exists(year, month, day) || hour > 23 || minute > 59 || second > 59 {
        return None;
    }
    let seconds = days_since_2000(year, month, day) * 86_400 + hour * 3_600 + minute * 60 + second;
    Some(seconds as u64)
}

/// The slot that begins at YYYYMMDDhhmm, where that date and time exist and
/// the minute is 00 or 30.
pub fn start_slot(digits: &[u8]) -> Option<u32> {
    if !are_digits(digits, 12) {
        return None;
    }
    let mut with_seconds = digits.to_vec();
    with_seconds.extend([0, 0]);
    let seconds = moment(&with_seconds)?;
    if seconds % SLOT_SECONDS != 0 {
        return None;
    }
    Some((seconds / SLOT_SECONDS) as u32)
}

/// A number as digits, leading zeros kept.
pub fn digits_of(value: u64, length: usize) -> Vec<u8> {
    let mut digits = vec![0; length];
    let mut rest = value;
    for digit in digits.iter_mut().rev() {
        *digit = (rest % 10) as u8;
        rest /= 10;
    }
    digits
}

/// YYYYMMDDhhmmss of a second since 2000.
pub fn digits_of_moment(seconds: u64) -> Vec<u8> {
    let days = (seconds / 86_400) as i64 + days_from_civil(FIRST_YEAR, 1, 1);
    let (year, month, day) = civil_from_days(days);
    let mut digits = digits_of(year as u64, 4);
    digits.extend(digits_of(month as u64, 2));
    digits.extend(digits_of(day as u64, 2));
    digits.extend(digits_of(seconds / 3_600 % 24, 2));
    digits.extend(digits_of(seconds / 60 % 60, 2));
    digits.extend(digits_of(seconds % 60, 2));
    digits
}

/// YYYYMMDDhhmm of a slot's start.
pub fn digits_of_slot(slot: u32) -> Vec<u8> {
    let mut digits = digits_of_moment(u64::from(slot) * SLOT_SECONDS);
    digits.truncate(12);
    digits
}
