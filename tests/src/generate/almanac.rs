//! The generator's own calendar: months counted off one by one from January
//! 2000, so that it shares nothing with the reference's day numbers.

use super::random::Random;

/// Slots before T.
pub const SLOTS: u64 = 1_753_200;
/// Months from January 2000 to December 2099.
pub const MONTHS: u64 = 1_200;

const LENGTHS: [u64; 12] = [31, 28, 31, 30, 31, 30, 31, 31, 30, 31, 30, 31];

/// Days of a month numbered from January 2000 = 0; also for 2100, which is no
/// leap year.
pub fn days(month: u64) -> u64 {
    let year = 2000 + month / 12;
    let leap_day = month % 12 == 1 && year % 4 == 0 && year != 2100;
    LENGTHS[(month % 12) as usize] + u64::from(leap_day)
}

/// Rates of a month.
pub fn slots(month: u64) -> usize {
    (48 * days(month)) as usize
}

/// The slot with which a month begins.
pub fn first_slot(month: u64) -> u64 {
    (0..month).map(|before| 48 * days(before)).sum()
}

/// A number as digits, leading zeros kept.
pub fn digits(value: u64, length: usize) -> Vec<u8> {
    let text = format!("{value:0length$}");
    text.bytes().map(|byte| byte - b'0').collect()
}

/// YYYYMMDDhhmmss of a second since 2000.
pub fn moment(seconds: u64) -> Vec<u8> {
    let mut month = 0;
    let mut day = seconds / 86_400;
    while day >= days(month) {
        day -= days(month);
        month += 1;
    }
    let second = seconds % 86_400;
    let text = format!(
        "{:04}{:02}{:02}{:02}{:02}{:02}",
        2000 + month / 12,
        month % 12 + 1,
        day + 1,
        second / 3_600,
        second / 60 % 60,
        second % 60
    );
    text.bytes().map(|byte| byte - b'0').collect()
}

/// YYYYMMDDhhmm of a slot's start.
pub fn start(slot: u64) -> Vec<u8> {
    let mut digits = moment(slot * 1_800);
    digits.truncate(12);
    digits
}

/// YYYYMM010000 of a month, also past 2099.
pub fn month_start(month: u64) -> Vec<u8> {
    let text = format!("{:04}{:02}010000", 2000 + month / 12, month % 12 + 1);
    text.bytes().map(|byte| byte - b'0').collect()
}

/// A second below T, often one at an edge.
pub fn some_moment(random: &mut Random) -> u64 {
    let last = SLOTS * 1_800 - 1;
    match random.below(8) {
        0 => last,
        1 => 0,
        2 => {
            let month = random.between(1, MONTHS - 1);
            first_slot(month) * 1_800 - random.below(2)
        }
        3 => {
            let leap_february = 48 * random.below(25) + 1;
            (first_slot(leap_february) + 28 * 48) * 1_800 + random.below(86_400)
        }
        _ => random.below(last + 1),
    }
}

/// A month no later than `last`, often a leap February or `last` itself.
pub fn some_month(random: &mut Random, last: u64) -> u64 {
    match random.below(8) {
        0 => last,
        1 => 0,
        2 | 3 => (48 * random.below(25) + 1).min(last),
        _ => random.below(last + 1),
    }
}

/// Turns digits of a date (month, day and so on) into one that doesn't exist,
/// though its year is lawful. Takes 12 or 14 digits of a date that exists.
pub fn spoil_date(digits: &mut [u8], random: &mut Random) {
    let put = |digits: &mut [u8], place: usize, value: u8| {
        digits[place] = value / 10;
        digits[place + 1] = value % 10;
    };
    let kinds = if digits.len() == 14 { 9 } else { 8 };
    match random.below(kinds) {
        0 => put(digits, 4, random.pick(&[13, 20, 99])),
        1 => put(digits, 4, 0),
        2 => put(digits, 6, random.pick(&[32, 40, 99])),
        3 => put(digits, 6, 0),
        4 => {
            put(digits, 4, random.pick(&[4, 6, 9, 11]));
            put(digits, 6, 31);
        }
        5 => {
            // 29 February of a year that isn't a leap year.
            digits[3] = random.pick(&[1, 3, 5, 7, 9]);
            put(digits, 4, 2);
            put(digits, 6, 29);
        }
        6 => put(digits, 8, random.pick(&[24, 25, 99])),
        7 => put(digits, 10, random.pick(&[60, 61, 99])),
        _ => put(digits, 12, random.pick(&[60, 61, 99])),
    }
}

/// Puts a year outside 2000 to 2099.
pub fn spoil_year(digits: &mut [u8], random: &mut Random) {
    let year = random.pick(&[[1, 9, 9, 9], [2, 1, 0, 0], [0, 0, 0, 0], [2, 9, 2, 6]]);
    digits[..4].copy_from_slice(&year);
}
