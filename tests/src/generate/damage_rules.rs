//! Damage to what a body of good form says: dates and n (cause 10), rates
//! (cause 11), checksums (cause 12).

use super::almanac::{digits, slots, some_month, spoil_date, spoil_year, start, MONTHS, SLOTS};
use super::damage::Damage;
use super::draft::{Draft, RecordParts};
use super::random::Random;

const SCHEDULES: &[u16] = &[201, 202, 203];
const WHOLE_MONTHS: &[u16] = &[201, 202];
const YEARLY: &[u16] = &[201];
const MONTHLY: &[u16] = &[202];
const UPDATE: &[u16] = &[203];

const fn rule(
    cause: u8,
    words: &'static str,
    formats: &'static [u16],
    apply: fn(&mut Draft, &mut Random),
) -> Damage {
    Damage {
        words,
        alone: cause,
        for_plant: cause,
        formats,
        apply,
    }
}

/// The month of a whole-month record's start.
fn month_of(record: &RecordParts) -> u64 {
    let digit = |place: usize| u64::from(record.start[place]);
    let months = 12 * (10 * digit(2) + digit(3)) + 10 * digit(4) + digit(5);
    months.saturating_sub(1)
}

/// Puts a checksum that isn't the right one: `value`, or one off where
/// `value` is right.
fn miss(record: &mut RecordParts, value: u64) {
    let right = record.sum() % record.divisor();
    let wrong = if value % 100 == right {
        (right + 1) % 100
    } else {
        value % 100
    };
    record.checksum = digits(wrong, 2);
}

pub static RULES_DAMAGE: &[Damage] = &[
    rule(
        10,
        "start date or time that doesn't exist",
        SCHEDULES,
        |draft, random| {
            spoil_date(&mut draft.some_record(random).start, random);
        },
    ),
    rule(
        10,
        "start year not 2000 to 2099",
        SCHEDULES,
        |draft, random| {
            spoil_year(&mut draft.some_record(random).start, random);
        },
    ),
    rule(
        10,
        "month's start not on day 01",
        WHOLE_MONTHS,
        |draft, random| {
            let record = draft.some_record(random);
            let day = random.pick(&[[0, 2], [1, 0], [1, 1], [2, 1], [2, 8]]);
            record.start[6..8].copy_from_slice(&day);
            record.seal();
        },
    ),
    rule(
        10,
        "month's start not at 00:00",
        WHOLE_MONTHS,
        |draft, random| {
            let time = random.pick(&[[0, 0, 3, 0], [0, 1, 0, 0], [2, 3, 3, 0], [0, 0, 0, 5]]);
            draft.some_record(random).start[8..12].copy_from_slice(&time);
        },
    ),
    rule(10, "start minute 05", UPDATE, |draft, _| {
        draft.records[0].start[10..12].copy_from_slice(&[0, 5]);
    }),
    rule(
        10,
        "start minute neither 00 nor 30",
        UPDATE,
        |draft, random| {
            let minute = random.pick(&[1, 3, 10, 15, 29, 31, 45, 59]);
            draft.records[0].start[10..12].copy_from_slice(&digits(minute, 2));
        },
    ),
    rule(
        10,
        "two neighbouring months exchanged",
        YEARLY,
        |draft, random| {
            let place = random.place(12);
            draft.records.swap(place, place + 1);
        },
    ),
    rule(10, "months falling", YEARLY, |draft, _| {
        draft.records.reverse()
    }),
    rule(10, "a month twice", YEARLY, |draft, random| {
        let place = random.place(12);
        let month = month_of(&draft.records[place]);
        draft.records[place + 1].set_month(month);
    }),
    rule(10, "one month in all records", YEARLY, |draft, _| {
        let month = month_of(&draft.records[0]);
        draft
            .records
            .iter_mut()
            .for_each(|record| record.set_month(month));
    }),
    rule(
        10,
        "a gap before the last month or after the first",
        YEARLY,
        |draft, _| {
            let first = month_of(&draft.records[0]);
            if first > 0 {
                draft.records[0].set_month(first - 1);
            } else {
                draft.records[12].set_month(first + 13);
            }
        },
    ),
    rule(
        10,
        "the same months a year on, in the later records",
        YEARLY,
        |draft, random| {
            // Month numbers of the year still rise by one; the years jump.
            let first = some_month(random, MONTHS - 26);
            let cut = random.between(1, 12);
            for (place, record) in draft.records.iter_mut().enumerate() {
                let jump = if place as u64 >= cut { 12 } else { 0 };
                record.set_month(first + place as u64 + jump);
            }
        },
    ),
    rule(
        10,
        "13 months that run past 2099",
        YEARLY,
        |draft, random| {
            let first = random.between(MONTHS - 12, MONTHS - 1);
            for (place, record) in draft.records.iter_mut().enumerate() {
                record.set_month(first + place as u64);
            }
        },
    ),
    rule(
        10,
        "another month than the segment's",
        MONTHLY,
        |draft, random| {
            let own = month_of(&draft.records[0]);
            let mut month = own;
            while month == own {
                month = random.pick(&[own + 1, own + 12, own.saturating_sub(1), own % 12]) % MONTHS;
            }
            draft.records[0].set_month(month);
        },
    ),
    rule(
        10,
        "n and rates of another month's length",
        WHOLE_MONTHS,
        |draft, random| {
            // With 31 days: n 01440 before 1,440 rates; 28 days in a leap year.
            let record = draft.some_record(random);
            let own = slots(month_of(record));
            let mut length = own;
            while length == own {
                length = random.pick(&[1_344, 1_392, 1_440, 1_488]);
            }
            record.resize(length);
        },
    ),
    rule(
        10,
        "n and rates one off, none, or 1,536",
        WHOLE_MONTHS,
        |draft, random| {
            let record = draft.some_record(random);
            let own = slots(month_of(record));
            record.resize(random.pick(&[own - 1, own + 1, 0, 1_536, 336]));
        },
    ),
    rule(10, "last slot not before T", UPDATE, |draft, random| {
        let record = &mut draft.records[0];
        if record.rates.len() < 2 {
            record.resize(2);
        }
        let n = record.rates.len() as u64;
        let beyond = random.pick(&[1, n - 1, n / 2, n / 3]).clamp(1, n - 1);
        record.start = start(SLOTS - n + beyond);
        record.seal();
    }),
    rule(
        10,
        "next access that doesn't exist",
        UPDATE,
        |draft, random| {
            spoil_date(&mut draft.records[0].next, random);
        },
    ),
    rule(
        10,
        "next access that doesn't exist, n 0",
        UPDATE,
        |draft, random| {
            draft.records[0].resize(0);
            spoil_date(&mut draft.records[0].next, random);
        },
    ),
    rule(
        10,
        "next access year not 2000 to 2099",
        UPDATE,
        |draft, random| {
            spoil_year(&mut draft.records[0].next, random);
        },
    ),
    rule(
        11,
        "one rate above 100, checksum fitting",
        SCHEDULES,
        |draft, random| {
            let record = draft.some_record(random);
            if record.rates.is_empty() {
                record.resize(1);
            }
            let place = random.place(record.rates.len());
            record.rates[place] = random.pick(&[101, 102, 127, 128, 200, 254, 255]);
            record.seal();
        },
    ),
    rule(
        11,
        "one rate above 100, checksum as it was",
        SCHEDULES,
        |draft, random| {
            let record = draft.some_record(random);
            if record.rates.is_empty() {
                record.resize(1);
            }
            let place = random.place(record.rates.len());
            record.rates[place] = random.between(101, 255) as u8;
        },
    ),
    rule(
        11,
        "all rates of a record 255",
        SCHEDULES,
        |draft, random| {
            let record = draft.some_record(random);
            if record.rates.is_empty() {
                record.resize(1);
            }
            record.rates.fill(255);
            record.seal();
        },
    ),
    rule(
        12,
        "checksum one above or below",
        SCHEDULES,
        |draft, random| {
            let record = draft.some_record(random);
            let right = record.sum() % record.divisor();
            let off = if right == 0 || random.once_in(2) {
                right + 1
            } else {
                right - 1
            };
            miss(record, off);
        },
    ),
    rule(
        12,
        "flag added into the checksum",
        UPDATE,
        |draft, random| {
            let record = &mut draft.records[0];
            record.flag = vec![random.between(1, 9) as u8];
            let with_flag = (record.sum() + u64::from(record.flag[0])) % record.divisor();
            miss(record, with_flag);
        },
    ),
    rule(
        12,
        "remainder not taken as far as it goes",
        SCHEDULES,
        |draft, random| {
            let record = draft.some_record(random);
            miss(record, record.sum() % record.divisor() + record.divisor());
        },
    ),
    rule(
        12,
        "last two digits of the sum itself",
        SCHEDULES,
        |draft, random| {
            let record = draft.some_record(random);
            miss(record, record.sum());
        },
    ),
    rule(
        12,
        "divided by the month or by the day alone",
        SCHEDULES,
        |draft, random| {
            let record = draft.some_record(random);
            let place = random.pick(&[4, 6]);
            let part = u64::from(10 * record.start[place] + record.start[place + 1]);
            miss(record, record.sum() % part.max(1));
        },
    ),
    rule(
        12,
        "checksum digits exchanged",
        SCHEDULES,
        |draft, random| {
            let record = draft.some_record(random);
            let right = record.sum() % record.divisor();
            miss(record, right % 10 * 10 + right / 10);
        },
    ),
    rule(
        12,
        "a rate one higher or lower, checksum as it was",
        SCHEDULES,
        |draft, random| {
            let record = draft.some_record(random);
            if record.rates.is_empty() {
                record.resize(1);
            }
            let place = random.place(record.rates.len());
            let rate = &mut record.rates[place];
            *rate = if *rate < 100 { *rate + 1 } else { *rate - 1 };
        },
    ),
    rule(
        12,
        "checksum of the neighbouring record",
        YEARLY,
        |draft, random| {
            let place = random.place(12);
            let neighbour = draft.records[place + 1].sum() % draft.records[place + 1].divisor();
            miss(&mut draft.records[place], neighbour);
        },
    ),
];
