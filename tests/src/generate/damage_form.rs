//! Damage to a body's form: record count, digits, n against length (cause 9).

use super::almanac::digits;
use super::damage::{Damage, ALL};
use super::draft::{ascii, Draft};
use super::random::Random;

const SCHEDULES: &[u16] = &[201, 202, 203];
const WHOLE_MONTHS: &[u16] = &[201, 202];
const UPDATE: &[u16] = &[203];

const fn form(
    words: &'static str,
    formats: &'static [u16],
    apply: fn(&mut Draft, &mut Random),
) -> Damage {
    Damage {
        words,
        alone: 9,
        for_plant: 9,
        formats,
        apply,
    }
}

/// Puts a byte above 9 somewhere into a part, unless other damage took it.
fn spoil(part: &mut [u8], random: &mut Random) {
    if part.is_empty() {
        return;
    }
    let place = random.place(part.len());
    part[place] = random.non_digit();
}

pub static FORM_DAMAGE: &[Damage] = &[
    form(
        "record count one more or less, 0, or another format's",
        ALL,
        |draft, random| {
            let due = draft.records.len() as u64;
            let mut count = due;
            while count == due {
                count = random.pick(&[0, 1, 2, 12, 13, 14, 999_999, due + 100_000, due + 256]);
            }
            draft.count = digits(count, 6);
        },
    ),
    form(
        "record count byte that is no digit",
        ALL,
        |draft, random| {
            spoil(&mut draft.count, random);
        },
    ),
    form("record count in ASCII", ALL, |draft, _| {
        draft.count = ascii(&draft.count)
    }),
    form(
        "schedule ID byte that is no digit",
        SCHEDULES,
        |draft, random| {
            let record = draft.some_record(random);
            spoil(&mut record.schedule, random);
        },
    ),
    form("record's ID byte that is no digit", ALL, |draft, random| {
        let record = draft.some_record(random);
        spoil(&mut record.plant, random);
    }),
    form("record's ID in ASCII", ALL, |draft, random| {
        let record = draft.some_record(random);
        record.plant = ascii(&record.plant);
    }),
    form("start byte that is no digit", SCHEDULES, |draft, random| {
        let record = draft.some_record(random);
        spoil(&mut record.start, random);
    }),
    form("start in ASCII", SCHEDULES, |draft, random| {
        let record = draft.some_record(random);
        record.start = ascii(&record.start);
    }),
    form(
        "start with hour 14 as bytes 0 and 14",
        SCHEDULES,
        |draft, random| {
            // Reads as a lawful number, though 14 is no digit.
            let record = draft.some_record(random);
            record.start[8..10].copy_from_slice(&[0, 14]);
        },
    ),
    form("n byte that is no digit", SCHEDULES, |draft, random| {
        let record = draft.some_record(random);
        spoil(&mut record.count, random);
    }),
    form(
        "n with bytes above 9 that make the right number",
        SCHEDULES,
        |draft, random| {
            // 00012 as 0 0 0 0 12; below 10 one ten is borrowed the other way.
            let record = draft.some_record(random);
            let n = record.rates.len();
            if n >= 10 {
                record.count = digits((n / 10 - 1) as u64, 4);
                record.count.push((n % 10 + 10) as u8);
            } else {
                record.count = vec![0, 0, 0, 0, 10];
            }
        },
    ),
    form(
        "checksum byte that is no digit",
        SCHEDULES,
        |draft, random| {
            let record = draft.some_record(random);
            spoil(&mut record.checksum, random);
        },
    ),
    form(
        "checksum 18 as bytes 0 and 18",
        SCHEDULES,
        |draft, random| {
            let record = draft.some_record(random);
            let value = (record.sum() % record.divisor()) as u8;
            record.checksum = vec![0, value.max(10)];
        },
    ),
    form("flag that is no digit", UPDATE, |draft, random| {
        spoil(&mut draft.records[0].flag, random);
    }),
    form(
        "next access byte that is no digit",
        UPDATE,
        |draft, random| {
            spoil(&mut draft.records[0].next, random);
        },
    ),
    form("all digits in ASCII", ALL, |draft, _| {
        draft.count = ascii(&draft.count);
        for record in &mut draft.records {
            record.schedule = ascii(&record.schedule);
            record.plant = ascii(&record.plant);
            record.start = ascii(&record.start);
            record.count = ascii(&record.count);
            record.flag = ascii(&record.flag);
            record.checksum = ascii(&record.checksum);
            record.next = ascii(&record.next);
        }
    }),
    form(
        "203 with 337 rates or more, length fitting",
        UPDATE,
        |draft, random| {
            let length = random.pick(&[337, 338, 336 + 256, 1_488, 2_000]);
            draft.records[0].resize(length);
        },
    ),
    form("n one above the rates", SCHEDULES, |draft, random| {
        let record = draft.some_record(random);
        record.count = digits(record.rates.len() as u64 + 1, 5);
    }),
    form(
        "n below the rates, length not fitting",
        SCHEDULES,
        |draft, random| {
            let record = draft.some_record(random);
            if record.rates.is_empty() {
                record.rates.push(7);
            }
            let length = record.rates.len() as u64;
            let less = random.pick(&[1, 2, 48, length]).min(length);
            record.count = digits(length - less, 5);
        },
    ),
    form(
        "n of another month, rates as they were",
        WHOLE_MONTHS,
        |draft, random| {
            // With 31 days: n 01440 before 1,488 rates.
            let record = draft.some_record(random);
            let length = record.rates.len() as u64;
            let mut n = length;
            while n == length {
                n = random.pick(&[1_344, 1_392, 1_440, 1_488]);
            }
            record.count = digits(n, 5);
        },
    ),
    form("n 99999, rates as they were", SCHEDULES, |draft, random| {
        draft.some_record(random).count = vec![9; 5];
    }),
    form(
        "rate left out or doubled, n as it was",
        SCHEDULES,
        |draft, random| {
            let record = draft.some_record(random);
            if record.rates.is_empty() || random.once_in(2) {
                record.rates.push(0);
            } else {
                record.rates.pop();
            }
        },
    ),
    form("body cut short", ALL, |draft, random| {
        let length = draft.body().len().max(33);
        draft.short = random.pick(&[1, 2, 14, 15, 48, length, length - 6, length - 5]);
    }),
    form("body cut anywhere", ALL, |draft, random| {
        let length = draft.body().len().max(1);
        draft.short = random.between(1, length as u64) as usize;
    }),
    form("bytes after the last record", ALL, |draft, random| {
        let length = random.pick(&[1, 2, 3, 14, 55, 80]);
        draft.tail = match random.below(3) {
            0 => vec![0; length],
            1 => b"\r\n".to_vec(),
            _ => random.bytes(length),
        };
    }),
    form("the last record once more", ALL, |draft, _| {
        draft
            .records
            .push(draft.records[draft.records.len() - 1].clone());
    }),
    form("a record left out", &[201], |draft, random| {
        let place = random.place(draft.records.len());
        draft.records.remove(place);
    }),
    form(
        "a flag where the format has none",
        WHOLE_MONTHS,
        |draft, random| {
            draft.some_record(random).flag = vec![2];
        },
    ),
    form("203 without its flag", UPDATE, |draft, _| {
        draft.records[0].flag.clear()
    }),
    form("203 without its next access", UPDATE, |draft, _| {
        draft.records[0].next.clear()
    }),
    form(
        "203 with next access without seconds",
        UPDATE,
        |draft, _| {
            draft.records[0].next.truncate(12);
        },
    ),
    form(
        "checksum of one or three digits",
        SCHEDULES,
        |draft, random| {
            let record = draft.some_record(random);
            if random.once_in(2) {
                record.checksum.insert(0, 0);
            } else {
                record.checksum.pop();
            }
        },
    ),
    form("301 result 2 or above", &[301], |draft, random| {
        draft.records[0].flag = vec![random.pick(&[2, 3, 9, 10, 48, 49, 255])];
    }),
];
