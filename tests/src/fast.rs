//! A reader of names and bodies written for speed, for the benchmark: one
//! walk over the body, whole slices at a time. Its answers are the
//! reference's.

use std::array::from_fn;

const WEIGHTS: [u8; 25] = [
    1, 3, 5, 7, 9, 1, 3, 5, 7, 9, 1, 3, 5, 7, 9, 1, 3, 5, 7, 9, 1, 3, 5, 7, 9,
];
const DAYS_BEFORE: [u16; 13] = [0, 31, 59, 90, 120, 151, 181, 212, 243, 273, 304, 334, 365];
const SLOTS: u32 = 1_753_200;
const MONTHS: u32 = 1_200;
/// Schedule ID, plant ID, start and n of a record.
const HEAD: usize = 53;
/// Rates of a row, surveyed at once.
const LANES: usize = 16;
/// So many rows that the sum of a lane still fits 16 bits.
const STRETCH: usize = 256;

/// The greatest byte; a digit field is good when it is at most 9.
#[inline]
fn greatest(bytes: &[u8]) -> u8 {
    bytes.iter().fold(0, |most, byte| most.max(*byte))
}

/// Greatest rate and sum of the rates, a row of sixteen at a time. The
/// lanes' arrays become vector registers.
#[inline]
fn survey(rates: &[u8]) -> (u8, u32) {
    let (rows, rest) = rates.split_at(rates.len() - rates.len() % LANES);
    let mut most = [0; LANES];
    let mut sum = rest.iter().map(|rate| u32::from(*rate)).sum();
    for stretch in rows.chunks(STRETCH * LANES) {
        let mut sums = [0_u16; LANES];
        for row in stretch.chunks_exact(LANES) {
            most = from_fn(|lane| row[lane].max(most[lane]));
            sums = from_fn(|lane| sums[lane] + u16::from(row[lane]));
        }
        sum += sums.iter().map(|sum| u32::from(*sum)).sum::<u32>();
    }
    (greatest(&most).max(greatest(rest)), sum)
}

#[inline]
fn two(digits: &[u8]) -> u32 {
    u32::from(digits[0]) * 10 + u32::from(digits[1])
}

#[inline]
fn is_leap(year: u32) -> bool {
    year % 4 == 0
}

#[inline]
fn days_of(year: u32, month: u32) -> u32 {
    let month = month as usize;
    let days = u32::from(DAYS_BEFORE[month] - DAYS_BEFORE[month - 1]);
    days + u32::from(month == 2 && is_leap(year))
}

/// A date of YYYYMMDDhhmm digits that exists.
struct Date {
    month: u32,
    month_of_year: u32,
    day: u32,
    minutes: u32,
}

/// Reads twelve digits of value 0 to 9.
#[inline]
fn date(digits: &[u8]) -> Option<Date> {
    let year = two(&digits[2..4]);
    let month = two(&digits[4..6]);
    let day = two(&digits[6..8]);
    let hour = two(&digits[8..10]);
    let minute = two(&digits[10..12]);
    if digits[..2] != [2, 0] || !(1..=12).contains(&month) || hour > 23 || minute > 59 {
        return None;
    }
    if day == 0 || day > days_of(year, month) {
        return None;
    }
    let leap_day = u32::from(month > 2 && is_leap(year));
    let before = u32::from(DAYS_BEFORE[month as usize - 1]) + leap_day + day - 1;
    let days = year * 365 + year.div_ceil(4) + before;
    Some(Date {
        month: year * 12 + month - 1,
        month_of_year: month,
        day,
        minutes: (days * 24 + hour) * 60 + minute,
    })
}

/// Reads fourteen digits as seconds since 2000.
#[inline]
fn moment(digits: &[u8]) -> Option<u32> {
    let second = two(&digits[12..14]);
    let date = date(digits)?;
    (second <= 59).then(|| date.minutes * 60 + second)
}

/// What the name says.
struct Name {
    format: u32,
    segment: u32,
    plant: [u8; 26],
}

#[inline]
fn read_name(name: &[u8]) -> Option<Name> {
    let name: &[u8; 55] = name.try_into().ok()?;
    if name[3] != b'_' || name[8] != b'_' || name[35] != b'_' || name[50..] != *b".data" {
        return None;
    }
    let values = name.map(|byte| byte.wrapping_sub(b'0'));
    let bad = greatest(&values[4..8])
        .max(greatest(&values[9..35]))
        .max(greatest(&values[36..50]));
    if bad > 9 {
        return None;
    }
    let high = two(&values[4..6]);
    let low = two(&values[6..8]);
    let segment = high * 100 + low;
    let (format, right) = match &name[..3] {
        b"201" => (201, segment / 10 == 999),
        b"202" => (202, (1..=12).contains(&low)),
        b"203" => (203, segment == 0),
        b"301" => (301, segment == 8888),
        _ => return None,
    };
    if !right {
        return None;
    }
    moment(&values[36..50])?;
    let plant = values[9..35].try_into().expect("26 bytes");
    Some(Name {
        format,
        segment,
        plant,
    })
}

#[inline]
fn check_digit_fits(plant: &[u8; 26]) -> bool {
    let products = plant.iter().zip(&WEIGHTS);
    let sum: u32 = products
        .map(|(digit, weight)| u32::from(digit * weight))
        .sum();
    sum % 10 == u32::from(plant[25])
}

/// The summary of a 301.
fn read_registration(name: &Name, body: &[u8]) -> Result<[u32; 8], u8> {
    let body: &[u8; 33] = body.try_into().map_err(|_| 9)?;
    if body[..6] != [0, 0, 0, 0, 0, 1] || greatest(&body[6..32]) > 9 || body[32] > 1 {
        return Err(9);
    }
    if body[6..32] != name.plant {
        return Err(13);
    }
    let result = u32::from(body[32]);
    Ok([301, name.segment, 1, 0, 0, 0, 0, result])
}

/// Reads a name and body, for a plant or for none. On acceptance: format,
/// segment, records, total rates, first start slot, flag, next access in
/// seconds, 301's result.
pub fn read(plant: Option<&[u8]>, name: &[u8], body: &[u8]) -> Result<[u32; 8], u8> {
    let name = read_name(name).ok_or(7)?;
    let known = match plant {
        Some(id) => name.plant == id,
        None => check_digit_fits(&name.plant),
    };
    if !known {
        return Err(8);
    }
    if name.format == 301 {
        return read_registration(&name, body);
    }
    let update = name.format == 203;
    let (records, count) = match name.format {
        201 => (13, [0, 0, 0, 0, 1, 3]),
        _ => (1, [0, 0, 0, 0, 0, 1]),
    };
    let mut rest = body.strip_prefix(&count).ok_or(9)?;
    // The lowest cause so far. A record can't hide another's lower cause,
    // and a bad form found later is still 9.
    let mut worst = u8::MAX;
    let mut summary = [name.format, name.segment, records, 0, 0, 0, 0, 0];
    // The month that is due; none yet in a 201's first record.
    let mut due = match name.format {
        202 => Some(name.segment / 100 * 12 + name.segment % 100 - 1),
        _ => None,
    };
    for record in 0..records {
        let (head, after) = rest.split_first_chunk::<HEAD>().ok_or(9)?;
        if greatest(head) > 9 {
            return Err(9);
        }
        let n = two(&head[48..50]) * 1_000 + two(&head[50..52]) * 10 + u32::from(head[52]);
        if update && n > 336 {
            return Err(9);
        }
        let (rates, after) = after.split_at_checked(n as usize).ok_or(9)?;
        let tail_length = if update { 17 } else { 2 };
        let (tail, after) = after.split_at_checked(tail_length).ok_or(9)?;
        if greatest(tail) > 9 {
            return Err(9);
        }
        rest = after;
        let checksum = if update { &tail[1..3] } else { tail };
        match date(&head[36..48]) {
            None => worst = worst.min(10),
            Some(start) => {
                if record == 0 {
                    summary[4] = start.minutes / 30;
                }
                let lawful = if update {
                    start.minutes % 30 == 0 && start.minutes / 30 + n <= SLOTS
                } else {
                    let year = start.month / 12;
                    head[42..48] == [0, 1, 0, 0, 0, 0]
                        && n == 48 * days_of(year, start.month_of_year)
                        && due.is_none_or(|month| month == start.month)
                        && start.month < MONTHS
                };
                due = Some(start.month + 1);
                let (most, sum) = survey(rates);
                let cause = if !lawful {
                    10
                } else if most > 100 {
                    11
                } else if sum % (start.month_of_year + start.day) != two(checksum) {
                    12
                } else if head[10..36] != name.plant {
                    13
                } else {
                    u8::MAX
                };
                worst = worst.min(cause);
            }
        }
        summary[3] += n;
        if update {
            summary[5] = u32::from(tail[0]);
            match moment(&tail[3..17]) {
                Some(next) => summary[6] = next,
                None => worst = worst.min(10),
            }
        }
    }
    if !rest.is_empty() {
        return Err(9);
    }
    if worst == u8::MAX {
        Ok(summary)
    } else {
        Err(worst)
    }
}
