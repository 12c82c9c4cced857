//! The writer of 201, 202 and 203 bodies (causes 1, 6, 7, 9, 10, 11, 15).

use super::body::{checksum, UPDATE_RATES};
use super::calendar::{
    are_digits, days_of_month, digits_of, digits_of_slot, first_slot, moment, month_of_slot,
    start_slot, MONTHS, SLOTS,
};
use super::plant::is_plant_id;

/// What the writer is given.
#[derive(Clone, Debug, PartialEq, Eq)]
pub struct Fields {
    pub format: u32,
    pub plant: Vec<u8>,
    /// One schedule ID for all records.
    pub schedule: Vec<u8>,
    /// YYYYMMDDhhmm of the first record.
    pub start: Vec<u8>,
    /// YYYYMMDDhhmmss, looked at for 203 alone.
    pub next: Vec<u8>,
    /// The rates of all records end to end.
    pub rates: Vec<u8>,
    /// Looked at unless the format is 201 or 202.
    pub flag: u32,
}

/// The months of a 201 or 202, if the start and all of them keep the rules.
fn months(fields: &Fields) -> Option<Vec<u16>> {
    let slot = start_slot(&fields.start)?;
    if fields.start[6..12] != [0, 1, 0, 0, 0, 0] {
        return None;
    }
    let first = month_of_slot(slot) as u16;
    let count = if fields.format == 201 { 13 } else { 1 };
    if first + count > MONTHS {
        return None;
    }
    Some((first..first + count).collect())
}

fn rates_of_month(month: u16) -> usize {
    48 * days_of_month(month) as usize
}

fn check(fields: &Fields) -> Result<(), u8> {
    let update = fields.format == 203;
    let fixed = fields.format == 201 || fields.format == 202;
    if !is_plant_id(&fields.plant) {
        return Err(1);
    }
    if !fixed && fields.flag > 9 {
        return Err(6);
    }
    if !fixed && !update {
        return Err(7);
    }
    if !are_digits(&fields.schedule, 10) || !are_digits(&fields.start, 12) {
        return Err(9);
    }
    if update && (!are_digits(&fields.next, 14) || fields.rates.len() > UPDATE_RATES) {
        return Err(9);
    }
    if update {
        let slot = start_slot(&fields.start).ok_or(10)?;
        moment(&fields.next).ok_or(10)?;
        if slot as usize + fields.rates.len() > SLOTS as usize {
            return Err(10);
        }
    } else {
        let months = months(fields).ok_or(10)?;
        let needed: usize = months.iter().map(|month| rates_of_month(*month)).sum();
        if fields.rates.len() != needed {
            return Err(10);
        }
    }
    if fields.rates.iter().any(|rate| *rate > 100) {
        return Err(11);
    }
    Ok(())
}

/// A record up to and with its rates.
fn opening(fields: &Fields, start: &[u8], rates: &[u8]) -> Vec<u8> {
    let mut bytes = fields.schedule.clone();
    bytes.extend(&fields.plant);
    bytes.extend(start);
    bytes.extend(digits_of(rates.len() as u64, 5));
    bytes.extend(rates);
    bytes
}

/// The body made from the fields.
pub fn write(fields: &Fields) -> Result<Vec<u8>, u8> {
    check(fields)?;
    if fields.format == 203 {
        let mut body = digits_of(1, 6);
        body.extend(opening(fields, &fields.start, &fields.rates));
        body.push(fields.flag as u8);
        body.extend(digits_of(checksum(&fields.start, &fields.rates), 2));
        body.extend(&fields.next);
        return Ok(body);
    }
    let months = months(fields).ok_or(10)?;
    let mut body = digits_of(months.len() as u64, 6);
    let mut rest = fields.rates.as_slice();
    for month in months {
        let (rates, later) = rest.split_at(rates_of_month(month));
        let start = digits_of_slot(first_slot(month));
        body.extend(opening(fields, &start, rates));
        body.extend(digits_of(checksum(&start, rates), 2));
        rest = later;
    }
    Ok(body)
}

/// The body, if it fits a lent buffer of `room` bytes; else cause 15.
pub fn write_into(fields: &Fields, room: usize) -> Result<Vec<u8>, u8> {
    let body = write(fields)?;
    if body.len() > room {
        Err(15)
    } else {
        Ok(body)
    }
}
