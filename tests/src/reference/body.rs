//! A file's body, read with its name (causes 7 to 13). Each stage looks at
//! all records before the next stage begins.

use super::calendar::{
    are_digits, days_of_month, moment, month_of_slot, number, start_slot, SLOTS,
};
use super::name::{check_plant, read_name, Name, Segment};

/// The most rates of an update.
pub const UPDATE_RATES: usize = 336;

/// A record that has been read.
#[derive(Clone, Debug, PartialEq, Eq)]
pub struct Record {
    pub schedule: Vec<u8>,
    pub plant: Vec<u8>,
    pub start_slot: u32,
    pub rates: Vec<u8>,
}

/// A file that has been read. A 301 has a result and no records here.
#[derive(Clone, Debug, PartialEq, Eq)]
pub struct File {
    pub format: u16,
    pub segment: Segment,
    /// The segment's four digits as a number.
    pub segment_value: u16,
    /// The creation time in seconds since 2000.
    pub created: u64,
    pub records: Vec<Record>,
    /// 203's flag.
    pub flag: Option<u8>,
    /// 203's next access in seconds since 2000.
    pub next: Option<u64>,
    /// 301's result.
    pub result: Option<u8>,
}

impl File {
    /// The record count that the body states.
    pub fn record_count(&self) -> usize {
        match self.result {
            Some(_) => 1,
            None => self.records.len(),
        }
    }

    pub fn total_rates(&self) -> usize {
        self.records.iter().map(|record| record.rates.len()).sum()
    }

    /// Format, segment, records, total rates, first start slot, flag, next
    /// access, 301's result; 0 where the format lacks it.
    pub fn summary(&self) -> [u32; 8] {
        [
            u32::from(self.format),
            u32::from(self.segment_value),
            self.record_count() as u32,
            self.total_rates() as u32,
            self.records.first().map_or(0, |record| record.start_slot),
            u32::from(self.flag.unwrap_or(0)),
            self.next.unwrap_or(0) as u32,
            u32::from(self.result.unwrap_or(0)),
        ]
    }
}

/// A record's parts as they stand in the body.
struct Parts<'a> {
    schedule: &'a [u8],
    plant: &'a [u8],
    start: &'a [u8],
    rates: &'a [u8],
    /// 203's flag, 301's result.
    flag: Option<u8>,
    checksum: &'a [u8],
    next: Option<&'a [u8]>,
}

/// The bytes of a body that are still to be read.
struct Rest<'a>(&'a [u8]);

impl<'a> Rest<'a> {
    fn bytes(&mut self, length: usize) -> Result<&'a [u8], u8> {
        if self.0.len() < length {
            return Err(9);
        }
        let (taken, rest) = self.0.split_at(length);
        self.0 = rest;
        Ok(taken)
    }

    fn digits(&mut self, length: usize) -> Result<&'a [u8], u8> {
        let taken = self.bytes(length)?;
        if are_digits(taken, length) {
            Ok(taken)
        } else {
            Err(9)
        }
    }
}

fn schedule_record<'a>(rest: &mut Rest<'a>, format: u16) -> Result<Parts<'a>, u8> {
    let schedule = rest.digits(10)?;
    let plant = rest.digits(26)?;
    let start = rest.digits(12)?;
    let n = number(rest.digits(5)?) as usize;
    if format == 203 && n > UPDATE_RATES {
        return Err(9);
    }
    let rates = rest.bytes(n)?;
    let update = format == 203;
    let flag = if update {
        Some(rest.digits(1)?[0])
    } else {
        None
    };
    let checksum = rest.digits(2)?;
    let next = if update { Some(rest.digits(14)?) } else { None };
    Ok(Parts {
        schedule,
        plant,
        start,
        rates,
        flag,
        checksum,
        next,
    })
}

fn registration_record<'a>(rest: &mut Rest<'a>) -> Result<Parts<'a>, u8> {
    let plant = rest.digits(26)?;
    let result = rest.digits(1)?[0];
    if result > 1 {
        return Err(9);
    }
    Ok(Parts {
        schedule: &[],
        plant,
        start: &[],
        rates: &[],
        flag: Some(result),
        checksum: &[],
        next: None,
    })
}

/// Cause 9: record count, digits, 203's n above 336, length, 301's result.
fn form(format: u16, body: &[u8]) -> Result<Vec<Parts<'_>>, u8> {
    let mut rest = Rest(body);
    let count = number(rest.digits(6)?);
    let due = if format == 201 { 13 } else { 1 };
    if count != due {
        return Err(9);
    }
    let mut records = Vec::new();
    for _ in 0..count {
        records.push(match format {
            301 => registration_record(&mut rest)?,
            _ => schedule_record(&mut rest, format)?,
        });
    }
    if rest.0.is_empty() {
        Ok(records)
    } else {
        Err(9)
    }
}

/// A record's fields by where they begin in the body; of a 201 or 202 flag
/// and next access are none.
#[derive(Clone, Copy, Debug, PartialEq, Eq)]
pub struct Placed {
    pub schedule: usize,
    pub plant: usize,
    pub start: usize,
    pub rates: usize,
    pub count: usize,
    pub flag: Option<usize>,
    pub checksum: usize,
    pub next: Option<usize>,
}

/// Where the fields of a body's records stand. Cause 7 for a format that is
/// not 201 to 203, 9 for a body that breaks its form.
pub fn take_apart(format: u32, body: &[u8]) -> Result<Vec<Placed>, u8> {
    let format = match format {
        201..=203 => format as u16,
        _ => return Err(7),
    };
    let at = |part: &[u8]| part.as_ptr() as usize - body.as_ptr() as usize;
    let placed = |record: Parts| Placed {
        schedule: at(record.schedule),
        plant: at(record.plant),
        start: at(record.start),
        rates: at(record.rates),
        count: record.rates.len(),
        flag: record.flag.map(|_| at(record.rates) + record.rates.len()),
        checksum: at(record.checksum),
        next: record.next.map(at),
    };
    Ok(form(format, body)?.into_iter().map(placed).collect())
}

/// The month of a 201 or 202 record whose start and n keep the rules.
fn whole_month(record: &Parts) -> Result<u16, u8> {
    let slot = start_slot(record.start).ok_or(10)?;
    let first_of_month = record.start[6..12] == [0, 1, 0, 0, 0, 0];
    let month = month_of_slot(slot) as u16;
    if first_of_month && record.rates.len() == 48 * days_of_month(month) as usize {
        Ok(month)
    } else {
        Err(10)
    }
}

/// Cause 10: dates and n against the rules.
fn check_dates(name: &Name, records: &[Parts]) -> Result<(), u8> {
    if let Segment::Update = name.segment {
        let record = &records[0];
        let slot = start_slot(record.start).ok_or(10)?;
        if slot as usize + record.rates.len() > SLOTS as usize {
            return Err(10);
        }
        moment(record.next.unwrap_or(&[])).ok_or(10)?;
        return Ok(());
    }
    let mut months = Vec::new();
    for record in records {
        months.push(whole_month(record)?);
    }
    let in_order = match name.segment {
        Segment::Monthly { month } => months == [month],
        _ => months.windows(2).all(|pair| pair[1] == pair[0] + 1),
    };
    if in_order {
        Ok(())
    } else {
        Err(10)
    }
}

/// Cause 11: a rate above 100.
fn check_rates(records: &[Parts]) -> Result<(), u8> {
    let all_rates = records.iter().flat_map(|record| record.rates);
    if all_rates.clone().any(|rate| *rate > 100) {
        Err(11)
    } else {
        Ok(())
    }
}

/// The checksum of rates that start at YYYYMMDDhhmm: their sum modulo
/// month + day.
pub fn checksum(start: &[u8], rates: &[u8]) -> u64 {
    let month_and_day = number(&start[4..6]) + number(&start[6..8]);
    let sum: u64 = rates.iter().map(|rate| u64::from(*rate)).sum();
    sum % month_and_day as u64
}

/// Cause 12: the checksum. The flag isn't summed.
fn check_checksums(records: &[Parts]) -> Result<(), u8> {
    for record in records {
        if number(record.checksum) as u64 != checksum(record.start, record.rates) {
            return Err(12);
        }
    }
    Ok(())
}

/// Cause 13: a record's plant ID isn't the name's.
fn check_record_plants(name: &Name, records: &[Parts]) -> Result<(), u8> {
    if records.iter().all(|record| record.plant == name.plant) {
        Ok(())
    } else {
        Err(13)
    }
}

/// Reads a name and body, for a plant or for none.
pub fn read(plant: Option<&[u8]>, name: &[u8], body: &[u8]) -> Result<File, u8> {
    let name = read_name(name)?;
    check_plant(plant, &name)?;
    let records = form(name.format, body)?;
    if name.format != 301 {
        check_dates(&name, &records)?;
        check_rates(&records)?;
        check_checksums(&records)?;
    }
    check_record_plants(&name, &records)?;
    Ok(finish(&name, &records))
}

/// The same for a file to be taken by a unit: a 301 is cause 7.
pub fn read_to_take(plant: &[u8], name: &[u8], body: &[u8]) -> Result<File, u8> {
    if read_name(name)?.format == 301 {
        return Err(7);
    }
    read(Some(plant), name, body)
}

fn finish(name: &Name, records: &[Parts]) -> File {
    let registration = name.format == 301;
    let kept = if registration { &[] } else { records };
    File {
        format: name.format,
        segment: name.segment,
        segment_value: name.segment_value,
        created: name.created,
        records: kept
            .iter()
            .map(|record| Record {
                schedule: record.schedule.to_vec(),
                plant: record.plant.to_vec(),
                start_slot: start_slot(record.start).expect("checked before"),
                rates: record.rates.to_vec(),
            })
            .collect(),
        flag: kept.first().and_then(|record| record.flag),
        next: kept.first().and_then(|record| record.next).and_then(moment),
        result: if registration { records[0].flag } else { None },
    }
}
