//! A name and body in their parts, so that damage can be done to one part
//! and the rest stays lawful.

use super::almanac::{
    self, digits, first_slot, month_start, slots, some_moment, some_month, MONTHS, SLOTS,
};
use super::random::Random;
use crate::firmware::Settings;

/// Plant X of 01's examples.
pub const PLANT_X: [u8; 26] = [
    1, 2, 3, 4, 5, 6, 7, 8, 9, 0, 1, 2, 3, 4, 5, 6, 7, 8, 9, 0, 1, 2, 3, 4, 5, 5,
];

/// Its settings in 01's bench examples.
pub const SETTINGS_X: Settings = Settings::of(4_000, 5_500, 5);

/// A name's parts, in ASCII.
#[derive(Clone)]
pub struct NameParts {
    pub format: Vec<u8>,
    pub segment: Vec<u8>,
    pub plant: Vec<u8>,
    pub created: Vec<u8>,
    pub underscores: [u8; 3],
    pub tail: Vec<u8>,
    /// Bytes cut off the end.
    pub short: usize,
}

/// A record's parts. A part that the format lacks is empty; 301's result
/// stands as the flag.
#[derive(Clone, Default)]
pub struct RecordParts {
    pub schedule: Vec<u8>,
    pub plant: Vec<u8>,
    pub start: Vec<u8>,
    pub count: Vec<u8>,
    pub rates: Vec<u8>,
    pub flag: Vec<u8>,
    pub checksum: Vec<u8>,
    pub next: Vec<u8>,
}

/// A name and body in parts, and the plant that they are for.
#[derive(Clone)]
pub struct Draft {
    pub format: u16,
    pub owner: Vec<u8>,
    pub name: NameParts,
    pub count: Vec<u8>,
    pub records: Vec<RecordParts>,
    /// Bytes after the last record.
    pub tail: Vec<u8>,
    /// Bytes cut off the end of the body.
    pub short: usize,
}

/// The check digit of an ID's first 25 digits.
pub fn check_digit(id: &[u8]) -> u8 {
    let mut sum = 0;
    for (place, digit) in id[..25].iter().enumerate() {
        sum += (2 * (place % 5) + 1) * usize::from(*digit);
    }
    (sum % 10) as u8
}

/// An ID with a right check digit, often plant X.
pub fn some_plant(random: &mut Random) -> Vec<u8> {
    if random.once_in(4) {
        return PLANT_X.to_vec();
    }
    let mut id = random.digits(26);
    id[25] = check_digit(&id);
    id
}

/// Body digits as ASCII.
pub fn ascii(digits: &[u8]) -> Vec<u8> {
    digits
        .iter()
        .map(|digit| digit.wrapping_add(b'0'))
        .collect()
}

impl NameParts {
    pub fn bytes(&self) -> Vec<u8> {
        let mut name = self.format.clone();
        name.push(self.underscores[0]);
        name.extend(&self.segment);
        name.push(self.underscores[1]);
        name.extend(&self.plant);
        name.push(self.underscores[2]);
        name.extend(&self.created);
        name.extend(&self.tail);
        name.truncate(name.len() - self.short.min(name.len()));
        name
    }
}

impl RecordParts {
    /// Month + day of the start, at least 1 also where the start is damaged.
    pub fn divisor(&self) -> u64 {
        let digit = |place: usize| u64::from(self.start[place]);
        (10 * (digit(4) + digit(6)) + digit(5) + digit(7)).max(1)
    }

    pub fn sum(&self) -> u64 {
        self.rates.iter().map(|rate| u64::from(*rate)).sum()
    }

    /// Sets the checksum that belongs to the start and the rates.
    pub fn seal(&mut self) {
        self.checksum = digits(self.sum() % self.divisor() % 100, 2);
    }

    /// Gives the record another number of rates, n and checksum fitting.
    pub fn resize(&mut self, length: usize) {
        self.rates.resize(length, 50);
        self.count = digits(length as u64, 5);
        self.seal();
    }

    /// Moves the record to a month, also past 2099, all else fitting.
    pub fn set_month(&mut self, month: u64) {
        self.start = month_start(month);
        self.resize(slots(month));
    }

    fn put(&self, body: &mut Vec<u8>) {
        body.extend(&self.schedule);
        body.extend(&self.plant);
        body.extend(&self.start);
        body.extend(&self.count);
        body.extend(&self.rates);
        body.extend(&self.flag);
        body.extend(&self.checksum);
        body.extend(&self.next);
    }
}

fn month_record(schedule: &[u8], plant: &[u8], month: u64, random: &mut Random) -> RecordParts {
    let mut record = RecordParts {
        schedule: schedule.to_vec(),
        plant: plant.to_vec(),
        start: month_start(month),
        count: digits(slots(month) as u64, 5),
        rates: random.rates(slots(month)),
        ..RecordParts::default()
    };
    record.seal();
    record
}

/// Start slot and n of an update: any, at a month's edge, up to T exactly.
pub fn some_update_span(random: &mut Random) -> (u64, u64) {
    let n = match random.below(8) {
        0 => 0,
        1 => 336,
        2 => random.pick(&[1, 2, 9, 10, 99, 100, 335]),
        _ => random.below(337),
    };
    let slot = match random.below(8) {
        0 => (SLOTS - n).min(SLOTS - 1),
        1 => 0,
        2 | 3 => {
            let edge = first_slot(random.between(1, MONTHS - 1));
            edge - random.below(n.max(1) + 1)
        }
        _ => random.below(SLOTS - n),
    };
    (slot, n)
}

fn update_record(
    schedule: &[u8],
    plant: &[u8],
    (slot, n): (u64, u64),
    random: &mut Random,
) -> RecordParts {
    let mut record = RecordParts {
        schedule: schedule.to_vec(),
        plant: plant.to_vec(),
        start: almanac::start(slot),
        count: digits(n, 5),
        rates: random.rates(n as usize),
        flag: random.digits(1),
        next: almanac::moment(some_moment(random)),
        ..RecordParts::default()
    };
    record.seal();
    record
}

impl Draft {
    /// A valid name and body of a format.
    pub fn valid(format: u16, random: &mut Random) -> Draft {
        let plant = some_plant(random);
        let schedule = random.digits(10);
        match format {
            201 => {
                let first = some_month(random, MONTHS - 13);
                Draft::yearly(&plant, &schedule, first, random)
            }
            202 => {
                let month = some_month(random, MONTHS - 1);
                Draft::monthly(&plant, &schedule, month, random)
            }
            203 => {
                let span = some_update_span(random);
                Draft::update(&plant, &schedule, span, random)
            }
            _ => Draft::registration(&plant, random),
        }
    }

    /// The 13 months from `first` on, with any digit in the segment.
    pub fn yearly(plant: &[u8], schedule: &[u8], first: u64, random: &mut Random) -> Draft {
        let shared = random.once_in(2);
        let mut records = Vec::new();
        for month in first..first + 13 {
            let own = random.digits(10);
            let id = if shared { schedule } else { &own };
            records.push(month_record(id, plant, month, random));
        }
        let segment = vec![9, 9, 9, random.below(10) as u8];
        Draft::assembled(201, plant, &segment, records, random)
    }

    pub fn monthly(plant: &[u8], schedule: &[u8], month: u64, random: &mut Random) -> Draft {
        let segment = digits(month / 12 * 100 + month % 12 + 1, 4);
        let record = month_record(schedule, plant, month, random);
        Draft::assembled(202, plant, &segment, vec![record], random)
    }

    /// An update of a start slot and n, with any flag and next access.
    pub fn update(plant: &[u8], schedule: &[u8], span: (u64, u64), random: &mut Random) -> Draft {
        let record = update_record(schedule, plant, span, random);
        Draft::assembled(203, plant, &[0; 4], vec![record], random)
    }

    pub fn registration(plant: &[u8], random: &mut Random) -> Draft {
        let record = RecordParts {
            plant: plant.to_vec(),
            flag: vec![random.below(2) as u8],
            ..RecordParts::default()
        };
        Draft::assembled(301, plant, &[8; 4], vec![record], random)
    }

    fn assembled(
        format: u16,
        plant: &[u8],
        segment: &[u8],
        records: Vec<RecordParts>,
        random: &mut Random,
    ) -> Draft {
        Draft {
            format,
            name: NameParts {
                format: format.to_string().into_bytes(),
                segment: ascii(segment),
                plant: ascii(plant),
                created: ascii(&almanac::moment(some_moment(random))),
                underscores: *b"___",
                tail: b".data".to_vec(),
                short: 0,
            },
            owner: plant.to_vec(),
            count: digits(records.len() as u64, 6),
            records,
            tail: Vec::new(),
            short: 0,
        }
    }

    /// One of the records, often the first or the last.
    pub fn some_record(&mut self, random: &mut Random) -> &mut RecordParts {
        let place = random.place(self.records.len());
        &mut self.records[place]
    }

    pub fn body(&self) -> Vec<u8> {
        let rates: usize = self.records.iter().map(|record| record.rates.len()).sum();
        let mut body = Vec::with_capacity(rates + 80 * self.records.len() + 80);
        body.extend(&self.count);
        for record in &self.records {
            record.put(&mut body);
        }
        body.extend(&self.tail);
        body.truncate(body.len() - self.short.min(body.len()));
        body
    }
}
