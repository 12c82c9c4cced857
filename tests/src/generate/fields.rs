//! Writer fields, valid and damaged, and the buffers they are written into.

use super::almanac::{moment, start, MONTHS, SLOTS};
use super::almanac::{month_start, slots, some_moment, some_month, spoil_date, spoil_year};
use super::draft::{check_digit, some_plant, some_update_span};
use super::random::Random;
use crate::reference::Fields;

/// Fields, the length of the lent buffer, and the cause that must come (0
/// for written, nothing where it is left to chance).
pub struct Order {
    pub fields: Fields,
    pub room: usize,
    pub expected: Option<u8>,
}

/// The bytes of the body that valid fields make.
fn body_length(fields: &Fields) -> usize {
    let records = if fields.format == 201 { 13 } else { 1 };
    let update = if fields.format == 203 { 15 } else { 0 };
    6 + 55 * records + update + fields.rates.len()
}

fn valid(random: &mut Random) -> Fields {
    let format = random.pick(&[201, 202, 202, 203, 203, 203, 203, 203]);
    let mut fields = Fields {
        format,
        plant: some_plant(random),
        schedule: random.digits(10),
        start: Vec::new(),
        next: moment(some_moment(random)),
        rates: Vec::new(),
        flag: random.below(10) as u32,
    };
    if format == 203 {
        let (slot, n) = some_update_span(random);
        fields.start = start(slot);
        fields.rates = random.rates(n as usize);
        return fields;
    }
    let count = if format == 201 { 13 } else { 1 };
    let first = some_month(random, MONTHS - count);
    let needed = (first..first + count).map(slots).sum();
    fields.start = month_start(first);
    fields.rates = random.rates(needed);
    // Flag and next access are not looked at here.
    if random.once_in(2) {
        fields.flag = random.bits() as u32;
        let length = random.below(20) as usize;
        fields.next = random.bytes(length);
    }
    fields
}

/// Damages a digit field: a byte above 9, a byte less, a byte more, nothing.
fn spoil_digits(part: &mut Vec<u8>, random: &mut Random) {
    match random.below(4) {
        0 => part.push(0),
        1 => {
            part.pop();
        }
        2 => part.clear(),
        _ if part.is_empty() => {}
        _ => {
            let place = random.place(part.len());
            part[place] = random.non_digit();
        }
    }
}

/// Damages the fields so that this cause applies.
fn damage(fields: &mut Fields, cause: u8, random: &mut Random) {
    let update = fields.format == 203;
    match cause {
        1 => match random.below(3) {
            0 if fields.plant.len() == 26 => {
                fields.plant[25] = random.other_digit(check_digit(&fields.plant));
            }
            _ => spoil_digits(&mut fields.plant, random),
        },
        6 => {
            fields.flag = random.pick(&[10, 11, 255, 256, 265, u32::MAX]);
            if !update {
                fields.format = random.pick(&[0, 200, 204, 301, 203 + 65_536]);
            }
        }
        7 => {
            fields.format = random.pick(&[0, 200, 204, 301, 457, 65_737, u32::MAX]);
            fields.flag %= 10;
        }
        9 => match random.below(if update { 4 } else { 2 }) {
            0 => spoil_digits(&mut fields.schedule, random),
            1 => spoil_digits(&mut fields.start, random),
            2 => spoil_digits(&mut fields.next, random),
            _ => fields.rates = vec![50; random.pick(&[337, 338, 592, 1_488])],
        },
        10 if update => match random.below(6) {
            0 => spoil_date(&mut fields.start, random),
            1 => spoil_year(&mut fields.start, random),
            2 => spoil_date(&mut fields.next, random),
            3 => spoil_year(&mut fields.next, random),
            4 => fields.start[10..12].copy_from_slice(&random.pick(&[[0, 5], [3, 1], [5, 9]])),
            _ => {
                let n = random.between(2, 336);
                fields.rates = random.rates(n as usize);
                fields.start = start(SLOTS - random.between(1, n - 1));
            }
        },
        10 => match random.below(6) {
            0 => spoil_date(&mut fields.start, random),
            1 => spoil_year(&mut fields.start, random),
            2 => fields.start[7] += random.between(1, 8) as u8,
            3 => fields.start[10] = 3,
            4 if fields.format == 201 => {
                fields.start = month_start(random.between(MONTHS - 12, MONTHS - 1));
            }
            _ => {
                let length = fields.rates.len();
                let other = random.pick(&[1, 48, length, 336]).min(length);
                let longer = random.once_in(2) || length == 0;
                fields
                    .rates
                    .resize(if longer { length + 1 } else { length - other }, 50);
            }
        },
        11 => {
            if fields.rates.is_empty() {
                fields.rates.push(0);
                fields.start = start(random.below(SLOTS));
            }
            let place = random.place(fields.rates.len());
            fields.rates[place] = random.pick(&[101, 102, 128, 200, 255]);
        }
        _ => {}
    }
}

/// Orders without end: valid, with one fault, with two.
pub struct Orders(Random);

impl Orders {
    pub fn new(seed: u64) -> Orders {
        Orders(Random::new(seed))
    }
}

impl Iterator for Orders {
    type Item = Order;

    fn next(&mut self) -> Option<Order> {
        let random = &mut self.0;
        let mut fields = valid(random);
        let causes = [1, 6, 7, 9, 10, 11, 15];
        let faults = random.pick(&[0, 0, 1, 1, 1, 2]);
        let mut chosen: Vec<u8> = (0..faults).map(|_| random.pick(&causes)).collect();
        // The lowest is done last, so that no other fault undoes it.
        chosen.sort_by(|left, right| right.cmp(left));
        for cause in &chosen {
            damage(&mut fields, *cause, random);
        }
        let length = body_length(&fields);
        let room = if chosen.contains(&15) {
            random.pick(&[0, 1, length / 2, length - 1])
        } else {
            length + random.pick(&[0, 0, 1, 7, 64])
        };
        let certain = chosen.len() < 2 || chosen[0] != chosen[1];
        let expected = certain.then(|| chosen.last().copied().unwrap_or(0));
        Some(Order {
            fields,
            room,
            expected,
        })
    }
}
