//! Lists of calls: a plant and its settings, and one call after another, each
//! aimed at what the machine holds at that moment.

use super::draft::{check_digit, PLANT_X};
use super::random::Random;
use super::shapes::{Shape, SHAPES};
use super::{files, instants, outputs, responses};
use crate::call::Call;
use crate::firmware::{Settings, STORE_LENGTH};
use crate::reference::Machine;

/// What a list is installed with.
#[derive(Clone, Debug)]
pub struct Installing {
    pub id: Vec<u8>,
    pub mac: Vec<u8>,
    pub settings: Settings,
    /// The store as it is lent: any bytes, at times of a wrong length.
    pub store: Vec<u8>,
}

/// An ID whose check digit is this one.
fn plant_with_digit(digit: u8, random: &mut Random) -> Vec<u8> {
    if digit == PLANT_X[25] && random.once_in(2) {
        return PLANT_X.to_vec();
    }
    let mut id = random.digits(26);
    id[25] = digit;
    // The first digit has weight 1, so that it brings the sum to any digit.
    let excess = (check_digit(&id) + 10 - digit) % 10;
    id[0] = (id[0] + 10 - excess) % 10;
    id
}

fn capacity(random: &mut Random) -> u64 {
    match random.below(4) {
        0 => random.pick(&[1, 2, 99, 100, 101, 1_999_999, 2_000_000]),
        1 => random.pick(&[4_000, 5_500, 10_000]),
        _ => random.between(1, 2_000_000),
    }
}

fn some_store(random: &mut Random) -> Vec<u8> {
    let length = match random.once_in(30) {
        false => STORE_LENGTH,
        true => random.pick(&[0, 1, 1_488, STORE_LENGTH - 1, STORE_LENGTH + 1, 65_536]),
    };
    match random.below(3) {
        0 => vec![random.pick(&[0, 50, 101, 255]); length],
        _ => random.bytes(length),
    }
}

impl Installing {
    pub fn some(random: &mut Random) -> Installing {
        let digit = random.below(10) as u8;
        let panel = capacity(random);
        let inverter = match random.below(3) {
            0 => panel,
            _ => capacity(random),
        };
        Installing {
            id: plant_with_digit(digit, random),
            mac: outputs::mac(random),
            settings: Settings::of(panel, inverter, random.between(5, 10)),
            store: some_store(random),
        }
    }
}

/// One call after another, without end.
pub struct Calls {
    shape: &'static Shape,
    last: u64,
}

impl Calls {
    pub fn some(random: &mut Random) -> Calls {
        let shape = &SHAPES[random.below(SHAPES.len() as u64) as usize];
        Calls {
            shape,
            last: (shape.home)(random).min(instants::LAST),
        }
    }

    /// The clock as it was last set, or where the list begins.
    pub fn last(&self) -> u64 {
        self.last
    }

    pub fn words(&self) -> &'static str {
        self.shape.words
    }

    /// The next call. A unit without a clock is given one sooner or later.
    pub fn next(&mut self, machine: &Machine, random: &mut Random) -> Call {
        self.last = machine.clock.unwrap_or(self.last);
        if machine.clock.is_none() && random.once_in(3) {
            return Call::Tick {
                second: instants::second(machine, self.last, &self.shape.ticks, random),
            };
        }
        match random.weighted(&self.shape.calls) {
            0 => Call::Tick {
                second: instants::second(machine, self.last, &self.shape.ticks, random),
            },
            1 => Call::ClockLost,
            2 => {
                let (name, body) = files::file(machine, self.last, self.shape, random);
                Call::TakeFile { name, body }
            }
            3 => Call::UpdateFailed {
                status: instants::status(random),
            },
            4 => Call::FixedFailed {
                status: instants::status(random),
            },
            5 => Call::Due,
            6 => Call::Ceiling {
                slot: instants::slot(machine, self.last, random),
            },
            7 => Call::Command,
            8 => Call::FreeBlocks,
            _ => {
                let (name, body) = files::file(machine, self.last, self.shape, random);
                // 'The file is exactly that long', and may be empty.
                let file = if random.once_in(40) { &[] } else { &body[..] };
                let (boundary, response) = responses::response(&name, file, random);
                Call::TakeResponse { boundary, response }
            }
        }
    }
}
