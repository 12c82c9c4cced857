//! Names and bodies for the readers: an endless, deterministic mixture of
//! valid ones, damaged ones and plain noise, and a list of special ones.

use super::almanac::{digits, month_start};
use super::damage::{all_damage, Damage};
use super::draft::{ascii, check_digit, Draft, PLANT_X};
use super::random::Random;

/// A name and a body, and the plant for which they are read.
pub struct Case {
    pub plant: Vec<u8>,
    pub name: Vec<u8>,
    pub body: Vec<u8>,
    /// What was done to them.
    pub words: [&'static str; 2],
    /// The causes that this must bring, read without and with the plant; 0
    /// for accepted, nothing where it is left to chance.
    pub expected: Option<(u8, u8)>,
}

impl Case {
    fn of(draft: &Draft, words: [&'static str; 2], expected: Option<(u8, u8)>) -> Case {
        Case {
            plant: draft.owner.clone(),
            name: draft.name.bytes(),
            body: draft.body(),
            words,
            expected,
        }
    }

    /// The lister's input.
    pub fn input(&self) -> Vec<u8> {
        let mut input = self.name.clone();
        input.push(b'\n');
        input.extend(&self.body);
        input
    }
}

/// The mixture; it never ends.
pub struct Cases {
    random: Random,
    damage: Vec<&'static Damage>,
}

/// A format; yearly files are long, so they come less often.
fn some_format(random: &mut Random) -> u16 {
    match random.below(100) {
        0..7 => 201,
        7..30 => 202,
        30..85 => 203,
        _ => 301,
    }
}

/// The lower cause that applies; 0 is none.
fn lower(left: u8, right: u8) -> u8 {
    match (left, right) {
        (0, cause) | (cause, 0) => cause,
        _ => left.min(right),
    }
}

impl Cases {
    pub fn new(seed: u64) -> Cases {
        Cases {
            random: Random::new(seed),
            damage: all_damage().collect(),
        }
    }

    fn valid(&mut self) -> Draft {
        let format = some_format(&mut self.random);
        Draft::valid(format, &mut self.random)
    }

    fn one_damage(&mut self) -> Case {
        let damage = self.random.pick(&self.damage);
        let mut format = some_format(&mut self.random);
        if !damage.formats.contains(&format) {
            format = self.random.pick(damage.formats);
        }
        let mut draft = Draft::valid(format, &mut self.random);
        (damage.apply)(&mut draft, &mut self.random);
        let expected = (damage.alone, damage.for_plant);
        Case::of(&draft, [damage.words, ""], Some(expected))
    }

    /// Two kinds of damage. The one with the lower cause is done last, so
    /// that it can't be undone; two of the same cause may undo each other.
    fn two_damages(&mut self) -> Case {
        let mut draft = self.valid();
        let mut pair = Vec::new();
        while pair.len() < 2 {
            let damage = self.random.pick(&self.damage);
            if damage.formats.contains(&draft.format) {
                pair.push(damage);
            }
        }
        pair.sort_by_key(|damage| u8::MAX - damage.alone.wrapping_sub(1));
        for damage in &pair {
            (damage.apply)(&mut draft, &mut self.random);
        }
        let expected = if pair[0].alone == pair[1].alone {
            None
        } else {
            Some((
                lower(pair[0].alone, pair[1].alone),
                lower(pair[0].for_plant, pair[1].for_plant),
            ))
        };
        Case::of(&draft, [pair[0].words, pair[1].words], expected)
    }

    /// One to three bytes of a valid name or body changed.
    fn changed_bytes(&mut self) -> Case {
        let draft = self.valid();
        let mut case = Case::of(&draft, ["changed bytes", ""], None);
        let random = &mut self.random;
        for _ in 0..random.between(1, 3) {
            let bytes = if random.once_in(3) {
                &mut case.name
            } else {
                &mut case.body
            };
            // Most of a long body are rates; its head is met more often.
            let reach = random.pick(&[60, 100, bytes.len()]).min(bytes.len());
            let place = random.below(reach as u64) as usize;
            bytes[place] = match random.below(4) {
                0 => bytes[place] ^ (1 << random.below(8)),
                1 => random.below(10) as u8,
                2 => random.below(102) as u8,
                _ => random.byte(),
            };
        }
        case
    }

    /// A good name with a body of digits or of any bytes.
    fn noise_body(&mut self) -> Case {
        let draft = self.valid();
        let mut case = Case::of(&draft, ["noise for a body", ""], None);
        let random = &mut self.random;
        let length = match random.below(3) {
            0 => case.body.len(),
            1 => random.below(100) as usize,
            _ => random.below(500) as usize,
        };
        let kept = random.pick(&[0, 6, 16, 42, 54, 59]).min(length);
        let noise = if random.once_in(2) {
            random.digits(length)
        } else {
            random.bytes(length)
        };
        case.body.truncate(kept);
        let from = case.body.len().min(length);
        case.body.extend(&noise[from..]);
        case
    }

    fn noise(&mut self) -> Case {
        let random = &mut self.random;
        let name_length = random.pick(&[0, 1, 54, 55, 56, 200]);
        let body_length = random.below(300) as usize;
        Case {
            plant: PLANT_X.to_vec(),
            name: random.bytes(name_length),
            body: random.bytes(body_length),
            words: ["noise for both", ""],
            expected: Some((7, 7)),
        }
    }

    /// The name of one valid file with the body of another, often of another
    /// format.
    fn exchanged(&mut self) -> Case {
        let own = self.valid();
        let mut other = self.valid();
        for record in &mut other.records {
            record.plant = own.owner.clone();
        }
        let mut case = Case::of(&own, ["another file's body", ""], None);
        case.body = other.body();
        case
    }

    /// A plant whose own check digit is wrong: with it only equality counts.
    fn odd_plant(&mut self) -> Case {
        let mut draft = self.valid();
        let mut id = draft.owner.clone();
        id[25] = self.random.other_digit(check_digit(&id));
        draft.name.plant = ascii(&id);
        for record in &mut draft.records {
            record.plant = id.clone();
        }
        draft.owner = id;
        let words = ["plant with a wrong check digit", ""];
        Case::of(&draft, words, Some((8, 0)))
    }
}

impl Iterator for Cases {
    type Item = Case;

    fn next(&mut self) -> Option<Case> {
        let case = match self.random.below(100) {
            0..24 => Case::of(&self.valid(), ["valid", ""], Some((0, 0))),
            24..64 => self.one_damage(),
            64..80 => self.two_damages(),
            80..89 => self.changed_bytes(),
            89..93 => self.noise_body(),
            93..95 => self.noise(),
            95..99 => self.exchanged(),
            _ => self.odd_plant(),
        };
        Some(case)
    }
}

/// A body record by record, as digits and rates come.
fn body(parts: &[&[u8]]) -> Vec<u8> {
    parts.concat()
}

/// Digits from their ASCII form.
pub fn values(text: &str) -> Vec<u8> {
    text.bytes().map(|byte| byte - b'0').collect()
}

/// 01's example 10.
pub fn example_10() -> (Vec<u8>, Vec<u8>) {
    let name = b"203_0000_12345678901234567890123455_20260327090000.data".to_vec();
    let head = values("000001260327000112345678901234567890123455");
    let start = values("20260327093000003");
    let end = values("21820260327113000");
    (name, body(&[&head, &start, &[0x64, 0x28, 0x1C], &end]))
}

/// Cases that 01 and its readings speak of, each with its answer.
pub fn special() -> Vec<Case> {
    let mut cases = Vec::new();
    let mut add = |words, name: Vec<u8>, body: Vec<u8>, cause| {
        cases.push(Case {
            plant: PLANT_X.to_vec(),
            name,
            body,
            words: [words, ""],
            expected: Some((cause, cause)),
        });
    };
    let (name, good) = example_10();
    add("example 10", name.clone(), good.clone(), 0);
    add("a good name alone", name.clone(), Vec::new(), 9);
    add("nothing", Vec::new(), Vec::new(), 7);
    let mut with_return = name.clone();
    with_return.push(b'\r');
    add("0D after the name", with_return, good.clone(), 7);

    let update = |start: &str, n: usize, rate: u8| {
        let head = values("000001260327000112345678901234567890123455");
        let start = values(start);
        let rates = vec![rate; n];
        let divisor = u64::from(10 * (start[4] + start[6]) + start[5] + start[7]);
        let checksum = digits(n as u64 * u64::from(rate) % divisor, 2);
        let end = values("20260327113000");
        body(&[
            &head,
            &start,
            &digits(n as u64, 5),
            &rates,
            &[2],
            &checksum,
            &end,
        ])
    };
    let lawful = "202603270930";
    add("n 336", name.clone(), update(lawful, 336, 100), 0);
    add("n 337", name.clone(), update(lawful, 337, 100), 9);
    add("n 0", name.clone(), update(lawful, 0, 0), 0);
    add("rate 101", name.clone(), update(lawful, 336, 101), 11);
    add(
        "002's minute 05",
        name.clone(),
        update("201803271005", 3, 56),
        10,
    );
    add(
        "the last slot",
        name.clone(),
        update("209912312330", 1, 100),
        0,
    );
    add(
        "past the last slot",
        name.clone(),
        update("209912312330", 2, 100),
        10,
    );

    let monthly = b"202_2603_12345678901234567890123455_20260227090000.data".to_vec();
    let month = |n: usize, rates: usize| {
        let head = values("000001260327000112345678901234567890123455");
        let checksum = digits(50 * rates as u64 % 4, 2);
        let start = values("202603010000");
        body(&[
            &head,
            &start,
            &digits(n as u64, 5),
            &vec![50; rates],
            &checksum,
        ])
    };
    add("31 days", monthly.clone(), month(1_488, 1_488), 0);
    add(
        "n 01440, 1,488 rates",
        monthly.clone(),
        month(1_440, 1_488),
        9,
    );
    add(
        "n 01440, 1,440 rates",
        monthly.clone(),
        month(1_440, 1_440),
        10,
    );
    add("n 99999 in a month", monthly, month(99_999, 99_999), 10);

    let yearly = b"201_9990_12345678901234567890123455_20180505100520.data".to_vec();
    let mut long = values("000013");
    for place in 0..13 {
        long.extend(values("260327000112345678901234567890123455"));
        long.extend(month_start(219 + place));
        long.extend([9; 5]);
        long.extend([50; 99_999]);
        long.extend([0, 0]);
    }
    add("n 99999 in 13 months, 1,300,708 bytes", yearly, long, 10);
    cases
}
