//! The library that firmware links against the reference: names and bodies
//! read without a plant and for one, and bodies taken apart.

use std::collections::BTreeMap;

use compare::firmware::{self, FileAnswer, Places, Written};
use compare::generate::cases::special;
use compare::generate::damage::all_damage;
use compare::generate::draft::{some_plant, Draft};
use compare::generate::outputs;
use compare::generate::{Case, Cases, Random, CASES_PER_SEED, CASE_SEEDS};
use compare::lent::Lent;
use compare::reference::body::take_apart;
use compare::reference::read;
use compare::tally::Tally;

/// Registrations, and bodies taken apart.
const INPUTS: usize = 20_000;
const CAUSES: [u8; 7] = [7, 8, 9, 10, 11, 12, 13];

/// Answers without a plant and for one.
struct Tallies {
    alone: Tally,
    for_plant: Tally,
}

impl Tallies {
    fn new(title: &str) -> Tallies {
        Tallies {
            alone: Tally::new(&format!("{title}, without a plant")),
            for_plant: Tally::new(&format!("{title}, for a plant")),
        }
    }

    /// Both answers must be the reference's, and its causes those that the
    /// case is meant for.
    fn compare(&mut self, case: &Case) {
        let answers = [None, Some(case.plant.as_slice())].map(|plant| {
            let answer = match plant {
                None => firmware::read(&case.name, &case.body),
                Some(id) => firmware::read_for(id, &case.name, &case.body),
            };
            let expected = read(plant, &case.name, &case.body).map(|file| file.summary());
            assert_eq!(
                answer,
                FileAnswer::of(expected),
                "{:?}, plant {plant:?}, name {:?}, body {:?}",
                case.words,
                String::from_utf8_lossy(&case.name),
                &case.body[..case.body.len().min(120)]
            );
            expected
        });
        let [alone, for_plant] = answers.map(|answer| answer.err().unwrap_or(0));
        let meant = case.expected.unwrap_or((alone, for_plant));
        assert_eq!((alone, for_plant), meant, "{:?}", case.words);
        self.alone.add(&answers[0]);
        self.for_plant.add(&answers[1]);
    }

    fn settle(&self) {
        self.alone.settle(&CAUSES);
        self.for_plant.settle(&CAUSES);
    }
}

#[test]
fn names_and_bodies() {
    println!("seeds {CASE_SEEDS:?}, {CASES_PER_SEED} each");
    let mut tallies = Tallies::new("read");
    let mut kinds: BTreeMap<&str, u64> = BTreeMap::new();
    for seed in CASE_SEEDS {
        for case in Cases::new(seed).take(CASES_PER_SEED) {
            tallies.compare(&case);
            for words in case.words {
                *kinds.entry(words).or_insert(0) += 1;
            }
        }
    }
    for case in special() {
        tallies.compare(&case);
    }
    tallies.settle();
    assert!(tallies.alone.total() >= 200_000);
    for damage in all_damage() {
        let count = kinds.get(damage.words).copied().unwrap_or(0);
        println!("{:>3} {:>6}  {}", damage.alone, count, damage.words);
        assert!(count > 0, "{} never came", damage.words);
    }
}

/// Every length of a good body, and every value of each of its bytes outside
/// the rates.
#[test]
fn every_byte_of_short_bodies() {
    let mut tallies = Tallies::new("every byte");
    let mut files: Vec<Case> = special().into_iter().take(1).collect();
    let registrations = Cases::new(CASE_SEEDS[2]);
    let good = |case: &Case| case.words[0] == "valid" && case.name.starts_with(b"301");
    files.extend(registrations.filter(good).take(1));
    for file in &mut files {
        file.expected = None;
        let (name, body) = (file.name.clone(), file.body.clone());
        for length in 0..body.len() {
            file.body = body[..length].to_vec();
            tallies.compare(file);
        }
        for place in 0..body.len() {
            file.body = body.clone();
            for value in 0..=255 {
                file.body[place] = value;
                tallies.compare(file);
            }
        }
        file.body = body;
        for length in 0..name.len() {
            file.name = name[..length].to_vec();
            tallies.compare(file);
        }
        for place in 0..name.len() {
            file.name = name.clone();
            for value in 0..=255 {
                file.name[place] = value;
                tallies.compare(file);
            }
        }
    }
    tallies.settle();
}

/// A registration is read for its plant, and refused with 8 for another,
/// also for one whose ID is none.
#[test]
fn registrations_for_a_plant() {
    let mut random = Random::new(CASE_SEEDS[1]);
    let mut tally = Tally::new("registrations read for a plant");
    for _ in 0..INPUTS {
        let plant = some_plant(&mut random);
        let mut draft = Draft::registration(&plant, &mut random);
        if random.once_in(4) {
            draft.name.segment[3] = b'9';
        }
        let (name, body) = (draft.name.bytes(), draft.body());
        let other = match random.below(3) {
            0 => plant,
            1 => some_plant(&mut random),
            _ => outputs::wrong_plant(&mut random),
        };
        let expected = read(Some(&other), &name, &body).map(|file| file.summary());
        let answer = firmware::read_for(&other, &name, &body);
        assert_eq!(answer, FileAnswer::of(expected), "{other:?}");
        tally.add(&expected);
    }
    tally.settle(&[7, 8]);
}

/// The places of one record, or the cause: 6 where the format has no such
/// record. A number that is no format's has no record count to be past.
fn places(format: u32, body: &[u8], index: usize) -> Result<Places, u8> {
    match format {
        201 if index >= 13 => return Err(6),
        202 | 203 | 301 if index >= 1 => return Err(6),
        _ => {}
    }
    let record = take_apart(format, body)?[index];
    Ok(Places {
        schedule: record.schedule,
        plant: record.plant,
        start: record.start,
        rates: record.rates,
        count: record.count,
        flag: record.flag.unwrap_or(0),
        checksum: record.checksum,
        next: record.next.unwrap_or(0),
        cause: 0,
    })
}

/// The rates of all records end to end.
fn rates(format: u32, body: &[u8], room: usize) -> Result<Vec<u8>, u8> {
    let records = take_apart(format, body)?;
    let parts = records
        .iter()
        .map(|record| &body[record.rates..record.rates + record.count]);
    let all = parts.collect::<Vec<_>>().concat();
    if all.len() > room {
        return Err(15);
    }
    Ok(all)
}

/// Bodies taken apart, under their own format, another's and none.
#[test]
fn bodies_taken_apart() {
    let seed = CASE_SEEDS[2] + 1;
    println!("seed {seed}");
    let mut random = Random::new(seed);
    let mut located = Tally::new("records located");
    let mut copied = Tally::new("rates copied");
    for case in Cases::new(seed).take(INPUTS).chain(special()) {
        let own = case.name.iter().take(3);
        let own = own.fold(0, |n, byte| n * 10 + u32::from(byte.wrapping_sub(b'0')));
        let format = match random.below(8) {
            0 => [201, 202, 203, 301, 0, 200, 204, u32::MAX][random.below(8) as usize],
            _ => own,
        };
        let index = match random.below(8) {
            0 => [12, 13, 14, usize::MAX][random.below(4) as usize],
            1..=3 => random.below(13) as usize,
            _ => 0,
        };
        let expected = places(format, &case.body, index);
        let due = expected.unwrap_or_else(|cause| Places {
            cause: u32::from(cause),
            ..Places::default()
        });
        let answer = firmware::record(format, &case.body, index);
        assert_eq!(answer, due, "{format} {index} {:?}", case.words);
        located.add(&expected);

        let long = rates(format, &case.body, usize::MAX).map_or(400, |rates| rates.len());
        let room = match random.below(4) {
            0 => random.below(long as u64 + 1) as usize,
            1 => long,
            _ => long + random.below(40) as usize,
        };
        let expected = rates(format, &case.body, room);
        let mut buffer = Lent::new(room);
        let written = firmware::copy_rates(format, &case.body, buffer.room());
        assert_eq!(written, Written::of(&expected), "{:?}", case.words);
        buffer.check(&expected);
        copied.add(&expected);
    }
    located.settle(&[6, 7, 9]);
    copied.settle(&[7, 9, 15]);
}
