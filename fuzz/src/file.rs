//! A name and body: a lawful file with some of its bytes changed, or any
//! bytes.

use compare::generate::almanac;
use compare::generate::draft::{ascii, Draft, RecordParts};
use compare::generate::Random;

use crate::input::Input;

/// Changes of one file at most.
const CHANGES_MAX: u8 = 4;
/// Parts that can be changed, and which of them the rates are.
const PARTS: u8 = 14;
const RATES: u8 = 10;
const FORMATS: [u16; 4] = [203, 202, 201, 301];

/// The name ends at the first 0A, as the lister has it.
pub fn raw(bytes: &[u8]) -> (Vec<u8>, Vec<u8>) {
    let end = bytes.iter().position(|byte| *byte == b'\n');
    let end = end.unwrap_or(bytes.len());
    let body = bytes.get(end + 1..).unwrap_or(&[]);
    (bytes[..end].to_vec(), body.to_vec())
}

/// A lawful file of any plant; the input chooses the format and a seed.
pub fn lawful(input: &mut Input) -> Draft {
    let format = FORMATS[usize::from(input.byte()) % FORMATS.len()];
    let mut random = Random::new(input.number(2));
    let mut draft = Draft::valid(format, &mut random);
    if format == 203 {
        let record = &mut draft.records[0];
        move_update(record, input);
        record.seal();
    }
    draft
}

/// Another start, next access, flag and length of an update.
fn move_update(record: &mut RecordParts, input: &mut Input) {
    let length = input.below(340);
    let slot = input.number(3) % almanac::SLOTS;
    record.rates.resize(length as usize, input.byte() % 101);
    record.count = almanac::digits(length, 5);
    record.start = almanac::start(slot);
    record.flag = vec![input.byte() % 10];
    record.next = almanac::moment(input.number(4) % (almanac::SLOTS * 1_800));
}

/// One part of the file, by number.
fn part(draft: &mut Draft, which: u8, record: u8) -> &mut Vec<u8> {
    let last = draft.records.len() - 1;
    let record = &mut draft.records[usize::from(record).min(last)];
    match which % PARTS {
        0 => &mut draft.name.format,
        1 => &mut draft.name.segment,
        2 => &mut draft.name.plant,
        3 => &mut draft.name.created,
        4 => &mut draft.name.tail,
        5 => &mut draft.count,
        6 => &mut record.schedule,
        7 => &mut record.plant,
        8 => &mut record.start,
        9 => &mut record.count,
        RATES => &mut record.rates,
        11 => &mut record.flag,
        12 => &mut record.checksum,
        _ => &mut record.next,
    }
}

/// A byte for a part: mostly a digit where digits stand.
fn value(which: u8, byte: u8) -> u8 {
    match which % PARTS {
        RATES => byte,
        _ if byte >= 240 => byte.wrapping_sub(240).wrapping_mul(17),
        0..5 => b'0' + byte % 10,
        _ => byte % 10,
    }
}

/// Changes some bytes of some parts, or adds a byte to one, or takes one
/// off; the checksums may be made to fit again.
pub fn change(draft: &mut Draft, input: &mut Input) {
    let how = input.byte();
    for _ in 0..how % (CHANGES_MAX + 1) {
        let (which, record) = (input.byte(), input.byte());
        let place = input.below(1_500) as usize;
        let value = value(which, input.byte());
        let bytes = part(draft, which, record);
        match which / PARTS {
            0 => bytes.push(value),
            1 => {
                bytes.pop();
            }
            _ if bytes.is_empty() => {}
            _ => {
                let place = place % bytes.len();
                bytes[place] = value;
            }
        }
    }
    let whole = |record: &RecordParts| record.start.len() >= 8;
    if how >= 128 {
        draft
            .records
            .iter_mut()
            .filter(|record| whole(record))
            .for_each(RecordParts::seal);
    }
}

/// The file made the plant's own.
pub fn address(draft: &mut Draft, plant: &[u8]) {
    draft.owner = plant.to_vec();
    draft.name.plant = ascii(plant);
    for record in &mut draft.records {
        record.plant = plant.to_vec();
    }
}
