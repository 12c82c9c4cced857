//! Kinds of damage to a draft, each with the cause that it must bring, and
//! those that concern the name and the plant IDs (causes 7, 8 and 13).

use super::almanac::{spoil_date, spoil_year};
use super::damage_form::FORM_DAMAGE;
use super::damage_rules::RULES_DAMAGE;
use super::draft::{ascii, check_digit, some_plant, Draft};
use super::random::Random;

/// One kind of damage.
pub struct Damage {
    /// What is damaged.
    pub words: &'static str,
    /// The cause when read without a plant; 0 where it still reads well.
    pub alone: u8,
    /// The cause when read for the plant that the draft was made for.
    pub for_plant: u8,
    /// The formats to which it can be done.
    pub formats: &'static [u16],
    pub apply: fn(&mut Draft, &mut Random),
}

pub const ALL: &[u16] = &[201, 202, 203, 301];

/// Every kind of damage.
pub fn all_damage() -> impl Iterator<Item = &'static Damage> {
    NAME_DAMAGE
        .iter()
        .chain(PLANT_DAMAGE)
        .chain(FORM_DAMAGE)
        .chain(RULES_DAMAGE)
}

const fn name(
    words: &'static str,
    formats: &'static [u16],
    apply: fn(&mut Draft, &mut Random),
) -> Damage {
    Damage {
        words,
        alone: 7,
        for_plant: 7,
        formats,
        apply,
    }
}

/// Bytes that are no ASCII digits, the neighbours of `0` and `9` among them.
fn no_ascii_digit(random: &mut Random) -> u8 {
    match random.below(3) {
        0 => random.below(10) as u8,
        1 => random.pick(b"/:AaFx -_.\0"),
        _ => random.pick(&[0x80, 0xB0, 0xFF, 0x7F]),
    }
}

/// Spoils the created date with one of the date damages.
fn spoil_created(draft: &mut Draft, random: &mut Random, spoil: fn(&mut [u8], &mut Random)) {
    let created = &mut draft.name.created;
    let shift = |bytes: &mut [u8], by: u8| {
        bytes
            .iter_mut()
            .for_each(|byte| *byte = byte.wrapping_add(by));
    };
    shift(created, b'0'.wrapping_neg());
    spoil(created, random);
    shift(created, b'0');
}

pub static NAME_DAMAGE: &[Damage] = &[
    name("format that isn't one of the four", ALL, |draft, random| {
        let other = random.pick(&[
            b"200",
            b"204",
            b"300",
            b"302",
            b"000",
            b"2O1",
            b"\x02\x00\x01",
            b"103",
            b"231",
        ]);
        draft.name.format = other.to_vec();
    }),
    name(
        "another format's number",
        &[201, 203, 301],
        |draft, random| {
            // 999d, 0000 and 8888 are no YYMM, so 202 refuses them as well.
            let own = draft.format.to_string().into_bytes();
            while draft.name.format == own {
                draft.name.format = random.pick(&[b"201", b"202", b"203", b"301"]).to_vec();
            }
        },
    ),
    name("another format's segment", ALL, |draft, random| {
        let choices: &[&[u8; 4]] = match draft.format {
            201 => &[b"0000", b"8888", b"2604", b"0999", b"9980", b"8999"],
            202 => &[b"0000", b"8888", b"9990", b"9999"],
            203 => &[b"9990", b"8888", b"2604", b"0001", b"1000"],
            _ => &[b"9998", b"0000", b"0812", b"8880", b"0888"],
        };
        draft.name.segment = random.pick(choices).to_vec();
    }),
    name(
        "YYMM with a month that isn't 01 to 12",
        &[202],
        |draft, random| {
            let month = random.pick(&[b"00", b"13", b"20", b"99", b"19"]);
            draft.name.segment[2..4].copy_from_slice(month);
        },
    ),
    name("segment byte that is no digit", ALL, |draft, random| {
        draft.name.segment[random.below(4) as usize] = no_ascii_digit(random);
    }),
    name("another byte for an underscore", ALL, |draft, random| {
        let byte = random.pick(b"-. ^`/0\x00\xDF");
        draft.name.underscores[random.below(3) as usize] = byte;
    }),
    name("ID byte that is no digit", ALL, |draft, random| {
        draft.name.plant[random.place(26)] = no_ascii_digit(random);
    }),
    name("ID in bytes of value 0 to 9", ALL, |draft, _| {
        for byte in &mut draft.name.plant {
            *byte &= 0x0F;
        }
    }),
    name(
        "creation date or time that doesn't exist",
        ALL,
        |draft, random| {
            spoil_created(draft, random, spoil_date);
        },
    ),
    name("creation year not 2000 to 2099", ALL, |draft, random| {
        spoil_created(draft, random, spoil_year);
    }),
    name("creation byte that is no digit", ALL, |draft, random| {
        draft.name.created[random.place(14)] = no_ascii_digit(random);
    }),
    name("another ending", ALL, |draft, random| {
        let ending = random.pick(&[
            b".DATA",
            b"_data",
            b".dat_",
            b".date",
            b"\x2Edat\xE1",
            b"..ata",
        ]);
        draft.name.tail = ending.to_vec();
    }),
    name("name cut short", ALL, |draft, random| {
        draft.name.short = random.pick(&[1, 2, 5, 19, 54, 55, 7, 30]);
    }),
    name("name with a byte more", ALL, |draft, random| {
        match random.below(3) {
            0 => draft.name.tail.push(random.pick(b"\r\0 _a")),
            1 => draft.name.format.insert(0, random.pick(b"2\xEF ")),
            _ => draft.name.plant.insert(13, b'0'),
        };
    }),
];

/// Rewrites the ID in the name and in every record.
fn set_plant(draft: &mut Draft, id: &[u8]) {
    draft.name.plant = ascii(id);
    for record in &mut draft.records {
        record.plant = id.to_vec();
    }
}

/// The name's ID as digits, whatever was done to it before.
fn name_id(draft: &Draft) -> Vec<u8> {
    let plant = &draft.name.plant;
    plant
        .iter()
        .map(|byte| byte.wrapping_sub(b'0') % 10)
        .collect()
}

const fn plant(
    words: &'static str,
    alone: u8,
    for_plant: u8,
    apply: fn(&mut Draft, &mut Random),
) -> Damage {
    Damage {
        words,
        alone,
        for_plant,
        formats: ALL,
        apply,
    }
}

pub static PLANT_DAMAGE: &[Damage] = &[
    plant(
        "wrong check digit in the name alone",
        8,
        8,
        |draft, random| {
            let id = name_id(draft);
            draft.name.plant[25] = b'0' + random.other_digit(check_digit(&id));
        },
    ),
    plant(
        "wrong check digit in name and records",
        8,
        8,
        |draft, random| {
            let mut id = name_id(draft);
            id[25] = random.other_digit(check_digit(&id));
            set_plant(draft, &id);
        },
    ),
    plant(
        "one ID digit changed so that the check digit is wrong",
        8,
        8,
        |draft, random| {
            let mut id = name_id(draft);
            let check = check_digit(&id);
            while check_digit(&id) == check {
                let place = random.below(25) as usize;
                id[place] = random.other_digit(id[place]);
            }
            id[25] = check;
            set_plant(draft, &id);
        },
    ),
    plant(
        "name's digit of weight 5 changed by 2: check digit still right",
        13,
        8,
        |draft, random| {
            let place = random.pick(&[2, 7, 12, 17, 22]);
            draft.name.plant[place] = b'0' + (draft.name.plant[place] - b'0' + 2) % 10;
        },
    ),
    plant("another plant's name and records", 0, 8, |draft, random| {
        let mut id = some_plant(random);
        while id == draft.owner {
            id = some_plant(random);
        }
        set_plant(draft, &id);
    }),
    plant(
        "one digit of a record's ID changed",
        13,
        13,
        |draft, random| {
            let place = random.place(26);
            let record = draft.some_record(random);
            record.plant[place] = random.other_digit(record.plant[place]);
        },
    ),
    plant("another plant's ID in a record", 13, 13, |draft, random| {
        let record = draft.some_record(random);
        let own = record.plant.clone();
        while record.plant == own {
            record.plant = some_plant(random);
        }
    }),
    plant(
        "the ID's digits one place on in a record",
        13,
        13,
        |draft, random| {
            let record = draft.some_record(random);
            record.plant.rotate_left(1);
            if record.plant.windows(2).all(|pair| pair[0] == pair[1]) {
                record.plant[0] = random.other_digit(record.plant[0]);
            }
        },
    ),
];
