//! A file's name: format, segment, plant ID and creation time (causes 7 and 8).

use super::calendar::{moment, number};
use super::plant::is_plant_id;

/// The bytes of a name.
const NAME_LENGTH: usize = 55;

/// What a name's segment says.
#[derive(Clone, Copy, Debug, PartialEq, Eq)]
pub enum Segment {
    /// 201's 999 and a digit.
    Yearly { digit: u8 },
    /// 202's YYMM as a month's number.
    Monthly { month: u16 },
    /// 203's 0000.
    Update,
    /// 301's 8888.
    Registration,
}

/// A name that keeps its form.
#[derive(Clone, Debug, PartialEq, Eq)]
pub struct Name {
    pub format: u16,
    pub segment: Segment,
    /// The segment's four digits as a number.
    pub segment_value: u16,
    /// The plant ID as 26 bytes of value 0 to 9.
    pub plant: Vec<u8>,
    /// The creation time in seconds since 2000.
    pub created: u64,
}

/// ASCII digits as bytes of value 0 to 9.
fn values(ascii: &[u8]) -> Option<Vec<u8>> {
    if ascii.iter().all(u8::is_ascii_digit) {
        Some(ascii.iter().map(|byte| byte - b'0').collect())
    } else {
        None
    }
}

/// What the segment says in a name of this format, if it may stand there.
pub fn segment_of(format: u16, ascii: &[u8]) -> Option<Segment> {
    if ascii.len() != 4 {
        return None;
    }
    let digits = values(ascii)?;
    let year = number(&digits[0..2]);
    let month = number(&digits[2..4]);
    match format {
        201 if digits[0..3] == [9, 9, 9] => Some(Segment::Yearly { digit: digits[3] }),
        202 if (1..=12).contains(&month) => Some(Segment::Monthly {
            month: (year * 12 + month - 1) as u16,
        }),
        203 if digits == [0, 0, 0, 0] => Some(Segment::Update),
        301 if digits == [8, 8, 8, 8] => Some(Segment::Registration),
        _ => None,
    }
}

fn format_of(ascii: &[u8]) -> Option<u16> {
    match ascii {
        b"201" => Some(201),
        b"202" => Some(202),
        b"203" => Some(203),
        b"301" => Some(301),
        _ => None,
    }
}

fn form(name: &[u8]) -> Option<Name> {
    if name.len() != NAME_LENGTH {
        return None;
    }
    let underscores = [name[3], name[8], name[35]];
    if underscores != *b"___" || name[50..55] != *b".data" {
        return None;
    }
    let format = format_of(&name[0..3])?;
    Some(Name {
        format,
        segment: segment_of(format, &name[4..8])?,
        segment_value: number(&values(&name[4..8])?) as u16,
        plant: values(&name[9..35])?,
        created: moment(&values(&name[36..50])?)?,
    })
}

/// Reads a name; cause 7 where it breaks its form.
pub fn read_name(name: &[u8]) -> Result<Name, u8> {
    form(name).ok_or(7)
}

/// Cause 8: not this plant's ID, or, without a plant, a wrong check digit.
pub fn check_plant(plant: Option<&[u8]>, name: &Name) -> Result<(), u8> {
    let right = match plant {
        Some(id) => name.plant == id,
        None => is_plant_id(&name.plant),
    };
    if right {
        Ok(())
    } else {
        Err(8)
    }
}
