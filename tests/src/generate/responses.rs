//! Whole responses around files: lawful ones of every kind, and ones with
//! something broken.

use super::frame::{name_part, text, Frame, ALPHABET, BOUNDARY};
use super::random::Random;
use crate::reference::response::BOUNDARY_MAX;

/// What a change leaves behind.
#[derive(Clone, Copy, Debug, PartialEq, Eq)]
pub enum Outcome {
    /// The same name and file.
    Same,
    /// Well formed, with another name.
    Renamed,
    /// A response that is refused with 17.
    Broken,
}

/// One kind of change to a lawful response.
pub struct Change {
    pub words: &'static str,
    pub outcome: Outcome,
    pub apply: fn(&mut Frame, &mut Random),
}

const fn change(
    outcome: Outcome,
    words: &'static str,
    apply: fn(&mut Frame, &mut Random),
) -> Change {
    Change {
        words,
        outcome,
        apply,
    }
}

/// A boundary of so many letters and digits.
fn letters(length: usize, random: &mut Random) -> Vec<u8> {
    (0..length).map(|_| random.pick(ALPHABET)).collect()
}

/// A lawful boundary: 002's, of any length, of 1 byte, of 70.
pub fn some_boundary(random: &mut Random) -> Vec<u8> {
    let length = match random.below(5) {
        0 => return BOUNDARY.to_vec(),
        1 => random.pick(&[1, BOUNDARY_MAX]),
        _ => random.between(1, BOUNDARY_MAX as u64) as usize,
    };
    letters(length, random)
}

/// A byte that no boundary has, the neighbours of letters and digits among
/// them.
fn no_letter(random: &mut Random) -> u8 {
    match random.below(3) {
        0 => random.pick(b"/:@[`{-_ '()+,.=?\r\n\0"),
        1 => random.between(128, 255) as u8,
        _ => random.pick(&[b'A' | 0x80, b'0' | 0x80, 0x7F, 0x1F]),
    }
}

/// Lines that are skipped, among them a lone 0D and 0A.
const OTHER_LINES: [&[u8]; 9] = [
    b"Content-Type: text/plain",
    b"Content-Length",
    b"filename=x",
    b": ",
    b" ",
    b"\n",
    b"\r",
    b"--BOUNDARY--",
    b"\xE9\x85\x8D\0\xFF",
];

/// A line that is not quite this one: its title spelt otherwise, or no colon
/// and space behind it; or any other line.
fn near_miss(line: &[u8], random: &mut Random) -> Vec<u8> {
    let colon = line.iter().position(|byte| *byte == b':');
    let (title, value) = line.split_at(colon.expect("a header line"));
    let value = &value[b": ".len()..];
    let joined = |joint: &[u8]| [title, joint, value].concat();
    match random.below(10) {
        0 => [&title.to_ascii_lowercase(), &b": "[..], value].concat(),
        1 => [&title.to_ascii_uppercase(), &b": "[..], value].concat(),
        2 => joined(b":"),
        3 => joined(b" "),
        4 => joined(b" : "),
        5 => joined(b"y: "),
        6 => joined(b":\t"),
        7 => [&[random.pick(b" \r\n-")], line].concat(),
        8 => [b"X-", line].concat(),
        _ => random.pick(&OTHER_LINES).to_vec(),
    }
}

/// The length spelt as it may not be: not 1 to 6 decimal digits and nothing
/// else.
fn odd_length(length: usize, random: &mut Random) -> Vec<u8> {
    let mut digits = length.to_string().into_bytes();
    let bytes = |text: &[u8]| text.to_vec();
    match random.below(8) {
        0 => random.pick(&[&b""[..], b" ", b"x", b"+", b"-0"]).to_vec(),
        1 => [&[random.pick(b"+- \t\n\r\0")], &digits[..]].concat(),
        2 => [&digits[..], &[random.pick(b" .,;\t\n\r\0")]].concat(),
        3 => format!("{length:0>7}").into_bytes(),
        4 => format!("{length:0>20}").into_bytes(),
        5 => format!("0x{length:x}").into_bytes(),
        6 => [bytes(b"\""), digits, bytes(b"\"")].concat(),
        _ => {
            let place = random.place(digits.len());
            digits[place] = random.pick(&[digits[place] | 0x80, b'/', b':', digits[place] - b'0']);
            digits
        }
    }
}

/// Changes after which name and file are the same, or another name.
pub static LAWFUL_CHANGES: &[Change] = &[
    change(Outcome::Same, "0D 0A at the end", |frame, _| {
        frame.end = b"\r\n".to_vec();
    }),
    change(
        Outcome::Same,
        "headers in another order",
        |frame, random| {
            let other = random.place(frame.headers.len());
            frame.headers.swap(0, other);
            frame.headers.rotate_left(random.place(other + 1));
        },
    ),
    change(Outcome::Same, "a line that is skipped", |frame, random| {
        let needed = match random.once_in(2) {
            true => frame.length().clone(),
            false => frame.disposition().clone(),
        };
        frame.insert(&near_miss(&needed, random), random);
    }),
    change(Outcome::Same, "headers needed and no others", |frame, _| {
        frame.headers.retain(|line| {
            line.starts_with(b"Content-Length: ") || line.starts_with(b"Content-Disposition: ")
        });
    }),
    change(Outcome::Same, "zeros before the length", |frame, random| {
        let digits = frame.file.len().to_string();
        let width = random.between(digits.len() as u64, 6) as usize;
        *frame.length() = format!("Content-Length: {digits:0>width$}").into_bytes();
    }),
    change(Outcome::Same, "nothing before filename=", |frame, _| {
        let line = frame.disposition();
        let name = line.split_off(line.len() - name_part(line).len());
        *line = text("Content-Disposition: filename=", &name);
    }),
    change(Outcome::Renamed, "a name in quotation marks", |frame, _| {
        let line = frame.disposition();
        let name = line.split_off(line.len() - name_part(line).len());
        line.extend([b"\"", &name[..], b"\""].concat());
    }),
    change(Outcome::Renamed, "filename= twice", |frame, _| {
        let line = frame.disposition();
        let name = name_part(line).to_vec();
        line.extend([b"; filename=", &name[..]].concat());
    }),
    change(Outcome::Renamed, "an empty name", |frame, _| {
        let line = frame.disposition();
        line.truncate(line.len() - name_part(line).len());
    }),
    change(
        Outcome::Renamed,
        "a name with more behind it",
        |frame, random| {
            let more = random.pick(&[&b" "[..], b"\r", b"\n", b";", b"; size=79"]);
            frame.disposition().extend(more);
        },
    ),
];

/// Changes after which the form is broken.
pub static BREAKING_CHANGES: &[Change] = &[
    change(Outcome::Broken, "no boundary", |frame, _| frame.bound(b"")),
    change(
        Outcome::Broken,
        "a boundary of 71 and more",
        |frame, random| {
            let length = random.pick(&[71, 72, 140, 326]);
            frame.bound(&letters(length, random));
        },
    ),
    change(
        Outcome::Broken,
        "a byte that no boundary has",
        |frame, random| {
            let mut boundary = frame.boundary.clone();
            let place = random.place(boundary.len());
            boundary[place] = no_letter(random);
            frame.bound(&boundary);
        },
    ),
    change(
        Outcome::Broken,
        "another boundary passed",
        |frame, random| {
            match random.below(3) {
                0 => {
                    frame.boundary.pop();
                }
                1 => frame.boundary.push(random.pick(ALPHABET)),
                _ => {
                    let place = random.place(frame.boundary.len());
                    frame.boundary[place] ^= 1 << random.below(7);
                }
            };
        },
    ),
    change(
        Outcome::Broken,
        "the boundary with its hyphens passed",
        |frame, _| {
            frame.boundary = frame.opening.clone();
        },
    ),
    change(Outcome::Broken, "another first line", |frame, random| {
        match random.below(4) {
            0 => frame.opening.push(random.pick(b" -\r\n1")),
            1 => frame.opening.insert(0, random.pick(b" -\r\n1")),
            2 => drop(frame.opening.remove(0)),
            _ => drop(frame.opening.pop()),
        };
    }),
    change(
        Outcome::Broken,
        "an empty line before the first",
        |frame, _| {
            frame.opening.splice(0..0, *b"\r\n");
        },
    ),
    change(Outcome::Broken, "no headers", |frame, _| {
        frame.headers.clear()
    }),
    change(Outcome::Broken, "no Content-Length", |frame, random| {
        let line = frame.length();
        *line = near_miss(line, random);
    }),
    change(Outcome::Broken, "two Content-Lengths", |frame, random| {
        let line = match random.once_in(2) {
            true => frame.length().clone(),
            false => b"Content-Length: x".to_vec(),
        };
        frame.insert(&line, random);
    }),
    change(Outcome::Broken, "a length that is none", |frame, random| {
        let odd = odd_length(frame.file.len(), random);
        *frame.length() = text("Content-Length: ", &odd);
    }),
    change(
        Outcome::Broken,
        "a longer or shorter length",
        |frame, random| {
            let length = frame.file.len();
            let other = random.pick(&[length + 1, length.wrapping_sub(1), 2 * length + 2, 999_999]);
            let other = other.min(999_998);
            *frame.length() = format!("Content-Length: {other}").into_bytes();
        },
    ),
    change(
        Outcome::Broken,
        "a longer or shorter file",
        |frame, random| {
            match random.once_in(2) || frame.file.is_empty() {
                true => frame.file.push(random.byte()),
                false => drop(frame.file.pop()),
            };
        },
    ),
    change(
        Outcome::Broken,
        "no Content-Disposition",
        |frame, random| {
            let line = frame.disposition();
            *line = near_miss(line, random);
        },
    ),
    change(
        Outcome::Broken,
        "two Content-Dispositions",
        |frame, random| {
            let line = match random.once_in(2) {
                true => frame.disposition().clone(),
                false => b"Content-Disposition: inline".to_vec(),
            };
            frame.insert(&line, random);
        },
    ),
    change(Outcome::Broken, "no filename=", |frame, random| {
        let title: &[u8] = random.pick(&[b"Filename=", b"filename:", b"filename =", b"file=", b""]);
        let name = name_part(frame.disposition()).to_vec();
        *frame.disposition() = [b"Content-Disposition: attachment; ", title, &name].concat();
    }),
    change(
        Outcome::Broken,
        "headers that don't end",
        |frame, random| {
            let other: &[u8] = random.pick(&[b"", b"\r", b"\n", b"\n\r", b" \r\n"]);
            frame.empty_line = other.to_vec();
            frame.file.retain(|byte| *byte != b'\n');
            frame.file.extend(b"\r");
            let length = frame.file.len();
            *frame.length() = format!("Content-Length: {length}").into_bytes();
        },
    ),
    change(Outcome::Broken, "another closing line", |frame, random| {
        match random.below(6) {
            0 => drop(frame.closing.drain(..2)),
            1 => drop(frame.closing.remove(random.pick(&[0, 1, 2, 3]))),
            2 => drop(frame.closing.pop()),
            3 => frame.closing.push(random.pick(b" -\r\n1")),
            4 => frame.closing.insert(4, random.pick(b" -\r\n1")),
            _ => frame.closing.clear(),
        };
    }),
    change(Outcome::Broken, "more behind the end", |frame, random| {
        let more: &[u8] = random.pick(&[
            b"\r",
            b"\n",
            b"\n\r",
            b"\r\n\r\n",
            b"\r\n ",
            b" ",
            b"\0",
            b"\r\n--BOUNDARY",
        ]);
        frame.end = more.to_vec();
    }),
];

/// Every kind of change.
pub fn all_changes() -> impl Iterator<Item = &'static Change> {
    LAWFUL_CHANGES.iter().chain(BREAKING_CHANGES)
}

/// A lawful response around this name and file, which are the same in it.
pub fn lawful(name: &[u8], file: &[u8], random: &mut Random) -> Frame {
    let mut frame = Frame::figure(&some_boundary(random), name, file);
    let keeping = LAWFUL_CHANGES.iter();
    for change in keeping.filter(|change| change.outcome == Outcome::Same) {
        if random.once_in(3) {
            (change.apply)(&mut frame, random);
        }
    }
    frame
}

/// Some byte of a response's frame changed, or a part of it cut off.
fn spoil(frame: &Frame, random: &mut Random) -> Vec<u8> {
    let mut bytes = frame.bytes();
    let place = match random.once_in(2) {
        true => random.place(bytes.len() - frame.file.len()),
        false => bytes.len() - 1 - random.below(12) as usize,
    };
    match random.below(4) {
        0 => bytes.truncate(place),
        1 => drop(bytes.remove(place)),
        2 => bytes.insert(place, random.pick(b"\r\n-: 09A")),
        _ => bytes[place] = random.byte(),
    }
    bytes
}

/// Boundary and response around a name and file: lawful for the most part,
/// with one change of any kind, or with a byte or two of its frame spoilt.
pub fn response(name: &[u8], file: &[u8], random: &mut Random) -> (Vec<u8>, Vec<u8>) {
    let mut frame = lawful(name, file, random);
    match random.below(10) {
        0..5 => {}
        5..9 => {
            let all: Vec<_> = all_changes().collect();
            let change = random.pick(&all);
            (change.apply)(&mut frame, random);
        }
        _ => return (frame.boundary.clone(), spoil(&frame, random)),
    }
    (frame.boundary.clone(), frame.bytes())
}
