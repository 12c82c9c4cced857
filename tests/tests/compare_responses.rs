//! Whole responses given to the library that firmware links and to the plain
//! machine: every cut of a good one, every value of every byte of its frame
//! and of its boundary, and long ones. Answer, unit and store are compared.

use compare::call::{Answer, Call};
use compare::firmware::{self, STORE_LENGTH};
use compare::generate::calls::Installing;
use compare::generate::cases::{example_10, values};
use compare::generate::draft::{Draft, PLANT_X, SETTINGS_X};
use compare::generate::frame::{Frame, ALPHABET, BOUNDARY};
use compare::generate::responses::all_changes;
use compare::generate::{Random, RESPONSE_SEED};
use compare::lists::{Counts, Pair};
use compare::reference::calendar::moment;
use compare::reference::response::open;
use compare::tally::Tally;

/// Responses of each kind of change.
const CHANGED: u64 = 100;
/// March 2026.
const MARCH: u64 = 26 * 12 + 2;

/// A pair that every response finds as it is, and the answers.
struct Trial {
    pair: Pair,
    random: Random,
    counts: Counts,
    tally: Tally,
}

impl Trial {
    /// Plant X at 09:00 on 27 March 2026, with March and April held.
    fn new(title: &str) -> Trial {
        let mut random = Random::new(RESPONSE_SEED);
        let store = random.bytes(STORE_LENGTH);
        let values_x = Installing {
            id: PLANT_X.to_vec(),
            mac: b"012389ABCDEF".to_vec(),
            settings: SETTINGS_X,
            store,
        };
        let second = moment(&values("20260327090000")).expect("exists");
        let mut calls = vec![Call::Tick { second }];
        for month in [MARCH, MARCH + 1] {
            let draft = Draft::monthly(&PLANT_X, &[0; 10], month, &mut random);
            calls.push(Call::TakeFile {
                name: draft.name.bytes(),
                body: draft.body(),
            });
        }
        let mut trial = Trial {
            pair: Pair::install(&values_x).expect("both take lawful values"),
            random,
            counts: Counts::default(),
            tally: Tally::new(title),
        };
        for call in calls {
            let (pair, counts) = (&mut trial.pair, &mut trial.counts);
            let called = pair.call(&call, &mut trial.random, counts);
            called.expect("no difference");
        }
        assert_eq!(trial.pair.unit.held().count(), 2);
        trial
    }

    /// The response given to both; its cause. What was accepted is looked at
    /// byte by byte, and what was refused left every byte as it was.
    fn cause(&mut self, boundary: &[u8], response: &[u8]) -> u8 {
        let Pair {
            machine,
            unit,
            store,
            ..
        } = &self.pair;
        let mut pair = Pair::of(machine.clone(), *unit, store.held());
        let mut due = machine.clone();
        let call = Call::TakeResponse {
            boundary: boundary.to_vec(),
            response: response.to_vec(),
        };
        let answer = due.answer(&call);
        let mut called = pair.call(&call, &mut self.random, &mut self.counts);
        if answer == Answer::Accepted {
            called = called.and_then(|()| pair.settle(&mut self.random));
        }
        called.expect("no difference");
        assert!(pair.store.margins_stayed());
        let cause = answer.cause();
        self.tally
            .add(&if cause == 0 { Ok(()) } else { Err(cause) });
        cause
    }
}

/// 002's response around example 10, with 0D 0A at its end: 189 bytes of frame
/// and 79 of file. Where the file begins.
fn small() -> (Vec<u8>, usize) {
    let (name, body) = example_10();
    let mut frame = Frame::figure(BOUNDARY, &name, &body);
    frame.end = b"\r\n".to_vec();
    let response = frame.bytes();
    let place = response.len() - frame.end.len() - frame.closing.len() - body.len();
    assert_eq!((response.len(), body.len()), (268, 79));
    (response, place)
}

/// Every beginning and every end of a good response, and it with any one of
/// its bytes gone or doubled.
#[test]
fn every_cut() {
    let mut trial = Trial::new("cuts");
    let (response, file) = small();
    let in_file = |place: usize| (file..file + 79).contains(&place);
    for length in 0..=response.len() {
        let due = match response.len() - length {
            0 | 2 => 0,
            _ => 17,
        };
        assert_eq!(trial.cause(BOUNDARY, &response[..length]), due);
        let due = if length == 0 { 0 } else { 17 };
        assert_eq!(trial.cause(BOUNDARY, &response[length..]), due);
    }
    for place in 0..response.len() {
        let mut other = response.clone();
        let byte = other.remove(place);
        let gone = trial.cause(BOUNDARY, &other);
        other.splice(place..place, [byte, byte]);
        let doubled = trial.cause(BOUNDARY, &other);
        assert!(!in_file(place) || (gone, doubled) == (17, 17));
    }
    for length in 0..=BOUNDARY.len() {
        let due = if length == BOUNDARY.len() { 0 } else { 17 };
        assert_eq!(trial.cause(&BOUNDARY[..length], &response), due);
    }
    trial.tally.settle(&[7, 17]);
    assert_eq!(trial.tally.total(), 2 * 269 + 2 * 268 + 9);
}

/// Every value of every byte of the frame, which is all but the file.
#[test]
fn every_byte_of_the_frame() {
    let mut trial = Trial::new("bytes of the frame");
    let (good, file) = small();
    let mut response = good.clone();
    for place in (0..file).chain(file + 79..good.len()) {
        for value in 0..=255 {
            response[place] = value;
            trial.cause(BOUNDARY, &response);
        }
        response[place] = good[place];
    }
    trial.tally.settle(&[7, 8, 17]);
    assert_eq!(trial.tally.total(), 189 * 256);
}

/// Every value of every byte of the boundary: passed alone, and everywhere.
#[test]
fn every_byte_of_the_boundary() {
    let mut trial = Trial::new("bytes of the boundary");
    let (response, _) = small();
    let (name, body) = example_10();
    for place in 0..BOUNDARY.len() {
        let mut boundary = BOUNDARY.to_vec();
        for value in 0..=255 {
            boundary[place] = value;
            let same = value == BOUNDARY[place];
            let due = if same { 0 } else { 17 };
            assert_eq!(trial.cause(&boundary, &response), due);
            let everywhere = Frame::figure(&boundary, &name, &body).bytes();
            let lawful = ALPHABET.contains(&value);
            let due = if lawful { 0 } else { 17 };
            assert_eq!(trial.cause(&boundary, &everywhere), due);
        }
    }
    // Of every length, the longest lawful one and longer ones among them.
    for length in 0..=140 {
        let boundary = vec![b'z'; length];
        let response = Frame::figure(&boundary, &name, &body).bytes();
        let due = if (1..=70).contains(&length) { 0 } else { 17 };
        assert_eq!(trial.cause(&boundary, &response), due);
    }
    trial.tally.settle(&[17]);
    assert_eq!(trial.tally.total(), 2 * 8 * 256 + 141);
}

/// Ways to spell a length, for a file that is there and for an empty one, which
/// is well formed and then refused with 9.
#[test]
fn every_spelling_of_a_length() {
    let mut trial = Trial::new("lengths");
    let (name, body) = example_10();
    for (file, well_formed) in [(&body[..], 0), (b"", 9)] {
        let length = file.len();
        for (digits, due) in [
            (format!("{length}"), well_formed),
            (format!("{length:0>3}"), well_formed),
            (format!("{length:0>6}"), well_formed),
            (format!("{length:0>7}"), 17),
            (format!("{length:0>20}"), 17),
            (format!("{}", length + 1), 17),
            (String::new(), 17),
            (format!(" {length}"), 17),
            (format!("{length} "), 17),
            (format!("+{length}"), 17),
            (format!("-{length}"), 17),
            (format!("{length}\r"), 17),
            (format!("{length}\n"), 17),
            (format!("{length}.0"), 17),
            (format!("0x{length:x}"), 17),
        ] {
            let mut frame = Frame::figure(BOUNDARY, &name, file);
            *frame.length() = format!("Content-Length: {digits}").into_bytes();
            assert_eq!(trial.cause(BOUNDARY, &frame.bytes()), due, "{digits:?}");
        }
    }
    trial.tally.settle(&[9, 17]);
    assert_eq!(trial.tally.total(), 2 * 15);
}

/// Every kind of change to a good response.
#[test]
fn every_kind_of_change() {
    let mut trial = Trial::new("changed responses");
    let (name, body) = example_10();
    let mut kinds = 0;
    for change in all_changes() {
        for _ in 0..CHANGED {
            let mut frame = Frame::figure(BOUNDARY, &name, &body);
            (change.apply)(&mut frame, &mut trial.random);
            trial.cause(&frame.boundary, &frame.bytes());
        }
        kinds += 1;
    }
    trial.tally.settle(&[7, 17]);
    assert_eq!(trial.tally.total(), kinds * CHANGED);
}

/// Files that look like a frame. Lawful ones, whose rates are the end of a line
/// and the closing boundary, once and twice, are taken; others are no body.
#[test]
fn files_like_frames() {
    let mut trial = Trial::new("files like frames");
    let (name, _) = example_10();
    for times in [1, 2] {
        let rates = b"\r\n--BOUNDARY--\r\n".repeat(times);
        let sum: usize = rates.iter().map(|rate| usize::from(*rate)).sum();
        let head = values("000001260327000112345678901234567890123455");
        let start = values(&format!("202603270930{:05}", rates.len()));
        let end = values(&format!("2{:02}20260327113000", sum % (3 + 27)));
        let body = [head, start, rates, end].concat();
        let response = Frame::figure(BOUNDARY, &name, &body).bytes();
        assert_eq!(trial.cause(BOUNDARY, &response), 0);
    }
    let files: [&[u8]; 8] = [
        b"",
        b"\r",
        b"\n",
        b"\r\n",
        b"\r\n\r\n",
        b"\r\n--BOUNDARY--",
        b"\r\n--BOUNDARY--\r\n",
        b"--BOUNDARY\r\nContent-Length: 0\r\n\r\n\r\n--BOUNDARY--\r\n",
    ];
    for file in files {
        let response = Frame::figure(BOUNDARY, &name, file).bytes();
        assert_eq!(trial.cause(BOUNDARY, &response), 9);
    }
    trial.tally.settle(&[9]);
    assert_eq!(trial.tally.total(), 10);
}

/// The longest files that a length can say, many and long headers, and buffers
/// that lie in one another.
#[test]
fn long_responses() {
    let mut trial = Trial::new("long responses");
    let (name, body) = example_10();
    for (length, due) in [(99_999, 9), (999_999, 9), (1_000_000, 17)] {
        let response = Frame::figure(BOUNDARY, &name, &vec![0; length]).bytes();
        assert_eq!(trial.cause(BOUNDARY, &response), due);
    }
    for lines in [1_000, 100_000] {
        let mut frame = Frame::figure(BOUNDARY, &name, &body);
        let others = std::iter::repeat_n(b"\r".to_vec(), lines);
        frame.headers.splice(1..1, others);
        assert_eq!(trial.cause(BOUNDARY, &frame.bytes()), 0);
        frame.headers.push(b"Content-Length: 79".to_vec());
        assert_eq!(trial.cause(BOUNDARY, &frame.bytes()), 17);
    }
    let mut frame = Frame::figure(BOUNDARY, &name, &body);
    frame.headers[1] = vec![b'\r'; 300_000];
    assert_eq!(trial.cause(BOUNDARY, &frame.bytes()), 0);
    frame.headers[2] = vec![b'f'; 300_000];
    assert_eq!(trial.cause(BOUNDARY, &frame.bytes()), 17);
    trial.tally.settle(&[9, 17]);

    // Buffers that are only read may overlap.
    let response = Frame::figure(BOUNDARY, &name, &body).bytes();
    let boundary = &response[2..2 + BOUNDARY.len()];
    assert!(open(boundary, &response).is_ok());
    let (unit, mut store) = (trial.pair.unit, trial.pair.store.held().to_vec());
    let mut by_file = store.clone();
    let done = firmware::take_response(unit, boundary, &response, &mut store);
    let filed = firmware::take_file(unit, &name, &body, &mut by_file);
    assert_eq!((done, done.cause), (filed, 0));
    assert!(store == by_file);
}
