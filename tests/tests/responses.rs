//! Whole responses as the reference opens them: 002's own, every sentence of
//! 02 §1 by cases, and made-up ones, also against a second way of opening them.

use compare::call::{Answer, Call};
use compare::fixed::response as fixed;
use compare::generate::cases::{example_10, values};
use compare::generate::draft::{PLANT_X, SETTINGS_X};
use compare::generate::frame::{Frame, ALPHABET, BOUNDARY};
use compare::generate::responses::{all_changes, lawful, response, Outcome};
use compare::generate::{Random, RESPONSE_SEED};
use compare::reference::calendar::moment;
use compare::reference::machine::STORE_LENGTH;
use compare::reference::response::{open, Broken, Part};
use compare::reference::{write, Fields, Machine};
use compare::tally::Branches;

/// Responses of each kind of change, and mixed ones.
const CHANGED: usize = 200;
const MIXED: usize = 20_000;

/// Name and file that a response has, or what breaks it. Both ways of opening
/// it must agree.
fn opened<'a>(boundary: &[u8], response: &'a [u8]) -> Result<(&'a [u8], &'a [u8]), Broken> {
    let opened = open(boundary, response).map(|Part { name, file }| (name, file));
    assert_eq!(opened.ok(), fixed::open(boundary, response));
    opened
}

/// The headers of a response around the file `abc`, whose name is x.
fn with_headers(headers: &str) -> Vec<u8> {
    format!("--B\r\n{headers}\r\nabc\r\n--B--").into_bytes()
}

const LENGTH: &str = "Content-Length: 3\r\n";
const NAMED: &str = "Content-Disposition: attachment; filename=x\r\n";

/// What the response with these headers is.
fn by_headers(headers: &str) -> Result<Vec<u8>, Broken> {
    let response = with_headers(headers);
    let (name, file) = opened(b"B", &response)?;
    assert_eq!(file, b"abc");
    Ok(name.to_vec())
}

/// 000's figure 4.3: a file of 19,681 bytes, a response of 19,871.
#[test]
fn figure_4_3() {
    let fields = Fields {
        format: 201,
        plant: values("02000000020000002000010003"),
        schedule: values("1801210001"),
        start: values("201804010000"),
        next: Vec::new(),
        rates: vec![100; 48 * 395],
        flag: 0,
    };
    let file = write(&fields).expect("valid fields");
    assert_eq!(file.len(), 19_681);
    let name = b"201_9990_02000000020000002000010003_20180121170011.data";
    let mut response = b"--BOUNDARY\r\n\
        Content-Length: 19681\r\n\
        Content-Type: application/octet-stream\r\n\
        Content-Disposition: attachment; \
        filename=201_9990_02000000020000002000010003_20180121170011.data\r\n\
        \r\n"
        .to_vec();
    response.extend(&file);
    response.extend(b"\r\n--BOUNDARY--");
    assert_eq!(response.len(), 19_871);
    let part = (&name[..], &file[..]);
    assert_eq!(opened(BOUNDARY, &response), Ok(part));
    assert_eq!(Frame::figure(BOUNDARY, name, &file).bytes(), response);
    // 'and at most one more 0D 0A'
    response.extend(b"\r\n");
    assert_eq!(opened(BOUNDARY, &response), Ok(part));
    response.extend(b"\r\n");
    assert_eq!(opened(BOUNDARY, &response), Err(Broken::End));
}

/// 'The file is exactly that long' and may hold anything.
#[test]
fn files_of_any_bytes() {
    let files: [&[u8]; 12] = [
        b"",
        b"\r",
        b"\n",
        b"\r\n",
        b"\r\n\r\n",
        b"\r\n--B--",
        b"\r\n--B--\r\n",
        b"--B\r\nContent-Length: 0\r\n\r\n\r\n--B--\r\n",
        b"Content-Length: 1\r\n",
        b"\0\xFF",
        b"--",
        b"--B--",
    ];
    for file in files {
        for end in [&b""[..], b"\r\n"] {
            let mut frame = Frame::figure(b"B", b"x", file);
            frame.end = end.to_vec();
            assert_eq!(opened(b"B", &frame.bytes()), Ok((&b"x"[..], file)));
            // A length that is that of a shorter file inside it.
            for length in 0..file.len() {
                *frame.length() = format!("Content-Length: {length}").into_bytes();
                assert_eq!(opened(b"B", &frame.bytes()), Err(Broken::OtherLength));
            }
        }
    }
    // The length decides, not the first closing line.
    let response = b"--B\r\nContent-Disposition: filename=x\r\nContent-Length: 7\r\n\r\n\
        \r\n--B--\r\n--B--";
    assert_eq!(opened(b"B", response), Ok((&b"x"[..], &b"\r\n--B--"[..])));
}

#[test]
fn header_lines() {
    let named = |headers: &str| by_headers(headers);
    let x = Ok(b"x".to_vec());
    for headers in [
        format!("{LENGTH}{NAMED}"),
        format!("{NAMED}{LENGTH}"),
        format!("A: b\r\n{NAMED}\n\r\n\r\r\n{LENGTH}C\r\n"),
        format!("Content-Length:5\r\n{NAMED}{LENGTH}"),
        format!("content-length: 5\r\n{NAMED}{LENGTH}"),
        format!("Content-Lengthy: 5\r\n{NAMED}{LENGTH}"),
        format!(" Content-Length: 5\r\n{NAMED}{LENGTH}"),
        format!("\nContent-Length: 5\r\n{NAMED}{LENGTH}"),
        format!("content-disposition: filename=y\r\n{NAMED}{LENGTH}"),
        format!("Content-Disposition:filename=y\r\n{NAMED}{LENGTH}"),
        format!("--B--\r\n{NAMED}{LENGTH}"),
        format!("A\nContent-Length: 3\r\n{NAMED}{LENGTH}"),
        format!("A\rContent-Length: 3\r\n{NAMED}{LENGTH}"),
    ] {
        assert_eq!(named(&headers), x, "{headers:?}");
    }
    let broken = [
        (String::new(), Broken::NoLength),
        (NAMED.to_string(), Broken::NoLength),
        (LENGTH.to_string(), Broken::NoDisposition),
        (format!("Content-Length:3\r\n{NAMED}"), Broken::NoLength),
        (format!("content-length: 3\r\n{NAMED}"), Broken::NoLength),
        (format!("A\nContent-Length: 3\r\n{NAMED}"), Broken::NoLength),
        (format!("A\rContent-Length: 3\r\n{NAMED}"), Broken::NoLength),
        (format!("{LENGTH}{NAMED}{LENGTH}"), Broken::TwoLengths),
        (
            format!("{LENGTH}{NAMED}Content-Length: \r\n"),
            Broken::TwoLengths,
        ),
        (format!("{LENGTH}{NAMED}{NAMED}"), Broken::TwoDispositions),
        (
            format!("{LENGTH}{NAMED}Content-Disposition: \r\n"),
            Broken::TwoDispositions,
        ),
        (
            format!("{LENGTH}Content-Disposition:filename=x\r\n"),
            Broken::NoDisposition,
        ),
        (
            format!("{LENGTH}content-disposition: filename=x\r\n"),
            Broken::NoDisposition,
        ),
    ];
    for (headers, cause) in broken {
        assert_eq!(named(&headers), Err(cause), "{headers:?}");
    }
}

#[test]
fn lengths() {
    let by_length = |length: &str| by_headers(&format!("Content-Length: {length}\r\n{NAMED}"));
    for length in ["3", "03", "003", "0003", "00003", "000003"] {
        assert_eq!(by_length(length), Ok(b"x".to_vec()), "{length}");
    }
    for length in [
        "", " 3", "3 ", "+3", "-3", "3.", "3\r", "3\n", "\t3", "0x3", "3,", "0000003", "1000000",
        "9999999", "three", "\u{663}", "3 3",
    ] {
        assert_eq!(by_length(length), Err(Broken::LengthDigits), "{length:?}");
    }
    for length in ["0", "2", "4", "30", "000000", "999999"] {
        assert_eq!(by_length(length), Err(Broken::OtherLength), "{length}");
    }
    // An empty file is well formed; as a file it is 9.
    for length in ["0", "000000"] {
        let headers = format!("Content-Length: {length}\r\n{NAMED}");
        let response = format!("--B\r\n{headers}\r\n\r\n--B--").into_bytes();
        assert_eq!(opened(b"B", &response), Ok((&b"x"[..], &b""[..])));
    }
}

#[test]
fn names() {
    let by_line = |line: &str| by_headers(&format!("{LENGTH}Content-Disposition: {line}\r\n"));
    for (line, name) in [
        ("filename=x", "x"),
        ("attachment; filename=x", "x"),
        ("attachment; filename=", ""),
        ("filename=", ""),
        ("attachment; filename=\"x\"", "\"x\""),
        ("attachment; filename=x; filename=y", "x; filename=y"),
        ("filename=filename=x", "filename=x"),
        ("filenamefilename=x", "x"),
        ("filfilename=x ", "x "),
        ("attachment;filename=x\r", "x\r"),
        ("attachment; filename=x\ny", "x\ny"),
    ] {
        assert_eq!(by_line(line), Ok(name.as_bytes().to_vec()), "{line:?}");
    }
    for line in [
        "",
        "attachment",
        "Filename=x",
        "filename:x",
        "filename",
        "name=x",
    ] {
        assert_eq!(by_line(line), Err(Broken::NoName), "{line:?}");
    }
}

#[test]
fn first_and_last_lines() {
    let headers = format!("{LENGTH}{NAMED}\r\nabc");
    for (before, after, cause) in [
        ("", "", Broken::End),
        ("--B\r\n", "", Broken::End),
        ("--B\r\n", "--B--", Broken::End),
        ("--B\r\n", "\n--B--", Broken::End),
        ("--B\r\n", "\r\n--B-", Broken::End),
        ("--B\r\n", "\r\n--B", Broken::End),
        ("--B\r\n", "\r\n-B--", Broken::End),
        ("--B\r\n", "\r\n--b--", Broken::End),
        ("--B\r\n", "\r\n--B--\r", Broken::End),
        ("--B\r\n", "\r\n--B--\n", Broken::End),
        ("--B\r\n", "\r\n--B--\r\n\r\n", Broken::End),
        ("--B\r\n", "\r\n--B-- ", Broken::End),
        ("--B\r\n", "\r\n--B--x", Broken::End),
        ("--B\r\n", "\r\n--BB--", Broken::End),
        ("--B\r\n", "\r\n --B--", Broken::End),
        ("", "\r\n--B--", Broken::FirstLine),
        ("-B\r\n", "\r\n--B--", Broken::FirstLine),
        ("--B\n", "\r\n--B--", Broken::FirstLine),
        ("--B\r", "\r\n--B--", Broken::FirstLine),
        ("--B", "\r\n--B--", Broken::FirstLine),
        ("--B \r\n", "\r\n--B--", Broken::FirstLine),
        ("--BB\r\n", "\r\n--B--", Broken::FirstLine),
        ("--b\r\n", "\r\n--B--", Broken::FirstLine),
        ("\r\n--B\r\n", "\r\n--B--", Broken::FirstLine),
    ] {
        let response = format!("{before}{headers}{after}").into_bytes();
        assert_eq!(opened(b"B", &response), Err(cause), "{before:?} {after:?}");
    }
    // Lines that would have to share a 0D 0A.
    let both = [
        ("", Broken::End),
        ("--B\r\n", Broken::End),
        ("--B--", Broken::End),
        ("--B--\r\n", Broken::End),
        ("--B\r\n--B--", Broken::FirstLine),
        ("--B\r\n\r\n--B--", Broken::NoEmptyLine),
        ("--B\r\n\r\n\r\n--B--", Broken::NoLength),
    ];
    for (response, cause) in both {
        let opened = opened(b"B", response.as_bytes());
        assert_eq!(opened, Err(cause), "{response:?}");
    }
    // The empty line may not be the closing line's 0D 0A.
    let response = format!("--B\r\n{NAMED}Content-Length: 0\r\n\r\n--B--");
    let short = opened(b"B", response.as_bytes());
    assert_eq!(short, Err(Broken::NoEmptyLine));
}

#[test]
fn boundaries() {
    let by_boundary = |boundary: &[u8]| {
        let response = Frame::figure(boundary, b"x", b"abc").bytes();
        opened(boundary, &response).map(|(name, _)| name.to_vec())
    };
    let x = Ok(b"x".to_vec());
    for byte in 0..=255 {
        let lawful = ALPHABET.contains(&byte);
        let due = if lawful {
            x.clone()
        } else {
            Err(Broken::BoundaryByte)
        };
        assert_eq!(by_boundary(&[byte]), due, "{byte}");
        for place in [0, 1, 34, 69] {
            let mut boundary = [b'a'; 70];
            boundary[place] = byte;
            assert_eq!(by_boundary(&boundary), due, "{byte} at {place}");
        }
    }
    for length in 1..=70 {
        assert_eq!(by_boundary(&vec![b'7'; length]), x);
    }
    for length in [0, 71, 72, 326, 65_537] {
        let boundary = vec![b'7'; length];
        assert_eq!(by_boundary(&boundary), Err(Broken::BoundaryLength));
    }
    // Of two that begin alike neither opens the other's.
    for (passed, own) in [(&b"ab"[..], &b"abc"[..]), (b"abc", b"ab"), (b"AB", b"ab")] {
        let response = Frame::figure(own, b"x", b"abc").bytes();
        assert_eq!(opened(passed, &response), Err(Broken::End));
    }
}

/// Each kind of change does what it was meant for.
#[test]
fn changed_responses() {
    println!("seed {RESPONSE_SEED}, {CHANGED} of each kind");
    let mut random = Random::new(RESPONSE_SEED);
    let (name, body) = example_10();
    for change in all_changes() {
        for _ in 0..CHANGED {
            let mut frame = lawful(&name, &body, &mut random);
            let bytes = frame.bytes();
            let before = opened(&frame.boundary, &bytes);
            assert_eq!(before, Ok((&name[..], &body[..])), "{frame:?}");
            (change.apply)(&mut frame, &mut random);
            let bytes = frame.bytes();
            let after = opened(&frame.boundary, &bytes);
            let outcome = match after {
                Ok((other, file)) if file == body && other == name => Outcome::Same,
                Ok((_, file)) if file == body => Outcome::Renamed,
                Ok(_) => panic!("{}: another file", change.words),
                Err(_) => Outcome::Broken,
            };
            assert_eq!(outcome, change.outcome, "{}, {frame:?}", change.words);
        }
    }
}

/// Mixed ones reach every way of being broken, and both ways of opening them
/// agree.
#[test]
fn mixed_responses() {
    println!("seed {RESPONSE_SEED}, {MIXED} responses");
    let mut random = Random::new(RESPONSE_SEED);
    let mut ways = Branches::default();
    let (name, _) = example_10();
    for _ in 0..MIXED {
        let length = random.below(40) as usize;
        let file: Vec<u8> = match random.once_in(2) {
            true => random.bytes(length),
            false => (0..length).map(|_| random.pick(b"\r\n-B0")).collect(),
        };
        let (boundary, response) = response(&name, &file, &mut random);
        ways.add(match opened(&boundary, &response) {
            Ok(_) => "well formed",
            Err(Broken::BoundaryLength) => "boundary's length",
            Err(Broken::BoundaryByte) => "boundary's byte",
            Err(Broken::End) => "end",
            Err(Broken::FirstLine) => "first line",
            Err(Broken::NoEmptyLine) => "no empty line",
            Err(Broken::NoLength) => "no length",
            Err(Broken::TwoLengths) => "two lengths",
            Err(Broken::LengthDigits) => "length's digits",
            Err(Broken::NoDisposition) => "no disposition",
            Err(Broken::TwoDispositions) => "two dispositions",
            Err(Broken::NoName) => "no name",
            Err(Broken::OtherLength) => "another length",
        });
    }
    ways.settle(
        "mixed responses",
        &[
            "well formed",
            "boundary's length",
            "boundary's byte",
            "end",
            "first line",
            "no empty line",
            "no length",
            "two lengths",
            "length's digits",
            "no disposition",
            "two dispositions",
            "no name",
            "another length",
        ],
    );
}

/// 'A response that breaks this form is refused with 17, after 5 and before
/// 7, by the machine as well'; a good one is its file taken.
#[test]
fn machine_takes_responses() {
    let (name, body) = example_10();
    let response = |boundary: &[u8], name: &[u8], body: &[u8]| Call::TakeResponse {
        boundary: boundary.to_vec(),
        response: Frame::figure(boundary, name, body).bytes(),
    };
    let good = response(BOUNDARY, &name, &body);
    let broken = response(b"", &name, &body);
    let fresh = |length| {
        let mac = b"012389ABCDEF";
        Machine::install(&PLANT_X, mac, SETTINGS_X, length).expect("valid values")
    };
    let second = moment(&values("20260327090000")).expect("exists");
    let mut set = fresh(STORE_LENGTH);
    assert_eq!(set.answer(&Call::Tick { second }), Answer::Accepted);
    let mut short = set.clone();
    short.store_length -= 1;
    for (machine, call, cause) in [
        (&short, &broken, 3),
        (&fresh(0), &broken, 3),
        (&fresh(STORE_LENGTH), &broken, 5),
        (&fresh(STORE_LENGTH), &good, 5),
        (&set, &broken, 17),
        (&set, &response(b"", b"", b""), 17),
        (&set, &response(BOUNDARY, b"", &body), 7),
        (&set, &response(BOUNDARY, b"\"x\"", &body), 7),
        (&set, &response(BOUNDARY, &name, b""), 9),
    ] {
        let mut after = machine.clone();
        assert_eq!(after.answer(call), Answer::Refused(cause), "{call:?}");
        assert_eq!(after, *machine);
    }
    let mut by_file = set.clone();
    let file = Call::TakeFile { name, body };
    assert_eq!(by_file.answer(&file), Answer::Accepted);
    assert_eq!(set.answer(&good), Answer::Accepted);
    assert_eq!(set, by_file);
}
