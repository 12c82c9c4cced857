//! The reference against the examples of 01 and 002, and its calendar against
//! the generator's.

use compare::generate::cases::{example_10, special, values};
use compare::generate::draft::PLANT_X;
use compare::generate::outputs::{self, MESSAGES};
use compare::generate::{almanac, Random, DATE_SEED};
use compare::reference::error_file::read_error_file;
use compare::reference::request::request;
use compare::reference::{body, calendar, lister, name, plant};
use compare::reference::{read, write, Fields, Segment};

#[test]
fn example_1_check_digit() {
    assert_eq!(plant::weighted_sum(&PLANT_X), 545);
    assert!(plant::is_plant_id(&PLANT_X));
    let mut wrong = PLANT_X;
    wrong[25] = 4;
    let mac = b"012389ABCDEF";
    assert_eq!(plant::install(&wrong, mac, 4_000, 5_500, 5), Err(1));
    assert_eq!(plant::install(&PLANT_X, mac, 4_000, 5_500, 5), Ok(()));
}

#[test]
fn example_2_checksum() {
    let rates = [100, 40, 28];
    assert_eq!(body::checksum(&values("202603270930"), &rates), 18);
    // 002, 3.2 (2): the same sum, although its minute 05 is no lawful start.
    assert_eq!(body::checksum(&values("201803271005"), &rates), 18);
    assert_eq!(calendar::start_slot(&values("201803271005")), None);
}

fn yearly(start: &str, days: usize) -> Fields {
    Fields {
        format: 201,
        plant: PLANT_X.to_vec(),
        schedule: values("2603270001"),
        start: values(start),
        next: Vec::new(),
        rates: vec![100; 48 * days],
        flag: 0,
    }
}

#[test]
fn example_3_yearly_body() {
    let april_2026 = 26 * 12 + 3;
    let days: u32 = (april_2026..april_2026 + 13)
        .map(calendar::days_of_month)
        .sum();
    assert_eq!(days, 395);
    let written = write(&yearly("202604010000", 395)).expect("valid fields");
    assert_eq!(written.len(), 19_681);
    // 002, 5.1's name; 002's figure 4.3 has the same length for its ID.
    let name = b"201_9990_12345678901234567890123455_20180505100520.data";
    let file = read(None, name, &written).expect("reads back");
    assert_eq!((file.records.len(), file.total_rates()), (13, 18_960));
    assert_eq!(file.segment, Segment::Yearly { digit: 0 });
    let other = b"201_9990_02000000020000002000010003_20180121170011.data";
    let other = name::read_name(other).expect("a lawful name");
    assert!(plant::is_plant_id(&other.plant));
}

#[test]
fn example_4_percent() {
    assert_eq!(plant::percent(4_000, 5_500, 40), 29);
    assert_eq!(plant::percent(4_000, 5_500, 100), 72);
}

#[test]
fn example_8_and_the_special_cases() {
    for case in special() {
        let (alone, for_plant) = case.expected.expect("stated");
        let cause = |plant| read(plant, &case.name, &case.body).map_or_else(|cause| cause, |_| 0);
        assert_eq!(cause(None), alone, "{}", case.words[0]);
        assert_eq!(cause(Some(&case.plant)), for_plant, "{}", case.words[0]);
    }
}

#[test]
fn example_10_lister() {
    let (name, body) = example_10();
    assert_eq!(body.len(), 79);
    let input = [name.as_slice(), b"\n", &body].concat();
    assert_eq!(lister::line(&input), b"ok 203 1 3\n");
    assert_eq!(lister::line(&name), b"refused 9\n");
    assert_eq!(lister::line(b""), b"refused 7\n");
    let file = read(Some(&PLANT_X), &name, &body).expect("example 10 reads");
    let record = &file.records[0];
    let eleven = calendar::start_slot(&values("202603271100")).expect("exists");
    assert_eq!(record.start_slot + record.rates.len() as u32, eleven);
    assert_eq!(file.flag, Some(2));
    assert_eq!(file.next, calendar::moment(&values("20260327113000")));
}

#[test]
fn registration_reads_but_is_not_taken() {
    let name = b"301_8888_12345678901234567890123455_20260327090000.data";
    let mut body = values("000001");
    body.extend(PLANT_X);
    body.push(1);
    let input = [name.as_slice(), b"\n", &body].concat();
    assert_eq!(lister::line(&input), b"ok 301 1 0\n");
    let file = read(None, name, &body).expect("reads");
    assert_eq!((file.result, file.record_count()), (Some(1), 1));
    assert_eq!(body::read_to_take(&PLANT_X, name, &body), Err(7));
}

/// 002, figure 5.2: the parts of an update of 124 rates that it shows.
#[test]
fn figure_5_2_binary_form() {
    let mut fields = Fields {
        format: 203,
        plant: PLANT_X.to_vec(),
        schedule: values("1804011700"),
        start: values("201804011730"),
        next: values("20180401203000"),
        rates: vec![0; 124],
        flag: 2,
    };
    fields.rates[0] = 100;
    fields.rates[123] = 30;
    let body = write(&fields).expect("valid fields");
    assert_eq!(body[..6], [0, 0, 0, 0, 0, 1]);
    assert_eq!(body[6..16], [1, 8, 0, 4, 0, 1, 1, 7, 0, 0]);
    assert_eq!(body[42..46], [2, 0, 1, 8]);
    assert_eq!(body[54..59], [0, 0, 1, 2, 4]);
    assert_eq!(body[59..61], [0x64, 0]);
    assert_eq!(body[182..184], [0x1E, 2]);
    assert_eq!(body[184..186], [0, 130 % (4 + 1)]);
    assert_eq!(body.len(), 200);
}

#[test]
fn messages_of_table_6_4() {
    for (code, message) in MESSAGES {
        let text = &message.as_bytes()[6..];
        assert_eq!(read_error_file(message.as_bytes()), Ok((code, text)));
    }
    assert_eq!(read_error_file(b"E1001"), Err(16));
    assert_eq!(read_error_file(b"E1001 "), Ok((1001, b"".as_slice())));
    assert_eq!(read_error_file(b"E2001 x"), Err(16));
}

/// Error files, requests and names in the order of the Rattle program
/// `paper_test`; what it prints is what the reference makes of them.
#[test]
fn paper_test_prints_the_same() {
    let mut printed = String::new();
    let refused = |cause: u8| format!("refused {cause}\n");
    let others: [&[u8]; 4] = [
        b"E1003 ",
        b"E0003 \xE9\x85",
        b"E1001 \xE0\x80\xAF",
        b"E2001 ",
    ];
    let messages = MESSAGES.iter().map(|(_, message)| message.as_bytes());
    for file in messages.chain(others) {
        printed += &match read_error_file(file) {
            Ok((code, text)) => format!("{code} {}\n", String::from_utf8_lossy(text)),
            Err(cause) => refused(cause),
        };
    }
    let sent: [(&[u8], &[u8]); 4] = [
        (b"012389ABCDEF", b"9990"),
        (b"012389ABCDEF", b"0000"),
        (b"012389ABCDEF", b"8888"),
        (b"01-23-89-ab-cd-ef", b"9990"),
    ];
    for (mac, segment) in sent {
        printed += &match request(&PLANT_X, mac, segment, 84) {
            Ok(bytes) => format!("{}\n", String::from_utf8_lossy(&bytes)),
            Err(cause) => refused(cause),
        };
    }
    for text in [
        "201_9990_12345678901234567890123455_20180505100520.data",
        "201_9990_02000000020000002000010003_20180121170011.data",
        "ERR_9990_12345678901234567890123455_20180505100520.data",
    ] {
        let bytes = text.as_bytes();
        if let Ok(name) = name::read_name(bytes) {
            printed += &format!("{} {} ", name.format, name.segment_value);
        }
        printed += &refused(read(None, bytes, b"").expect_err("no body"));
    }
    assert_eq!(printed, include_str!("../../crates/paper_test/stdout"));
}

#[test]
fn request_bytes() {
    let made = request(&PLANT_X, b"012389ABCDEF", b"9990", 84).expect("valid values");
    let bytes = b"power_plant_id=12345678901234567890123455\
        &mac_address=012389ABCDEF&schedule_kbn=9990";
    assert_eq!(made, bytes);
    assert_eq!(made.len(), 84);
    assert_eq!(request(&PLANT_X, b"012389abCDEF", b"9990", 84), Err(2));
    assert_eq!(request(&PLANT_X, b"012389ABCDEF", b"2613", 84), Err(7));
    assert_eq!(request(&PLANT_X, b"012389ABCDEF", b"2612", 83), Err(15));
}

/// The reference's day numbers against the generator's counted months.
#[test]
fn two_calendars_agree() {
    let mut slot = 0;
    for month in 0..calendar::MONTHS {
        let counted = u64::from(month);
        assert_eq!(calendar::first_slot(month), slot);
        assert_eq!(calendar::month_of_slot(slot), u32::from(month));
        assert_eq!(
            48 * calendar::days_of_month(month) as usize,
            almanac::slots(counted)
        );
        slot += 48 * calendar::days_of_month(month);
        assert_eq!(calendar::month_of_slot(slot - 1), u32::from(month));
    }
    assert_eq!(slot, calendar::SLOTS);
    assert_eq!(u64::from(slot) * calendar::SLOT_SECONDS, calendar::END);
    let mut random = Random::new(DATE_SEED);
    for _ in 0..20_000 {
        let seconds = almanac::some_moment(&mut random);
        let digits = almanac::moment(seconds);
        assert_eq!(calendar::moment(&digits), Some(seconds));
        assert_eq!(calendar::digits_of_moment(seconds), digits);
        let damaged = outputs::damaged_date(&mut random);
        if let Some(seconds) = calendar::moment(&damaged) {
            assert_eq!(almanac::moment(seconds), damaged);
        }
    }
}
