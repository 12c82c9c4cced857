//! The Rust structs, constants and calls of `firmware` are those of the C
//! header, and the header asserts the place of every field of every struct.

use std::mem::{offset_of, size_of};

use compare::firmware::{self, CeilingAnswer, Done, DueAnswer, ErrorAnswer};
use compare::firmware::{FileAnswer, Number, Places, Settings, Unit, Written};
use compare::reference::calendar::{days_of_month, MONTHS};

const HEADER: &str = include_str!("../../include/jagwelu.h");
const CALLS: &str = include_str!("../src/firmware/calls.rs");

/// The text between `open` and `close` of each line that begins with `open`.
fn lines<'a>(open: &str, close: &str) -> Vec<&'a str> {
    HEADER
        .lines()
        .filter_map(|line| line.strip_prefix(open)?.strip_suffix(close))
        .collect()
}

/// The header's structs with their fields, in its order: `struct, field`.
fn fields() -> Vec<String> {
    let mut found = Vec::new();
    let mut name = None;
    for line in HEADER.lines() {
        if let Some(opened) = line.strip_prefix("struct ") {
            name = opened.strip_suffix(" {");
        } else if line == "};" {
            name = None;
        } else if let (Some(name), Some((field, _))) = (name, line.split_once(';')) {
            let field = field
                .split(['[', ' '])
                .rfind(|word| word.starts_with(|c: char| c.is_ascii_lowercase()));
            found.push(format!("{name}, {}", field.expect("a field's name")));
        }
    }
    found
}

/// No field is without an assertion of its place.
#[test]
fn every_field_has_its_place() {
    let asserted = lines("JAG_AT(", ");").into_iter();
    let named: Vec<&str> = asserted
        .map(|line| line.rsplit_once(", ").expect("a place").0)
        .collect();
    assert_eq!(fields(), named);
    assert!(named.len() >= 52);
}

/// The header's places, in its order and words.
#[test]
fn places() {
    macro_rules! places {
        ($($name:literal $type:ty: $($field:ident)*;)*) => {
            vec![$($(format!(
                "{}, {}, {}", $name, stringify!($field), offset_of!($type, $field)
            ),)*)*]
        };
    }
    let here = places! {
        "jag_settings" Settings: panel inverter minutes;
        "jag_unit" Unit:
            id mac wanted_flag held_flag failures clock_set floor months free
            clock command fixed_at update_at settings;
        "jag_done" Done: unit cause;
        "jag_number" Number: cause value;
        "jag_written" Written: length cause;
        "jag_due_answer" DueAnswer: cause kind flag;
        "jag_ceiling_answer" CeilingAnswer: cause has_rate rate percent;
        "jag_file" FileAnswer:
            cause format segment records rates start flag next_access result;
        "jag_error" ErrorAnswer: text_at text_length cause code;
        "jag_places" Places: schedule plant start rates count flag checksum next cause;
    };
    assert_eq!(lines("JAG_AT(", ");"), here);
}

#[test]
fn sizes() {
    let here = [
        ("jag_settings", size_of::<Settings>()),
        ("jag_unit", size_of::<Unit>()),
        ("jag_done", size_of::<Done>()),
        ("jag_number", size_of::<Number>()),
        ("jag_written", size_of::<Written>()),
        ("jag_due_answer", size_of::<DueAnswer>()),
        ("jag_ceiling_answer", size_of::<CeilingAnswer>()),
        ("jag_file", size_of::<FileAnswer>()),
        ("jag_error", size_of::<ErrorAnswer>()),
        ("jag_places", size_of::<Places>()),
    ];
    let here = here.map(|(name, size)| format!("{name}) == {size}, \"{name}\""));
    assert_eq!(lines("JAG_ASSERT(sizeof(struct ", ");"), here);
}

/// The names between `before` and a parenthesis, in the text's order.
fn called<'a>(text: &'a str, before: &str) -> Vec<&'a str> {
    let starts = text.match_indices("jag_").map(|(place, _)| place);
    starts
        .filter(|place| text[..*place].ends_with(before))
        .filter_map(|place| {
            let (name, _) = text[place..].split_once('(')?;
            let is_word = |byte: u8| byte == b'_' || byte.is_ascii_lowercase();
            name.bytes().all(is_word).then_some(name)
        })
        .collect()
}

#[test]
fn functions() {
    let declared = called(CALLS, "    fn ");
    assert_eq!(declared.len(), 19);
    // The comment at the header's top shows a tick; one is the header's own.
    let header = called(HEADER, " ");
    assert_eq!(header[..2], ["jag_tick", "jag_settings_of"]);
    assert_eq!(header[2..], declared);
}

/// The number that the header defines under a name.
fn defined(name: &str) -> usize {
    let number = lines(&format!("#define {name} "), "u");
    let [number] = number[..] else {
        panic!("{name}: {number:?}")
    };
    number.parse().expect("a number")
}

#[test]
fn constants() {
    let blocks = (defined("JAG_BLOCK_COUNT"), defined("JAG_BLOCK_LENGTH"));
    assert_eq!(blocks, (firmware::BLOCK_COUNT, firmware::BLOCK_LENGTH));
    assert_eq!(defined("JAG_NO_FLAG"), usize::from(firmware::NO_FLAG));
    assert_eq!(defined("JAG_REQUEST_LENGTH"), 84);
    assert_eq!(defined("JAG_NAME_LENGTH"), 55);
    // A body's count of 6 digits, and in each of 13 records 53 digits, the
    // rates and a checksum: of the 13 months with the most days, and of as
    // many rates as five digits can say.
    let days = |first: u16| (first..first + 13).map(days_of_month).sum::<u32>();
    let most = (0..=MONTHS - 13).map(days).max().expect("13 months");
    assert_eq!(most, 397);
    let longest = |rates: usize| 6 + 13 * (53 + 2) + rates;
    assert_eq!(defined("JAG_BODY_LENGTH"), longest(48 * most as usize));
    assert_eq!(defined("JAG_FORM_LENGTH"), longest(13 * 99_999));
}
