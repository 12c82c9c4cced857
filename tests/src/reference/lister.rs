//! The lister's line for its standard input.

use super::body::read;

/// Name and body of an input, split at the first 0A; without one, all of it
/// is the name.
pub fn split(input: &[u8]) -> (&[u8], &[u8]) {
    match input.iter().position(|byte| *byte == b'\n') {
        Some(place) => (&input[..place], &input[place + 1..]),
        None => (input, &[]),
    }
}

/// `ok`, format, records and total rates, or `refused` and the number.
pub fn line(input: &[u8]) -> Vec<u8> {
    let (name, body) = split(input);
    let words = match read(None, name, body) {
        Ok(file) => format!(
            "ok {} {} {}\n",
            file.format,
            file.record_count(),
            file.total_rates()
        ),
        Err(cause) => format!("refused {cause}\n"),
    };
    words.into_bytes()
}
