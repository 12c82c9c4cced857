//! A whole response from the modem, multipart/mixed with one part: a file, and
//! its name among the headers (02 §1; cause 17).
//!
//! It is opened from both ends. What must stand before and behind the part is
//! taken off; of the part, what follows the first empty line is the file, and
//! it must be as long as the headers say. So nothing is searched in the file.

/// A line's end. A lone 0D or 0A belongs to its line.
const LINE_END: &[u8] = b"\r\n";
/// The most bytes of a boundary.
pub const BOUNDARY_MAX: usize = 70;
/// The most digits of a length.
const LENGTH_DIGITS: usize = 6;
/// 'Each of Content-Length and Content-Disposition must begin exactly one
/// header line, spelt so, before a colon and a space.'
const LENGTH_TITLE: &[u8] = b"Content-Length: ";
const DISPOSITION_TITLE: &[u8] = b"Content-Disposition: ";
const NAME_TITLE: &[u8] = b"filename=";

/// Why a response is refused with 17.
#[derive(Clone, Copy, Debug, PartialEq, Eq)]
pub enum Broken {
    /// Not 1 to 70 bytes.
    BoundaryLength,
    /// A byte that is no ASCII letter or digit.
    BoundaryByte,
    /// Another end than 0D 0A, `--`, the boundary, `--`, at most one 0D 0A.
    End,
    /// Another first line than `--` and the boundary.
    FirstLine,
    NoEmptyLine,
    NoLength,
    TwoLengths,
    /// Not 1 to 6 decimal digits.
    LengthDigits,
    NoDisposition,
    TwoDispositions,
    /// A Content-Disposition without `filename=`.
    NoName,
    /// The file is longer or shorter than the length.
    OtherLength,
}

/// What a response carries.
#[derive(Clone, Copy, Debug, PartialEq, Eq)]
pub struct Part<'a> {
    pub name: &'a [u8],
    pub file: &'a [u8],
}

/// 'The boundary (1 to 70 ASCII letters or digits ..)'
fn check_boundary(boundary: &[u8]) -> Result<(), Broken> {
    if boundary.is_empty() || boundary.len() > BOUNDARY_MAX {
        return Err(Broken::BoundaryLength);
    }
    if !boundary.iter().all(u8::is_ascii_alphanumeric) {
        return Err(Broken::BoundaryByte);
    }
    Ok(())
}

/// What stands between the first line and the 0D 0A of the closing line.
fn inside<'a>(boundary: &[u8], response: &'a [u8]) -> Result<&'a [u8], Broken> {
    let delimiter = [b"--", boundary].concat();
    let closing = [LINE_END, &delimiter, b"--"].concat();
    let opening = [&delimiter, LINE_END].concat();
    // The closing line ends in `--`, so a 0D 0A at the end is the one more.
    let closed = response.strip_suffix(LINE_END).unwrap_or(response);
    let opened = closed.strip_suffix(&closing[..]).ok_or(Broken::End)?;
    opened.strip_prefix(&opening[..]).ok_or(Broken::FirstLine)
}

/// Headers, each with its end, and file: an empty line is a 0D 0A where a line
/// begins, and the first one parts them.
fn at_empty_line(inside: &[u8]) -> Option<(&[u8], &[u8])> {
    let is_empty_line = |place: &usize| {
        let (before, after) = inside.split_at(*place);
        let begins = before.is_empty() || before.ends_with(LINE_END);
        begins && after.starts_with(LINE_END)
    };
    let place = (0..inside.len()).find(is_empty_line)?;
    Some((&inside[..place], &inside[place + LINE_END.len()..]))
}

fn place_of(part: &[u8], bytes: &[u8]) -> Option<usize> {
    bytes.windows(part.len()).position(|window| window == part)
}

/// Of each header line that begins so, the rest.
fn values<'a>(title: &[u8], mut headers: &'a [u8]) -> Vec<&'a [u8]> {
    let mut found = Vec::new();
    while let Some(end) = place_of(LINE_END, headers) {
        found.extend(headers[..end].strip_prefix(title));
        headers = &headers[end + LINE_END.len()..];
    }
    found
}

/// 'The length is 1 to 6 decimal digits.'
fn length_of(digits: &[u8]) -> Result<usize, Broken> {
    let lawful = (1..=LENGTH_DIGITS).contains(&digits.len());
    if !lawful || !digits.iter().all(u8::is_ascii_digit) {
        return Err(Broken::LengthDigits);
    }
    let add = |sum, digit: &u8| sum * 10 + usize::from(digit - b'0');
    Ok(digits.iter().fold(0, add))
}

/// 'The name is what follows the first `filename=` in the Content-Disposition
/// line, quotation marks included, to the line's end.'
fn name_of(disposition: &[u8]) -> Option<&[u8]> {
    let place = place_of(NAME_TITLE, disposition)?;
    Some(&disposition[place + NAME_TITLE.len()..])
}

/// Name and file of a response, or what breaks its form.
pub fn open<'a>(boundary: &[u8], response: &'a [u8]) -> Result<Part<'a>, Broken> {
    check_boundary(boundary)?;
    let inside = inside(boundary, response)?;
    let (headers, file) = at_empty_line(inside).ok_or(Broken::NoEmptyLine)?;
    let length = match values(LENGTH_TITLE, headers)[..] {
        [digits] => length_of(digits)?,
        [] => return Err(Broken::NoLength),
        _ => return Err(Broken::TwoLengths),
    };
    let name = match values(DISPOSITION_TITLE, headers)[..] {
        [disposition] => name_of(disposition).ok_or(Broken::NoName)?,
        [] => return Err(Broken::NoDisposition),
        _ => return Err(Broken::TwoDispositions),
    };
    if file.len() != length {
        return Err(Broken::OtherLength);
    }
    Ok(Part { name, file })
}
