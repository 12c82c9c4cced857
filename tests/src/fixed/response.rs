//! A whole response taken: its frame opened in one walk from its start.

use super::Unit;

/// Letters and digits of a boundary at most.
const BOUNDARY_MAX: usize = 70;

/// The line with which the bytes begin, and what follows its 0D 0A.
#[inline]
fn split_line(bytes: &[u8]) -> Option<(&[u8], &[u8])> {
    let mut from = 0;
    loop {
        let feed = from + bytes[from..].iter().position(|byte| *byte == b'\n')?;
        if feed > 0 && bytes[feed - 1] == b'\r' {
            return Some((&bytes[..feed - 1], &bytes[feed + 1..]));
        }
        from = feed + 1;
    }
}

/// The value of 1 to 6 ASCII digits.
#[inline]
fn length_of(digits: &[u8]) -> Option<usize> {
    if digits.is_empty() || digits.len() > 6 {
        return None;
    }
    digits.iter().try_fold(0, |sum, byte| {
        let digit = usize::from(byte.wrapping_sub(b'0'));
        (digit <= 9).then_some(sum * 10 + digit)
    })
}

#[inline]
fn name_of(disposition: &[u8]) -> Option<&[u8]> {
    const TITLE: &[u8] = b"filename=";
    let place = disposition
        .windows(TITLE.len())
        .position(|part| part == TITLE)?;
    Some(&disposition[place + TITLE.len()..])
}

/// Name and file of a response; nothing where it breaks its form.
pub fn open<'a>(boundary: &[u8], response: &'a [u8]) -> Option<(&'a [u8], &'a [u8])> {
    let lawful = boundary.iter().all(u8::is_ascii_alphanumeric);
    if boundary.is_empty() || boundary.len() > BOUNDARY_MAX || !lawful {
        return None;
    }
    let first = response.strip_prefix(b"--")?.strip_prefix(boundary)?;
    let mut rest = first.strip_prefix(b"\r\n")?;
    let (mut length, mut name) = (None, None);
    loop {
        let (line, after) = split_line(rest)?;
        rest = after;
        if line.is_empty() {
            break;
        }
        if let Some(digits) = line.strip_prefix(b"Content-Length: ") {
            if length.replace(length_of(digits)?).is_some() {
                return None;
            }
        } else if let Some(disposition) = line.strip_prefix(b"Content-Disposition: ") {
            if name.replace(name_of(disposition)?).is_some() {
                return None;
            }
        }
    }
    let (file, closing) = rest.split_at_checked(length?)?;
    let end = closing.strip_prefix(b"\r\n--")?.strip_prefix(boundary)?;
    match end {
        b"--" | b"--\r\n" => Some((name?, file)),
        _ => None,
    }
}

impl Unit {
    /// A whole response came in.
    pub fn take_response(&mut self, boundary: &[u8], response: &[u8]) -> Result<(), u8> {
        self.check()?;
        self.now()?;
        let (name, file) = open(boundary, response).ok_or(17)?;
        self.take_checked(name, file)
    }
}
