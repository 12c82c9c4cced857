//! The error file: `E`, `1` or `0`, three digits, a space, and a text of 0 to
//! 384 bytes of valid UTF-8 (cause 16).

/// The most bytes of a text.
const TEXT_MAX: usize = 384;

/// The code (0 to 1999) and the text.
pub fn read_error_file(file: &[u8]) -> Result<(u32, &[u8]), u8> {
    if file.len() < 6 || file.len() > 6 + TEXT_MAX {
        return Err(16);
    }
    let (head, text) = file.split_at(6);
    let place = head[1] == b'0' || head[1] == b'1';
    let number = head[2..5].iter().all(u8::is_ascii_digit);
    if head[0] != b'E' || !place || !number || head[5] != b' ' {
        return Err(16);
    }
    if std::str::from_utf8(text).is_err() {
        return Err(16);
    }
    let code = head[1..5]
        .iter()
        .fold(0, |sum, byte| sum * 10 + u32::from(byte - b'0'));
    Ok((code, text))
}
