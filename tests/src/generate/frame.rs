//! A whole response in its parts, so that one part can be changed and the rest
//! stays lawful.

use super::random::Random;

/// The letters and digits of a boundary.
pub const ALPHABET: &[u8; 62] = b"ABCDEFGHIJKLMNOPQRSTUVWXYZabcdefghijklmnopqrstuvwxyz0123456789";
/// The boundary of 002's figure 4.3.
pub const BOUNDARY: &[u8] = b"BOUNDARY";

/// A response in parts. Lines stand here without their ends.
#[derive(Clone, Debug)]
pub struct Frame {
    /// What the caller passes.
    pub boundary: Vec<u8>,
    /// The first line.
    pub opening: Vec<u8>,
    pub headers: Vec<Vec<u8>>,
    /// What parts headers and file.
    pub empty_line: Vec<u8>,
    pub file: Vec<u8>,
    /// The closing line with the 0D 0A before it.
    pub closing: Vec<u8>,
    /// What follows it.
    pub end: Vec<u8>,
}

/// A line that begins so.
pub fn text(title: &str, value: &[u8]) -> Vec<u8> {
    [title.as_bytes(), value].concat()
}

impl Frame {
    /// The response of 002's figure 4.3, with this boundary, name and file.
    pub fn figure(boundary: &[u8], name: &[u8], file: &[u8]) -> Frame {
        let mut frame = Frame {
            boundary: Vec::new(),
            opening: Vec::new(),
            headers: vec![
                format!("Content-Length: {}", file.len()).into_bytes(),
                b"Content-Type: application/octet-stream".to_vec(),
                text("Content-Disposition: attachment; filename=", name),
            ],
            empty_line: b"\r\n".to_vec(),
            file: file.to_vec(),
            closing: Vec::new(),
            end: Vec::new(),
        };
        frame.bound(boundary);
        frame
    }

    /// Another boundary, passed and in both lines.
    pub fn bound(&mut self, boundary: &[u8]) {
        self.boundary = boundary.to_vec();
        self.opening = text("--", boundary);
        self.closing = [b"\r\n--", boundary, b"--"].concat();
    }

    /// The bytes that the modem hands over.
    pub fn bytes(&self) -> Vec<u8> {
        let mut bytes = [&self.opening[..], b"\r\n"].concat();
        for header in &self.headers {
            bytes.extend(header);
            bytes.extend(b"\r\n");
        }
        for part in [&self.empty_line, &self.file, &self.closing, &self.end] {
            bytes.extend(part);
        }
        bytes
    }

    /// Where the header line is that begins so.
    pub fn place(&self, title: &str) -> usize {
        let begins = |header: &Vec<u8>| header.starts_with(title.as_bytes());
        let place = self.headers.iter().position(begins);
        place.expect("each kind of change is made to a lawful response")
    }

    /// The Content-Length line.
    pub fn length(&mut self) -> &mut Vec<u8> {
        let place = self.place("Content-Length: ");
        &mut self.headers[place]
    }

    /// The Content-Disposition line.
    pub fn disposition(&mut self) -> &mut Vec<u8> {
        let place = self.place("Content-Disposition: ");
        &mut self.headers[place]
    }

    /// One more header line, anywhere among them.
    pub fn insert(&mut self, line: &[u8], random: &mut Random) {
        let place = random.below(self.headers.len() as u64 + 1) as usize;
        self.headers.insert(place, line.to_vec());
    }
}

/// The name in a Content-Disposition line that has one.
pub fn name_part(line: &[u8]) -> &[u8] {
    const TITLE: &[u8] = b"filename=";
    let place = line.windows(TITLE.len()).position(|part| part == TITLE);
    &line[place.expect("a lawful response") + TITLE.len()..]
}
