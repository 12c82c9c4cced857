//! A buffer to lend to a call: filled with a pattern, with a margin before
//! and after it, so that every byte that a call should have left alone shows.

const PATTERN: u8 = 0xA5;
const MARGIN: usize = 16;

/// The buffer and its margins.
pub struct Lent {
    bytes: Vec<u8>,
}

impl Lent {
    /// A buffer of `room` bytes.
    pub fn new(room: usize) -> Lent {
        Lent {
            bytes: vec![PATTERN; room + 2 * MARGIN],
        }
    }

    /// The part that is lent.
    pub fn room(&mut self) -> &mut [u8] {
        let end = self.bytes.len() - MARGIN;
        &mut self.bytes[MARGIN..end]
    }

    /// A buffer that holds these bytes.
    pub fn with(bytes: &[u8]) -> Lent {
        let mut lent = Lent::new(bytes.len());
        lent.room().copy_from_slice(bytes);
        lent
    }

    /// What the lent part holds.
    pub fn held(&self) -> &[u8] {
        &self.bytes[MARGIN..self.bytes.len() - MARGIN]
    }

    /// Did the margins stay as they were?
    pub fn margins_stayed(&self) -> bool {
        let past = &self.bytes[self.bytes.len() - MARGIN..];
        let mut margins = self.bytes[..MARGIN].iter().chain(past);
        margins.all(|byte| *byte == PATTERN)
    }

    /// Demands that the buffer holds what was written, from its start, and
    /// that every other byte stayed; all of them where the call was refused.
    pub fn check(&self, written: &Result<Vec<u8>, u8>) {
        let written = written.as_deref().unwrap_or(&[]);
        let (before, rest) = self.bytes.split_at(MARGIN);
        let (place, past) = rest.split_at(written.len());
        assert!(place == written, "other bytes than the reference's");
        let stayed = |bytes: &[u8]| bytes.iter().all(|byte| *byte == PATTERN);
        assert!(stayed(before), "a byte before the buffer changed");
        assert!(stayed(past), "a byte past the output changed");
    }
}
