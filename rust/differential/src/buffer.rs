//! Buffers to lend to a call, with bytes around them that no call may alter.

use std::ops::Range;

use crate::rng::Rng;

/// How many bytes lie around a buffer at least, on each side.
const AROUND: usize = 8;

/// A buffer to lend. Other bytes lie before and behind it, which no call may alter.
#[derive(Clone, Debug)]
pub struct Buffer {
    bytes: Vec<u8>,
    lent: Range<usize>,
}

impl Buffer {
    /// A buffer of `len` bytes whose address is `shift`, 0 to 7, above a multiple of 8.
    pub fn new(len: usize, shift: usize, fill: impl FnMut() -> u8) -> Buffer {
        let mut bytes = vec![0; len + 4 * AROUND];
        bytes.fill_with(fill);
        let begin = AROUND + bytes.as_ptr().align_offset(8) + shift;
        Buffer {
            bytes,
            lent: begin..begin + len,
        }
    }

    /// A buffer that holds these bytes, at any address and with any byte around it.
    pub fn holding(rng: &mut Rng, content: &[u8]) -> Buffer {
        let around = rng.byte();
        let mut buffer = Buffer::new(content.len(), rng.below(8), || around);
        buffer.lend().copy_from_slice(content);
        buffer
    }

    /// A buffer that holds these bytes, with A5 around it.
    pub fn plain(content: &[u8]) -> Buffer {
        let mut buffer = Buffer::new(content.len(), 0, || 0xA5);
        buffer.lend().copy_from_slice(content);
        buffer
    }

    /// A copy of it whose address is `shift`, 0 to 7, above a multiple of 8.
    pub fn shifted(&self, shift: usize) -> Buffer {
        let mut buffer = Buffer::new(self.len(), shift, || 0xA5);
        buffer.lend().copy_from_slice(self.lent());
        assert_eq!(buffer.lent().as_ptr() as usize % 8, shift);
        buffer
    }

    pub fn lent(&self) -> &[u8] {
        &self.bytes[self.lent.clone()]
    }

    pub fn lend(&mut self) -> &mut [u8] {
        &mut self.bytes[self.lent.clone()]
    }

    pub fn len(&self) -> usize {
        self.lent.len()
    }

    pub fn is_empty(&self) -> bool {
        self.lent.is_empty()
    }

    /// How many words the buffer has room for.
    pub fn words(&self) -> usize {
        self.len() / 8
    }

    /// What all the bytes are once these words stand at the buffer's beginning.
    pub fn with(&self, words: &[u64]) -> Vec<u8> {
        let mut bytes = self.bytes.clone();
        let places = bytes[self.lent.clone()].chunks_exact_mut(8);
        for (place, word) in places.zip(words) {
            place.copy_from_slice(&word.to_le_bytes());
        }
        bytes
    }

    /// All the bytes, those around the buffer too, where a test spoils one.
    pub fn all(&mut self) -> &mut [u8] {
        &mut self.bytes
    }

    /// The first place whose byte is not as expected. The buffer begins with 0.
    pub fn differs(&self, expected: &[u8]) -> Option<isize> {
        if self.bytes == expected {
            return None;
        }
        let differ = |(found, expected): (&u8, &u8)| found != expected;
        let place = self.bytes.iter().zip(expected).position(differ);
        // Where all the bytes that both have are the same, one of the two is longer.
        let place = place.unwrap_or(self.bytes.len().min(expected.len()));
        Some(place as isize - self.lent.start as isize)
    }

    /// The first place whose byte, around the buffer too, is not as in another copy of it.
    pub fn differs_from(&self, other: &Buffer) -> Option<isize> {
        self.differs(&other.bytes)
    }
}
