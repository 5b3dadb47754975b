//! Memory in which a buffer is lent to the library, and which shows what was written outside of it.

use std::hint::black_box;

/// The known bytes on a side of a buffer.
pub const GUARD: usize = 64;

/// The known byte at a place: another one at each place of a stretch, and never the same on both
/// sides of a buffer.
pub fn known(place: usize) -> u8 {
    (place as u8).wrapping_mul(37).wrapping_add(0xA5)
}

/// Memory that holds a buffer.
pub trait Memory {
    /// Memory that holds `content`.
    fn new(content: &[u8]) -> Self;

    /// The buffer, to be lent to the library.
    fn lent(&mut self) -> &mut [u8];

    /// The buffer as it is in memory now, or on which side of it something was written.
    fn content(&self) -> Result<&[u8], String>;
}

/// A buffer between two stretches of known bytes.
pub struct Guarded {
    bytes: Vec<u8>,
}

impl Memory for Guarded {
    fn new(content: &[u8]) -> Guarded {
        let mut bytes = Vec::with_capacity(content.len() + 2 * GUARD);
        bytes.extend((0..GUARD).map(known));
        bytes.extend_from_slice(content);
        bytes.extend((GUARD..2 * GUARD).map(known));
        Guarded { bytes }
    }

    fn lent(&mut self) -> &mut [u8] {
        let end = self.bytes.len() - GUARD;
        &mut self.bytes[GUARD..end]
    }

    fn content(&self) -> Result<&[u8], String> {
        // The library writes where the compiler cannot see it.
        let bytes = black_box(&self.bytes[..]);
        let (before, rest) = bytes.split_at(GUARD);
        let (content, after) = rest.split_at(rest.len() - GUARD);
        if !before.iter().copied().eq((0..GUARD).map(known)) {
            return Err("the bytes before a buffer were written".to_string());
        }
        if !after.iter().copied().eq((GUARD..2 * GUARD).map(known)) {
            return Err("the bytes after a buffer were written".to_string());
        }
        Ok(content)
    }
}
