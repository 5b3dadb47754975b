//! Rows for the row writer.

use printbox::gdi::row_bytes;

/// A row whose bytes are all of one pattern, but for the spare bits.
pub fn row_of(width: usize, pattern: u8) -> Vec<u8> {
    let bytes = row_bytes(width);
    let mut row = vec![pattern; bytes];
    row[bytes - 1] &= 0xFF << (8 * bytes - width);
    row
}
