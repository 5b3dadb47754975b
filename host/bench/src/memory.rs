//! Plain passes over memory, which no subject can do without.

use std::hint::black_box;

/// Sums the bytes' 8-byte words, each read once.
pub fn sum(bytes: &[u8]) -> u64 {
    let (words, rest) = words(bytes);
    let mut sum = words.fold(0u64, u64::wrapping_add);
    for &byte in rest {
        sum = sum.wrapping_add(byte.into());
    }
    sum
}

/// Writes every byte, then reads them back and counts their ones in 8-byte words.
pub fn fill_and_count(bytes: &mut [u8]) -> usize {
    bytes.fill(black_box(0x55));
    let bytes = &*black_box(bytes);
    let (words, rest) = words(bytes);
    let ones: usize = words.map(|word| word.count_ones() as usize).sum();
    ones + rest
        .iter()
        .map(|byte| byte.count_ones() as usize)
        .sum::<usize>()
}

/// Copies bytes and reads none of them back.
pub fn copy(from: &[u8], to: &mut [u8]) {
    to.copy_from_slice(black_box(from));
    black_box(to);
}

/// The bytes' 8-byte words, and the bytes after them.
fn words(bytes: &[u8]) -> (impl Iterator<Item = u64> + '_, &[u8]) {
    let chunks = bytes.chunks_exact(8);
    let rest = chunks.remainder();
    let word = |chunk: &[u8]| u64::from_ne_bytes(chunk.try_into().expect("chunks of 8 bytes"));
    (chunks.map(word), rest)
}

#[cfg(test)]
mod tests {
    use super::*;

    #[test]
    fn passes() {
        assert_eq!(sum(&[1; 8]), 0x0101_0101_0101_0101);
        assert_eq!(sum(&[2; 3]), 6);
        assert_eq!(fill_and_count(&mut [0; 19]), 19 * 4);
        let mut to = [0; 3];
        copy(&[1, 2, 3], &mut to);
        assert_eq!(to, [1, 2, 3]);
    }
}
