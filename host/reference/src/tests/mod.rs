//! The cases of the requirements and the points that are easily mistaken.

mod film;
mod gdi;
mod order;
mod strip;

use crate::Answer;

/// Words as bytes, high byte first.
pub fn bytes(words: &[u16]) -> Vec<u8> {
    words.iter().flat_map(|word| word.to_be_bytes()).collect()
}

/// A load of these words after its count.
pub fn load(words: &[u16]) -> Vec<u8> {
    let mut all = vec![words.len() as u16, 0];
    all.extend(words);
    bytes(&all)
}

/// A sheet of one page whose bands have these commands.
pub fn sheet(s: u16, f: u16, b: u16, bands: &[&[u16]]) -> Vec<u8> {
    let mut words = vec![0xAAAA, 1, 0, 600, 600, s, f, b, 0xFFFF, 0, 1, 1];
    words.push(bands.len() as u16);
    for band in bands {
        words.push(band.len() as u16);
        words.extend(*band);
    }
    bytes(&words)
}

pub const NO_LOAD: [u8; 4] = [0; 4];

/// The rows of the only band of a film of s lines and f dots, each as one number.
pub fn picture(s: u16, f: u16, commands: &[u16], load: &[u8]) -> Vec<u64> {
    let sheet = sheet(s, f, s, &[commands]);
    let row_bytes = 2 * usize::from(f).div_ceil(16);
    let mut buffer = vec![0xFF; row_bytes * usize::from(s) + 1];
    let drawn = crate::film_draw(&sheet, load, 0, 0, &mut buffer);
    assert_eq!(buffer.pop(), Some(0xFF), "a byte beyond the rows");
    let dots: u32 = buffer.iter().map(|byte| byte.count_ones()).sum();
    assert_eq!(drawn, Answer::Done(u64::from(s), u64::from(dots)));
    let number = |row: &[u8]| row.iter().fold(0, |sum, byte| sum << 8 | u64::from(*byte));
    buffer.chunks(row_bytes).map(number).collect()
}
