//! Damage that knows nothing of what the bytes mean.

use crate::Rng;

const BOUNDARY_WORDS: [u16; 12] = [
    0, 1, 2, 15, 16, 17, 0x7FFF, 0x8000, 0x8001, 0xFF, 0x100, 0xFFFF,
];

/// Damages the bytes once, in one of many ways. `high_first` tells the order of a word's bytes.
pub fn damage(rng: &mut Rng, bytes: &mut Vec<u8>, high_first: bool) {
    let length = bytes.len();
    match rng.below(16) {
        0 | 1 if length > 0 => bytes[rng.index(length)] ^= 1 << rng.below(8),
        2 if length > 0 => bytes[rng.index(length)] = rng.byte(),
        3..=5 if length > 1 => change_word(rng, bytes, high_first),
        6 => remove(rng, bytes, 1),
        7 | 8 => remove(rng, bytes, 2),
        9 => insert(rng, bytes, 1),
        10 | 11 => insert(rng, bytes, 2),
        12 => bytes.truncate(rng.index(length + 1)),
        13 => {
            let cut = rng.index(length.min(9) + 1);
            bytes.truncate(length - cut);
        }
        14 => {
            let more = rng.between(1, 8) as usize;
            let tail = rng.bytes(more);
            bytes.extend(tail);
        }
        _ if rng.one_in(3) => {
            let count = rng.index(200);
            *bytes = rng.bytes(count);
        }
        _ => move_part(rng, bytes),
    }
}

/// A word at an even place becomes a boundary value, or one more or less.
fn change_word(rng: &mut Rng, bytes: &mut [u8], high_first: bool) {
    let mut place = rng.index(bytes.len() / 2) * 2;
    if !high_first && rng.percent(50) {
        place = rng.index(bytes.len() - 1);
    }
    let pair = [bytes[place], bytes[place + 1]];
    let old = if high_first {
        u16::from_be_bytes(pair)
    } else {
        u16::from_le_bytes(pair)
    };
    let new = match rng.below(4) {
        0 => old.wrapping_add(1),
        1 => old.wrapping_sub(1),
        2 => old ^ (1 << rng.below(16)),
        _ => rng.pick(&BOUNDARY_WORDS),
    };
    let pair = if high_first {
        new.to_be_bytes()
    } else {
        new.to_le_bytes()
    };
    bytes[place..place + 2].copy_from_slice(&pair);
}

/// Some units of so many bytes are taken out; no count is mended.
fn remove(rng: &mut Rng, bytes: &mut Vec<u8>, unit: usize) {
    let place = rng.index(bytes.len() / unit + 1) * unit;
    let end = (place + unit * rng.between(1, 4) as usize).min(bytes.len());
    if place < end {
        bytes.drain(place..end);
    }
}

/// Some units of so many bytes are put in; no count is mended.
fn insert(rng: &mut Rng, bytes: &mut Vec<u8>, unit: usize) {
    let place = (rng.index(bytes.len() / unit + 1) * unit).min(bytes.len());
    let count = unit * rng.between(1, 4) as usize;
    let more = if rng.percent(50) {
        vec![0; count]
    } else {
        rng.bytes(count)
    };
    bytes.splice(place..place, more);
}

/// A part of the bytes is copied over another place.
fn move_part(rng: &mut Rng, bytes: &mut [u8]) {
    let words = bytes.len() / 2;
    if words == 0 {
        return;
    }
    let count = rng.between(1, 8).min(words as u64) as usize;
    let from = rng.index(words - count + 1) * 2;
    let to = rng.index(words - count + 1) * 2;
    bytes.copy_within(from..from + count * 2, to);
}
