//! Loads: tiles, run groups and sample arrays, and where they stand.

use crate::Rng;

/// What stands in a load, by its address.
#[derive(Clone, Debug, Default)]
pub struct Load {
    pub words: Vec<u16>,
    pub tiles: Vec<u32>,
    pub groups: Vec<u32>,
    pub arrays: Vec<u32>,
}

/// The place after the run group at a place, if it is whole in the words.
pub fn group_end(words: &[u16], place: usize) -> Option<usize> {
    let lines = *words.get(place)?;
    let mut next = place + 1;
    for _ in 0..lines {
        loop {
            words.get(next)?;
            let size = *words.get(next + 1)?;
            next += 2;
            if size & 0x8000 != 0 {
                break;
            }
        }
    }
    Some(next)
}

/// The place after the sample array at a place, if it is whole in the words.
fn array_end(words: &[u16], place: usize) -> Option<usize> {
    let lines = usize::from(*words.get(place)?);
    let dots = usize::from(*words.get(place + 1)?);
    let next = place + 2 + lines * dots.div_ceil(16);
    (next <= words.len()).then_some(next)
}

/// Whether an array stands whole at a place, padded with zeros.
pub fn is_array(words: &[u16], place: usize) -> bool {
    array_end(words, place).is_some() && is_padded(words, place)
}

/// The same of a tile, with no side of 0.
pub fn is_tile(words: &[u16], place: usize) -> bool {
    is_array(words, place + 3) && words[place + 3] != 0 && words[place + 4] != 0
}

/// A place along a scan line of so many dots, or across so many lines.
pub fn coordinate(rng: &mut Rng, extent: u64) -> u16 {
    let place = match rng.below(20) {
        0..=12 => rng.between(0, extent + 2),
        13 | 14 => 0,
        15 => extent.saturating_sub(1),
        16 => extent,
        17 => 65_535 - rng.below(4),
        18 => 65_536 - extent.clamp(1, 65_536) + rng.below(2),
        _ => u64::from(rng.word()),
    };
    place.min(65_535) as u16
}

/// A size along or across the same.
pub fn size(rng: &mut Rng, extent: u64) -> u16 {
    let size = match rng.below(20) {
        0..=12 => rng.between(1, extent / 2 + 3),
        13 => 0,
        14 | 15 => 1,
        16 => extent,
        17 => rng.between(1, extent + 8),
        18 => 65_535 - rng.below(3),
        _ => u64::from(rng.word()),
    };
    size.min(65_535) as u16
}

/// A run group of so many lines for a film of so many dots.
pub fn group(rng: &mut Rng, lines: u64, dots: u64, most_runs: u64) -> Vec<u16> {
    let mut words = vec![lines as u16];
    for _ in 0..lines {
        let runs = rng.between(1, most_runs);
        for run in 1..=runs {
            words.push(coordinate(rng, dots));
            let last = if run == runs { 0x8000 } else { 0 };
            let size = match rng.below(30) {
                0 => rng.pick(&[0x7FFF, 0x7FFE, 0x4000, 0x4001]),
                _ => size(rng, dots) & 0x7FFF,
            };
            words.push(size | last);
        }
    }
    words
}

/// The mask of the padding in the last word of a line of so many dots.
pub fn padding(dots: u64) -> u16 {
    match dots % 16 {
        0 => 0,
        bits => 0xFFFF >> bits,
    }
}

/// Whether every padding bit of the array that stands whole at a place is 0.
fn is_padded(words: &[u16], place: usize) -> bool {
    let dots = u64::from(words[place + 1]);
    let (lines, step) = (usize::from(words[place]), dots.div_ceil(16) as usize);
    (1..=lines).all(|line| words[place + 1 + line * step] & padding(dots) == 0)
}

/// A sample array of so many lines and dots, padded with zeros.
pub fn array(rng: &mut Rng, lines: u64, dots: u64) -> Vec<u16> {
    let mut words = vec![lines as u16, dots as u16];
    let style = rng.below(6);
    let line_words = dots.div_ceil(16);
    for _ in 0..lines {
        for word in 1..=line_words {
            let bits = match style {
                0 => 0xFFFF,
                1 => rng.word() & rng.word() & rng.word(),
                2 => rng.word() | rng.word(),
                _ => rng.word(),
            };
            let last = word == line_words;
            words.push(if last { bits & !padding(dots) } else { bits });
        }
    }
    words
}

/// A side of a tile or of an array of the usual kind.
pub fn side(rng: &mut Rng) -> u64 {
    match rng.below(8) {
        0..=3 => rng.between(1, 9),
        4 | 5 => rng.between(1, 24),
        6 => rng.pick(&[1, 15, 16, 17, 31, 32, 33]),
        _ => 1,
    }
}

fn tile(rng: &mut Rng, lines: u64, dots: u64) -> Vec<u16> {
    let phase = match rng.below(10) {
        0 | 1 => 0,
        2..=5 => rng.between(1, 9),
        6 => rng.between(0, dots),
        7 | 8 => rng.pick(&[65_536, 65_536, 32_768]) - rng.between(1, 9),
        _ => u64::from(rng.word()),
    };
    let s_min = if rng.percent(40) {
        0
    } else {
        coordinate(rng, lines)
    };
    let f_min = if rng.percent(40) {
        0
    } else {
        coordinate(rng, dots)
    };
    let mut words = vec![phase as u16, s_min, f_min];
    let (height, width) = (side(rng), side(rng));
    words.extend(array(rng, height, width));
    words
}

/// A load for a film of so many lines and dots, at least `length` words long.
pub fn load(rng: &mut Rng, lines: u64, dots: u64, length: usize) -> Load {
    let mut load = Load::default();
    if length == 0 && rng.percent(15) {
        return load;
    }
    if length > 0 {
        load.words = (0..length).map(|_| rng.word()).collect();
    }
    for _ in 0..rng.between(1, 6) {
        for _ in 0..rng.below(3) {
            let filler = rng.word();
            load.words.push(filler);
        }
        let address = load.words.len() as u32;
        match rng.below(7) {
            0..=2 => {
                load.tiles.push(address);
                load.words.extend(tile(rng, lines, dots));
            }
            3 | 4 => {
                load.groups.push(address);
                let height = rng.below(8);
                load.words.extend(group(rng, height, dots, 3));
            }
            _ => {
                load.arrays.push(address);
                let (height, width) = (side(rng), side(rng));
                let words = match rng.below(12) {
                    0 => array(rng, 0, width),
                    1 => array(rng, height, 0),
                    _ => array(rng, height, width),
                };
                load.words.extend(words);
            }
        }
    }
    if rng.one_in(3) {
        let filler = rng.word();
        load.words.push(filler);
    }
    load
}
