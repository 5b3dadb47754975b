//! Whole commands of a band.

use crate::load::{array, coordinate, group, group_end, is_array, is_tile, side, size, Load};
use crate::Rng;

/// The film and the band that commands are made for.
#[derive(Clone, Copy, Debug)]
pub struct Frame {
    pub lines: u64,
    pub dots: u64,
    /// The band's first line, and its rows.
    pub first: u64,
    pub rows: u64,
    /// A large film, for which larger masks are made.
    pub large: bool,
}

impl Frame {
    /// A first line of a mask, mostly where the band is.
    fn s_min(&self, rng: &mut Rng) -> u16 {
        match rng.below(10) {
            0..=4 => (self.first + rng.below(self.rows)) as u16,
            5 => (self.first + self.rows - rng.below(2)) as u16,
            6..=8 => self.first.saturating_sub(rng.below(12)) as u16,
            _ => coordinate(rng, self.lines),
        }
    }

    fn s_size(&self, rng: &mut Rng) -> u16 {
        if rng.percent(70) {
            rng.between(1, self.rows + 4) as u16
        } else {
            size(rng, self.lines)
        }
    }
}

fn long(number: u32) -> [u16; 2] {
    [number as u16, (number >> 16) as u16]
}

/// An address that fits: mostly of something meant for it, now and then of anything.
fn address(
    rng: &mut Rng,
    meant: &[u32],
    length: usize,
    fits: impl Fn(usize) -> bool,
) -> Option<u32> {
    if rng.one_in(8) || meant.is_empty() {
        for _ in 0..6 {
            let place = rng.index(length);
            if place < length && fits(place) {
                return Some(place as u32);
            }
        }
    }
    if meant.is_empty() {
        return None;
    }
    Some(rng.pick(meant))
}

/// A rectangle.
pub fn rectangle(rng: &mut Rng, frame: &Frame) -> Vec<u16> {
    vec![
        5,
        frame.s_min(rng),
        frame.s_size(rng),
        coordinate(rng, frame.dots),
        size(rng, frame.dots),
    ]
}

/// A rectangle over the whole band, or over most of it.
pub fn background(rng: &mut Rng, frame: &Frame) -> Vec<u16> {
    let (s_min, f_min) = (rng.below(frame.first + 2), rng.below(frame.dots / 4 + 1));
    let s_size = frame.first + frame.rows - s_min.min(frame.first) + rng.below(3);
    vec![
        5,
        s_min as u16,
        s_size as u16,
        f_min as u16,
        rng.between(frame.dots / 2 + 1, frame.dots + 3) as u16,
    ]
}

/// A trapezoid.
pub fn trapezoid(rng: &mut Rng, frame: &Frame) -> Vec<u16> {
    let mut words = vec![6, frame.s_min(rng)];
    words.push(match rng.below(10) {
        0..=5 => rng.between(1, frame.rows + 6) as u16,
        6 => rng.pick(&[0, 1, 2]),
        7 => rng.pick(&[3, 4, 5, 7]),
        _ => frame.s_size(rng),
    });
    let far = match rng.below(4) {
        0 | 1 => frame.dots,
        2 => frame.dots * 3,
        _ => rng.between(1, 65_535),
    };
    for _ in 0..2 {
        words.push(match rng.below(6) {
            0 => coordinate(rng, frame.dots),
            _ => rng.between(0, far).min(65_535) as u16,
        });
        words.push(match rng.below(6) {
            0 => size(rng, frame.dots),
            1 => 0,
            _ => rng.between(0, far / 2 + 2) as u16,
        });
    }
    words
}

/// The lines of a group or an array of the sheet.
fn lines(rng: &mut Rng, frame: &Frame) -> u64 {
    match rng.below(10) {
        0 => 0,
        1..=7 => rng.between(1, frame.rows.min(6) + 2),
        _ if frame.large => rng.between(1, frame.rows.min(300)),
        _ => side(rng),
    }
}

fn samples(rng: &mut Rng, frame: &Frame) -> Vec<u16> {
    let mut words = vec![9, frame.s_min(rng)];
    words.push(coordinate(rng, frame.dots));
    let height = lines(rng, frame);
    let width = match rng.below(10) {
        0 => 0,
        1 if frame.large && height < 30 => rng.between(1, frame.dots.min(2000)),
        _ => side(rng),
    };
    // An array of no dots may have any number of lines.
    if width == 0 && rng.percent(30) {
        words.extend([rng.word(), 0]);
    } else {
        words.extend(array(rng, height, width));
    }
    words
}

/// The next priority: it may stay, and grow up to the limit.
fn priority(rng: &mut Rng, now: &mut u32) -> Vec<u16> {
    let next = match rng.below(6) {
        0 => *now,
        1 => *now | 0xFFFF,
        2 if rng.one_in(4) => 0x00FF_FFFF,
        3 => *now + 0x1_0000,
        _ => *now + rng.between(0, 300) as u32,
    };
    *now = next.min(0x00FF_FFFF);
    let words = long(*now);
    vec![1, words[0], words[1]]
}

/// One whole command that the band may have; a rectangle where the load has nothing to name.
pub fn command(rng: &mut Rng, frame: &Frame, load: &Load, now: &mut u32) -> Vec<u16> {
    let words = &load.words;
    let length = words.len();
    match rng.below(36) {
        0 | 1 => return priority(rng, now),
        2 | 3 => return vec![2],
        4 | 5 => return vec![3],
        6..=10 => {
            if let Some(address) = address(rng, &load.tiles, length, |x| is_tile(words, x)) {
                let place = long(address);
                return vec![4, rng.below(2) as u16, place[0], place[1]];
            }
        }
        11..=18 => return trapezoid(rng, frame),
        19..=21 => {
            let mut words = vec![7, frame.s_min(rng)];
            let height = lines(rng, frame);
            let most = if frame.large { 12 } else { 3 };
            words.extend(group(rng, height, frame.dots, most));
            return words;
        }
        22..=23 => {
            let fits = |x| group_end(words, x).is_some();
            if let Some(address) = address(rng, &load.groups, length, fits) {
                let place = long(address);
                return vec![8, place[0], place[1], frame.s_min(rng)];
            }
        }
        24..=25 => return samples(rng, frame),
        26..=27 => {
            if let Some(address) = address(rng, &load.arrays, length, |x| is_array(words, x)) {
                let place = long(address);
                let s_min = frame.s_min(rng);
                return vec![10, place[0], place[1], s_min, coordinate(rng, frame.dots)];
            }
        }
        _ => (),
    }
    rectangle(rng, frame)
}
