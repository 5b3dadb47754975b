//! Calls of the line reader.

use crate::job::HEAD;
use crate::Rng;

/// A call of the line reader for a job.
#[derive(Clone, Debug, PartialEq, Eq)]
pub struct Line {
    pub offset: usize,
    pub left: usize,
    pub width: usize,
    pub row: Vec<u8>,
}

/// A place in a job, with the width of its page.
#[derive(Clone, Copy)]
struct Place {
    offset: usize,
    left: usize,
    width: usize,
}

/// What the walk met.
#[derive(Default)]
struct Places {
    /// Where lines start, page ends among them and the place where the walk stopped.
    starts: Vec<Place>,
    /// Page heads and document ends, and command places within lines.
    others: Vec<Place>,
}

/// The bytes from a place on begin with these.
fn begins(job: &[u8], offset: usize, with: &[u8]) -> bool {
    job.get(offset..).is_some_and(|rest| rest.starts_with(with))
}

/// Goes over a job from line to line, and stops where it cannot go on.
fn walk(job: &[u8]) -> Places {
    let mut found = Places::default();
    let mut place = Place {
        offset: HEAD.len(),
        left: 0,
        width: 8,
    };
    loop {
        // Between pages: only a page head leads on.
        found.others.push(place);
        if !begins(job, place.offset, &[0x11, 0]) || job.len() - place.offset < 21 {
            return found;
        }
        let at = place.offset + 12;
        place.width = usize::from(u16::from_le_bytes([job[at], job[at + 1]]));
        place.offset += 21;
        place.left = 0;
        // In the page: lines, until its end.
        loop {
            found.starts.push(place);
            match walk_line(job, &mut place, &mut found.others) {
                Some(true) => continue,
                Some(false) => break,
                None => return found,
            }
        }
    }
}

/// One line: true, a page end: false, or nothing that can be gone over.
fn walk_line(job: &[u8], place: &mut Place, inside: &mut Vec<Place>) -> Option<bool> {
    let mut sum = 0;
    while sum < place.width || sum == 0 {
        if place.left == 0 {
            if begins(job, place.offset, &[0x13, 0, 0, 0, 0, 0]) {
                place.offset += 6;
                return Some(false);
            }
            let head = job.get(place.offset..place.offset.checked_add(6)?)?;
            if head[0] != 0x12 {
                return None;
            }
            place.left = usize::from(u16::from_le_bytes([head[2], head[3]]));
            place.offset += 6;
            continue;
        }
        let first = *job.get(place.offset)?;
        let mut length = usize::from(first & 0x3F);
        let mut bytes = 1;
        if first & 0x80 != 0 {
            length += 64 * usize::from(*job.get(place.offset + 1)?);
            bytes = 2;
        }
        place.offset += bytes;
        place.left = place.left.checked_sub(bytes)?;
        sum += length;
        if sum < place.width && inside.len() < 4096 {
            inside.push(*place);
        }
    }
    Some(true)
}

/// Any number: small, about the job's length, or as large as can be.
fn any(rng: &mut Rng, length: usize) -> usize {
    match rng.below(10) {
        0 => 0,
        1 => 1,
        2..=5 => rng.index(length + 1),
        6 => length,
        7 => length + 1 + rng.index(9),
        8 => usize::MAX - rng.index(3),
        _ => rng.index(300),
    }
}

/// A call of the line reader, mostly where a line really starts.
pub fn line(rng: &mut Rng, job: &[u8]) -> Line {
    let found = walk(job);
    let mut place = Place {
        offset: any(rng, job.len()),
        left: any(rng, 20),
        width: rng.between(1, 70) as usize,
    };
    match rng.below(100) {
        0..=69 if !found.starts.is_empty() => place = rng.pick(&found.starts),
        // The last ones: before the page end, or where the walk stopped.
        70..=79 if !found.starts.is_empty() => place = found.starts[found.starts.len() - 1],
        80..=91 if !found.others.is_empty() => place = rng.pick(&found.others),
        _ => (),
    }
    match rng.below(60) {
        0 | 1 => place.left = any(rng, 20),
        2 => place.left = place.left.wrapping_add(1),
        3 => place.left = place.left.saturating_sub(1),
        4 => place.offset = any(rng, job.len()),
        5 => place.offset = place.offset.saturating_add(1),
        6 => place.offset = place.offset.saturating_sub(1),
        7 | 8 => place.width = rng.between(1, 200) as usize,
        9 => place.width = place.width.saturating_mul(2),
        10 => place.width = place.width.saturating_add(1),
        11 => place.width = place.width.saturating_sub(1),
        12 => place.width = rng.pick(&[0, 16_383, 16_384, usize::MAX]),
        13 => place.width = 16_383,
        _ => (),
    }
    let exact = place.width.min(20_000).div_ceil(8);
    let length = match rng.below(50) {
        0 => exact + 1,
        1 => exact.saturating_sub(1),
        2 if rng.one_in(3) => rng.index(40),
        _ => exact,
    };
    Line {
        offset: place.offset,
        left: place.left,
        width: place.width,
        row: rng.bytes(length),
    }
}
