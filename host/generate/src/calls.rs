//! Draw calls.

use crate::{Film, Rng};

/// A draw call for a film.
#[derive(Clone, Debug, PartialEq, Eq)]
pub struct Call {
    pub page: usize,
    pub band: usize,
    pub buffer: Vec<u8>,
}

/// A word of the sheet, 0 where there is none.
fn word(sheet: &[u8], place: usize) -> u64 {
    match sheet.get(place * 2..place * 2 + 2) {
        Some(pair) => u64::from(pair[0]) << 8 | u64::from(pair[1]),
        None => 0,
    }
}

/// A number past the last: mostly the first of them.
fn past(rng: &mut Rng, count: u64) -> usize {
    match rng.below(6) {
        0..=2 => count as usize,
        3 => count as usize + 1 + rng.index(5),
        4 => usize::MAX,
        _ => usize::MAX / 2 + 1,
    }
}

/// A number below the count, mostly: the first, the last or any.
fn within(rng: &mut Rng, count: u64, often: u64) -> usize {
    let number = match rng.below(8) {
        0 => 0,
        1 => count.saturating_sub(1),
        _ => rng.below(count.min(often)),
    };
    number as usize
}

/// A draw call, mostly for a page and a band that the film has, with room for its rows.
pub fn call(rng: &mut Rng, film: &Film) -> Call {
    let sheet = &film.sheet;
    let (lines, dots, size) = (word(sheet, 5), word(sheet, 6), word(sheet, 7));
    let pages = word(sheet, 11);
    let bands = lines.div_ceil(size.max(1));
    let mut page = within(rng, pages, 8);
    let mut band = within(rng, bands, 4096);
    match rng.below(40) {
        0 => page = past(rng, pages),
        1 => band = past(rng, bands),
        2 if rng.one_in(8) => {
            page = usize::MAX;
            band = usize::MAX;
        }
        _ => (),
    }
    let first = size.saturating_mul(band as u64).min(lines);
    let rows = size.min(lines - first);
    let exact = (rows * 2 * dots.div_ceil(16)).min(70_000) as usize;
    let length = match rng.below(40) {
        0 => exact.saturating_sub(1),
        1 => exact.saturating_sub(2 * dots.div_ceil(16) as usize),
        2 => rng.index(exact + 1),
        3 if rng.one_in(4) => 0,
        4..=8 => exact + 1 + rng.index(9),
        9 | 10 => exact + rng.index(60),
        11 => (size * 2 * dots.div_ceil(16)).min(70_000) as usize,
        _ => exact,
    };
    Call {
        page,
        band,
        buffer: rng.bytes(length),
    }
}
