//! What masks and colours mean, one dot at a time.

use crate::commands::{Mask, Tile};
use crate::words::{line_end, run_at};

/// A colour C with its way of painting. Ink and clear are opaque, C all 1 and all 0.
#[derive(Clone, Copy)]
pub enum Colour<'a> {
    Ink,
    Clear,
    Tile { transparent: bool, tile: Tile<'a> },
}

impl Colour<'_> {
    /// "Opaque gives I = (I and not M) or (C and M); transparent gives I = I or (C and M)."
    #[inline]
    pub fn paint(&self, picture: bool, mask: bool, s: i64, f: i64) -> bool {
        let (colour, transparent) = match self {
            Colour::Ink => (true, false),
            Colour::Clear => (false, false),
            Colour::Tile { transparent, tile } => (mask && tile_dot(tile, s, f), *transparent),
        };
        if transparent {
            picture || (colour && mask)
        } else {
            (picture && !mask) || (colour && mask)
        }
    }
}

/// "Laid from its corner toward greater s and f. For s ≥ sMin, i is (s−sMin)/sSize rounded down;
/// the tile row starts at fMin + i·phase and repeats every fSize dots. Elsewhere C is 0."
pub fn tile_dot(tile: &Tile, s: i64, f: i64) -> bool {
    let (s_min, f_min) = (i64::from(tile.s_min), i64::from(tile.f_min));
    let (s_size, f_size) = (
        i64::from(tile.samples.s_size),
        i64::from(tile.samples.f_size),
    );
    if s < s_min || s_size == 0 || f_size == 0 {
        return false;
    }
    let i = (s - s_min) / s_size;
    let start = f_min + i * i64::from(tile.phase);
    if f < start {
        return false;
    }
    tile.samples
        .is_set((s - s_min) % s_size, (f - start) % f_size)
}

/// A mask as it stands over the lines of one band. Of a run group the places of those lines are
/// found once: the group is not walked for each dot.
pub struct Placed<'a> {
    mask: Mask<'a>,
    /// Runs only: the first line whose place is known, and the places from there on.
    first_line: i64,
    line_places: Vec<u64>,
}

impl<'a> Placed<'a> {
    /// The mask over the lines `band_first ≤ s < band_end`.
    pub fn new(mask: Mask<'a>, band_first: i64, band_end: i64) -> Placed<'a> {
        let mut placed = Placed {
            mask,
            first_line: 0,
            line_places: Vec::new(),
        };
        if let Mask::Runs { s_min, group } = mask {
            let s_min = i64::from(s_min);
            placed.first_line = s_min.max(band_first);
            // Line j of the group is line sMin + j of the film.
            let mut place = group.place + 1;
            for s in s_min..(s_min + i64::from(group.s_size)).min(band_end) {
                if s >= band_first {
                    placed.line_places.push(place);
                }
                let Some(next) = line_end(group.words, place) else {
                    break;
                };
                place = next;
            }
        }
        placed
    }

    /// Whether the mask can have a dot on this line at all.
    #[inline]
    pub fn has_line(&self, s: i64) -> bool {
        let (s_min, s_size) = match self.mask {
            Mask::Rectangle { s_min, s_size, .. } => (s_min, s_size),
            Mask::Trapezoid { s_min, s_size, .. } => (s_min, s_size),
            Mask::Runs { s_min, group } => (s_min, group.s_size),
            Mask::Samples { s_min, samples, .. } => (s_min, samples.s_size),
        };
        in_stretch(s, s_min, s_size)
    }

    /// Whether the dot is in the mask.
    #[inline]
    pub fn has_dot(&self, s: i64, f: i64) -> bool {
        match self.mask {
            // "sMin ≤ s ≤ sMin+sSize−1 and fMin ≤ f ≤ fMin+fSize−1. Size 0 is empty."
            Mask::Rectangle {
                s_min,
                s_size,
                f_min,
                f_size,
            } => in_stretch(s, s_min, s_size) && in_stretch(f, f_min, f_size),
            // "The same rows, and b(s) ≤ f < t(s)."
            Mask::Trapezoid {
                s_min,
                s_size,
                f_min,
                f_size,
                f_min_last,
                f_size_last,
            } => {
                if !in_stretch(s, s_min, s_size) {
                    return false;
                }
                // "Read sSize 1 as the first edge: fMin ≤ f < fMin+fSize, with the last edge
                // ignored."
                if s_size == 1 {
                    return in_stretch(f, f_min, f_size);
                }
                let n = i64::from(s_size) - 1;
                let down = s - i64::from(s_min);
                let bottom = i64::from(f_min);
                let bottom_last = i64::from(f_min_last);
                let top = bottom + i64::from(f_size);
                let top_last = bottom_last + i64::from(f_size_last);
                // "Exact fractions compared as whole numbers multiplied by n."
                let b_n = bottom * n + (bottom_last - bottom) * down;
                let t_n = top * n + (top_last - top) * down;
                b_n <= f * n && f * n < t_n
            }
            // "Shifted by sMin. A run inks as a rectangle's line does."
            Mask::Runs { group, .. } => {
                let Ok(index) = usize::try_from(s - self.first_line) else {
                    return false;
                };
                let Some(&line) = self.line_places.get(index) else {
                    return false;
                };
                let mut place = line;
                while let Some(run) = run_at(group.words, place) {
                    if in_stretch(f, run.f_min, run.f_size) {
                        return true;
                    }
                    if run.last {
                        break;
                    }
                    place += 2;
                }
                false
            }
            // "Shifted by sMin, and samples by fMin too."
            Mask::Samples {
                s_min,
                f_min,
                samples,
            } => samples.is_set(s - i64::from(s_min), f - i64::from(f_min)),
        }
    }
}

/// min ≤ x ≤ min+size−1. "Sums are whole numbers and never wrap at 65,536."
fn in_stretch(x: i64, min: u16, size: u16) -> bool {
    let (min, size) = (i64::from(min), i64::from(size));
    min <= x && x < min + size
}
