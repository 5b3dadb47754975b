//! What is checked and drawn: test patterns of a tolerance film, the same at every call.
//!
//! A page is divided into cells of 238 by 119 dots, so that a smaller page has fewer cells and the
//! same density. Cells are not of a band's height: many masks lie in two bands.

use crate::sheet::{
    bytes, film, herald, word, Film, Mask, Rectangle, Runs, Samples, Size, Trapezoid, BAND_LINES,
};

const CELL: Size = Size {
    width: 238,
    height: 119,
};

/// The corners of the page's cells, line and dot, each with a number that says what is in the cell.
fn cells(size: Size, kinds: usize) -> impl Iterator<Item = (usize, usize, usize)> {
    let columns = size.width.div_ceil(CELL.width);
    let rows = size.height.div_ceil(CELL.height);
    (0..rows).flat_map(move |row| {
        (0..columns).map(move |column| {
            let kind = (row * 3 + column * 7 + row * column) % kinds;
            (row * CELL.height, column * CELL.width, kind)
        })
    })
}

/// Line hatches, pads with frames, crosses and scales; with rules across the page in both
/// directions.
pub fn rectangles(size: Size) -> Vec<Rectangle> {
    let mut list = Vec::new();
    let mut add = |s: usize, f: usize, lines: usize, dots: usize| {
        if s < size.height && f < size.width {
            list.push(Rectangle {
                s_min: word(s),
                s_size: word(lines.min(size.height - s)),
                f_min: word(f),
                f_size: word(dots.min(size.width - f)),
            });
        }
    };
    for s in (0..size.height).step_by(5 * CELL.height) {
        add(s, 0, 6, size.width);
    }
    for f in (0..size.width).step_by(5 * CELL.width) {
        add(0, f, size.height, 4);
    }
    for (s, f, kind) in cells(size, 5) {
        match kind {
            0 => (0..8).for_each(|i| add(s + 10, f + 10 + 27 * i, 100, 9)),
            1 => (0..8).for_each(|i| add(s + 8 + 13 * i, f + 14, 5, 210)),
            2 => {
                add(s + 24, f + 44, 70, 150);
                add(s + 9, f + 19, 2, 200);
                add(s + 107, f + 19, 2, 200);
                add(s + 9, f + 19, 100, 2);
                add(s + 9, f + 217, 100, 2);
            }
            3 => {
                add(s + 58, f + 9, 3, 220);
                add(s + 5, f + 118, 110, 3);
                for (down, right) in [(30, 60), (30, 166), (77, 60), (77, 166)] {
                    add(s + down, f + right, 12, 12);
                }
            }
            _ => {
                for i in 0..20 {
                    add(s + 12, f + 9 + 11 * i, if i % 5 == 0 { 90 } else { 40 }, 2);
                }
            }
        }
    }
    list
}

/// Wedges, hatches that lean either way, diamonds and lines that grow wider.
pub fn trapezoids(size: Size) -> Vec<Trapezoid> {
    let mut list = Vec::new();
    // Lines and dots are given from the cell's corner.
    let mut add = |s: usize, lines: usize, f: usize, dots: usize, f_last: usize, last: usize| {
        list.push(Trapezoid {
            s_min: word(s),
            s_size: word(lines),
            f_min: word(f),
            f_size: word(dots),
            f_min_last: word(f_last),
            f_size_last: word(last),
        });
    };
    for (s, f, kind) in cells(size, 5) {
        match kind {
            0 => add(s + 4, 111, f + 117, 4, f + 9, 220),
            1 => (0..4).for_each(|i| {
                let f = f + 10 + 40 * i;
                add(s + 9, 101, f, 18, f + 73, 18)
            }),
            2 => (0..4).for_each(|i| {
                let f = f + 10 + 40 * i;
                add(s + 9, 101, f + 73, 18, f, 18)
            }),
            3 => {
                add(s + 4, 55, f + 118, 2, f + 19, 200);
                add(s + 59, 55, f + 19, 200, f + 118, 2);
            }
            _ => (0..5).for_each(|i| {
                let f = f + 12 + 44 * i;
                add(s + 14, 91, f + 9, 3, f, 21)
            }),
        }
    }
    list
}

/// Rings, discs, leaning strokes and waves, one run group for each row of cells.
pub fn runs(size: Size) -> Vec<Runs> {
    let mut groups: Vec<Runs> = (0..size.height)
        .step_by(CELL.height)
        .map(|s| Runs {
            s_min: word(s),
            lines: vec![Vec::new(); CELL.height.min(size.height - s)],
        })
        .collect();
    for (s, f, kind) in cells(size, 4) {
        let group = &mut groups[s / CELL.height];
        for (line, runs) in group.lines.iter_mut().enumerate() {
            cell_runs(kind, line, |from, dots| {
                runs.push((word(f + from), word(dots)));
            });
        }
    }
    groups
}

/// The runs that a cell of this kind has on a line, first dot and dots.
fn cell_runs(kind: usize, line: usize, mut add: impl FnMut(usize, usize)) {
    let (middle_s, middle_f) = (CELL.height / 2, CELL.width / 2);
    let off = line.abs_diff(middle_s);
    // Half of a circle's chord on this line; no circle is as high as the cell.
    let half = |radius: usize| (radius * radius).checked_sub(off * off).map(usize::isqrt);
    match kind {
        0 => match (half(54), half(40)) {
            (Some(outer), Some(inner)) => {
                add(middle_f - outer, outer - inner);
                add(middle_f + inner, outer - inner);
            }
            (Some(outer), None) => add(middle_f - outer, 2 * outer),
            (None, _) => {}
        },
        1 => {
            if let Some(half) = half(50) {
                add(middle_f - half, 2 * half);
            }
        }
        2 => (0..3).for_each(|i| add(12 + 45 * i + line, 20)),
        _ => (0..2).for_each(|i| add(20 + 110 * i + off, 34)),
    }
}

/// The dots of a line of samples as words, high bit first.
fn packed(dots: usize, set: impl Fn(usize) -> bool) -> Vec<u16> {
    let mut words = vec![0; dots.div_ceil(16)];
    for f in (0..dots).filter(|&f| set(f)) {
        words[f / 16] |= 0x8000 >> (f % 16);
    }
    words
}

/// A sampled target of concentric rings in each cell, 200 by 100 dots.
pub fn samples(size: Size) -> Vec<Samples> {
    cells(size, 4)
        .map(|(s, f, kind)| target(s + 9, f + 19, 100, 200, 300 + 150 * kind))
        .collect()
}

/// Rings whose areas are `ring` dots each, by the square of the distance to the middle.
fn target(s_min: usize, f_min: usize, lines: usize, dots: usize, ring: usize) -> Samples {
    let line = |s: usize| {
        packed(dots, |f| {
            let (down, right) = (s.abs_diff(lines / 2), f.abs_diff(dots / 2));
            ((down * down + right * right) / ring).is_multiple_of(2)
        })
    };
    Samples {
        s_min: word(s_min),
        f_min: word(f_min),
        f_size: word(dots),
        lines: (0..lines).map(line).collect(),
    }
}

/// The words of a tile: phase 1, from the film's corner on; a screen of dots, 16 lines of 32.
fn tile() -> Vec<u16> {
    let mut words = vec![1, 0, 0, 16, 32];
    for s in 0..16usize {
        words.extend(packed(32, |f| {
            let (down, right) = (s.abs_diff(8), (f % 16).abs_diff(8));
            down * down + right * right < 48
        }));
    }
    words
}

pub fn rectangle_film(size: Size) -> Film {
    let masks: Vec<Mask> = rectangles(size).into_iter().map(Mask::Rectangle).collect();
    film(size, &masks, &[], &[])
}

pub fn trapezoid_film(size: Size) -> Film {
    let masks: Vec<Mask> = trapezoids(size).into_iter().map(Mask::Trapezoid).collect();
    film(size, &masks, &[], &[])
}

pub fn run_film(size: Size) -> Film {
    let masks: Vec<Mask> = runs(size).into_iter().map(Mask::Runs).collect();
    film(size, &masks, &[], &[])
}

/// The samples stand in the sheet. Each band's colour is the opaque tile at the load's address 0.
pub fn sample_film(size: Size) -> Film {
    let masks: Vec<Mask> = samples(size).into_iter().map(Mask::Samples).collect();
    film(size, &masks, &tile(), &[4, 0, 0, 0])
}

/// A sheet for the check alone, by words rectangles, trapezoids, runs and samples in about equal
/// parts.
pub fn mixed_film(length: usize, pages: usize, size: Size) -> Film {
    check_film(length, pages, size, mixed_band)
}

/// A sheet for the check alone, all samples: each band has one array whose lines are a word each, 15
/// dots and a padding bit, which is 0.
pub fn padded_film(length: usize, pages: usize, size: Size) -> Film {
    check_film(length, pages, size, |share, first| {
        let mut words = vec![9, word(first), 0, word(share - 5), 15];
        words.extend((5..share).map(|i| word(i * 40_503 % 65_536) & 0xFFFE));
        (words, 1)
    })
}

/// A sheet of exactly so many bytes: pages of this size whose bands have as many words as each
/// other, give or take one. `band_commands` makes so many words of commands for the band that begins
/// at a line, and tells how many commands they are.
fn check_film(
    length: usize,
    pages: usize,
    size: Size,
    band_commands: impl Fn(usize, usize) -> (Vec<u16>, usize),
) -> Film {
    let mut words = herald(size, 0, word(pages));
    let bands = pages * size.bands();
    let counts = words.len() + pages + bands;
    let (share, more) = ((length / 2 - counts) / bands, (length / 2 - counts) % bands);
    let mut commands = 0;
    for band in 0..bands {
        if band % size.bands() == 0 {
            words.push(word(size.bands()));
        }
        let first = band % size.bands() * BAND_LINES;
        let (own, count) = band_commands(share + usize::from(band < more), first);
        words.push(word(own.len()));
        words.extend(own);
        commands += count;
    }
    Film {
        size,
        sheet: bytes(&words),
        load: vec![0; 4],
        commands,
    }
}

/// The commands of a band, exactly so many words of them, and their number.
fn mixed_band(share: usize, first: usize) -> (Vec<u16>, usize) {
    let mut words = Vec::with_capacity(share);
    let mut commands = 0;
    let end = first + BAND_LINES;
    let mut put = |mask: &Mask, words: &mut Vec<u16>| {
        mask.put(first, end, words);
        commands += 1;
    };
    let rectangle = |i: usize| {
        Mask::Rectangle(Rectangle {
            s_min: word(first + i % 60),
            s_size: word(3 + i % 37),
            f_min: word(i * 41 % 4500),
            f_size: word(2 + i % 211),
        })
    };
    let mut round = 0;
    // A round of the four kinds has 125 + 126 + 123 + 133 words.
    while words.len() + 600 < share {
        for i in 0..25 {
            put(&rectangle(round * 25 + i), &mut words);
        }
        for i in 0..18 {
            let f = (round * 18 + i) * 67 % 4400;
            let trapezoid = Trapezoid {
                s_min: word(first + i),
                s_size: word(2 + i * 4),
                f_min: word(f),
                f_size: word(4 + i),
                f_min_last: word(f + 90 - 5 * i),
                f_size_last: 9,
            };
            put(&Mask::Trapezoid(trapezoid), &mut words);
        }
        let f = round * 53 % 4300;
        let line = |s: usize| (0..3).map(|i| (word(f + 60 * i + s), 20)).collect();
        let group = Runs {
            s_min: word(first + round % 80),
            lines: (0..20).map(line).collect(),
        };
        put(&Mask::Runs(group), &mut words);
        put(
            &Mask::Samples(target(first + round % 60, f, 32, 64, 90)),
            &mut words,
        );
        round += 1;
    }
    // Rectangles of 5 words, then inks of one.
    while words.len() + 5 <= share {
        put(&rectangle(words.len()), &mut words);
    }
    commands += share - words.len();
    words.resize(share, 2);
    (words, commands)
}
