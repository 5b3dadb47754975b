//! A trapezoid of one row is its first edge: random sheets of one such trapezoid in every colour,
//! on the rows of a band and off them, with dots on the film, across its end, off it and without
//! any. Each is drawn by the library and by `reference`, then with a rectangle of one row in its
//! place, and with other words for its last edge: always the same rows.

mod common;

use common::rounds::{rounds, wanted};
use common::{Answer, Call, Entry};
use generate::Rng;
use std::collections::BTreeMap;

const ROUNDS: u64 = 20_000;

/// A film of three bands of 3 lines, the last one cut to 2.
const FILM_LINES: u16 = 8;
const BAND_LINES: u16 = 3;
const BANDS: u16 = 3;

#[derive(Clone, Copy, Debug, PartialEq, Eq, PartialOrd, Ord)]
enum Colour {
    Ink,
    Clear,
    Opaque,
    Transparent,
}

const COLOURS: [Colour; 4] = [
    Colour::Ink,
    Colour::Clear,
    Colour::Opaque,
    Colour::Transparent,
];

impl Colour {
    /// The command; the tile stands at address 0.
    fn words(self) -> Vec<u16> {
        match self {
            Colour::Ink => vec![2],
            Colour::Clear => vec![3],
            Colour::Opaque => vec![4, 0, 0, 0],
            Colour::Transparent => vec![4, 1, 0, 0],
        }
    }
}

/// Where the row lies, for the band in which the command stands.
#[derive(Clone, Copy, Debug, PartialEq, Eq, PartialOrd, Ord)]
enum Row {
    First,
    Last,
    Before,
    After,
    OffFilm,
}

const ROWS: [Row; 5] = [Row::First, Row::Last, Row::Before, Row::After, Row::OffFilm];

impl Row {
    fn s_min(self, rng: &mut Rng, band: u16) -> u16 {
        let top = BAND_LINES * band;
        let end = (top + BAND_LINES).min(FILM_LINES);
        match self {
            Row::First => top,
            Row::Last => end - 1,
            Row::Before => top - 1,
            Row::After => end,
            Row::OffFilm => rng.pick(&[FILM_LINES, FILM_LINES + 1, 0x8000, 0xFFFF]),
        }
    }
}

/// Where the row's dots lie on a film of so many.
#[derive(Clone, Copy, Debug, PartialEq, Eq, PartialOrd, Ord)]
enum Dots {
    /// From the film's first dot on.
    FromStart,
    Within,
    /// Up to its last dot.
    ToEnd,
    /// Cut by the film's end.
    PastEnd,
    OffFilm,
    None,
}

const DOTS: [Dots; 6] = [
    Dots::FromStart,
    Dots::Within,
    Dots::ToEnd,
    Dots::PastEnd,
    Dots::OffFilm,
    Dots::None,
];

impl Dots {
    /// fMin and fSize.
    fn range(self, rng: &mut Rng, width: u16) -> (u16, u16) {
        let from = rng.below(width.into()) as u16;
        let size = rng.between(1, (width - from).into()) as u16;
        match self {
            Dots::FromStart => (0, size),
            Dots::Within => (from, size),
            Dots::ToEnd => (from, width - from),
            Dots::PastEnd => {
                let past = width - from + 1;
                (from, rng.pick(&[past, past + 1, 0x8000, 0xFFFF]))
            }
            Dots::OffFilm => {
                let beyond = rng.pick(&[width, width + 1, 0x8000, 0xFFFF]);
                (beyond, rng.pick(&[1, width, 0xFFFF]))
            }
            Dots::None => (from, 0),
        }
    }
}

/// fMinLast and fSizeLast: off the film on its left and its right side, as narrow and as wide as
/// can be, or anything.
fn last_edge(rng: &mut Rng) -> [u16; 2] {
    let anything = [rng.word(), rng.word()];
    let near = [rng.word() & 31, rng.word() & 31];
    let far = [[0, 0], [0, 0xFFFF], [0xFFFF, 0], [0xFFFF, 0xFFFF]];
    match rng.below(6) {
        0 => anything,
        1 => near,
        _ => rng.pick(&far),
    }
}

fn bytes(words: &[u16]) -> Vec<u8> {
    words.iter().flat_map(|word| word.to_be_bytes()).collect()
}

/// The count and one tile, of any samples.
fn load(rng: &mut Rng) -> Vec<u8> {
    let (lines, dots) = (rng.between(1, 3) as u16, rng.between(1, 5) as u16);
    let mut tile = vec![rng.word() & 3, rng.word() & 3, rng.word() & 3, lines, dots];
    tile.extend((0..lines).map(|_| rng.word() & !(0xFFFF >> dots)));
    bytes(&[&[tile.len() as u16, 0], &tile[..]].concat())
}

/// A sheet of one page with these words in one band, and no others.
fn sheet(width: u16, band: u16, commands: &[u16]) -> Vec<u8> {
    let mut words = vec![0xAAAA, 1, 0, 600, 600, FILM_LINES, width, BAND_LINES];
    words.extend([8, 0, 1, 1, BANDS]);
    for index in 0..BANDS {
        let commands = if index == band { commands } else { &[] };
        words.push(commands.len() as u16);
        words.extend(commands);
    }
    bytes(&words)
}

/// The rows of the band, with the check and the draw agreed on.
fn drawn(sheet: &[u8], load: &[u8], width: u16, band: u16) -> Result<(Answer, Vec<u8>), String> {
    let call = |entry, buffer: &[u8]| {
        Call {
            entry,
            inputs: [sheet, load],
            buffer,
        }
        .agreed()
    };
    let check = call(Entry::FilmCheck, &[])?.answer;
    if check != Answer::Done(1, 0) {
        return Err(format!("{check:?} of the check"));
    }
    let row_bytes = 2 * usize::from(width.div_ceil(16));
    let entry = Entry::FilmDraw {
        page: 0,
        band: band.into(),
    };
    let outcome = call(entry, &vec![0xEE; row_bytes * usize::from(BAND_LINES) + 1])?;
    Ok((outcome.answer, outcome.buffer))
}

fn round(rng: &mut Rng, colour: Colour, row: Row, dots: Dots) -> Result<(), String> {
    let width = rng.pick(&[1, 2, 15, 16, 17, 31, 33, 40]);
    // The first band has no row before it.
    let first = u64::from(row == Row::Before);
    let band = rng.between(first, u64::from(BANDS) - 1) as u16;
    let load = load(rng);
    let s_min = row.s_min(rng, band);
    let (f_min, f_size) = dots.range(rng, width);
    // White film, or black where the trapezoid lies and around it.
    let mut before = match rng.below(3) {
        0 => vec![],
        1 => vec![5, 0, FILM_LINES, 0, width],
        _ => vec![5, s_min.saturating_sub(1), 3, f_min.saturating_sub(1), 3],
    };
    before.extend(colour.words());

    let drawn = |mask: &[u16]| {
        let sheet = sheet(width, band, &[&before[..], mask].concat());
        drawn(&sheet, &load, width, band)
    };
    let rectangle = drawn(&[5, s_min, 1, f_min, f_size])?;
    for _ in 0..2 {
        let [f_min_last, f_size_last] = last_edge(rng);
        let trapezoid = [6, s_min, 1, f_min, f_size, f_min_last, f_size_last];
        let rows = drawn(&trapezoid)?;
        if rows != rectangle {
            return Err(format!(
                "{trapezoid:?} after {before:?} in band {band} of {width} dots: {rows:02x?}, and \
                 not {rectangle:02x?}"
            ));
        }
    }
    Ok(())
}

#[test]
fn is_its_first_edge() {
    let mut met = BTreeMap::new();
    rounds(ROUNDS, |seed| {
        let rng = &mut Rng::new(seed);
        let situation = (rng.pick(&COLOURS), rng.pick(&ROWS), rng.pick(&DOTS));
        *met.entry(situation).or_insert(0) += 1;
        let (colour, row, dots) = situation;
        round(rng, colour, row, dots)
    });
    let least = met.values().min().copied().unwrap_or(0);
    println!("{} situations, each met {least} times at least", met.len());
    if wanted(ROUNDS) < ROUNDS {
        return;
    }
    assert_eq!(met.len(), COLOURS.len() * ROWS.len() * DOTS.len());
    assert!(least >= 100, "{met:?}");
}
