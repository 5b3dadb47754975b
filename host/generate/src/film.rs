//! Films: a sheet and a load.

use crate::commands::{background, command, Frame};
use crate::damage::damage;
use crate::faults::fault;
use crate::load::{load, Load};
use crate::Rng;

/// A sheet and a load.
#[derive(Clone, Debug, PartialEq, Eq)]
pub struct Film {
    pub sheet: Vec<u8>,
    pub load: Vec<u8>,
}

/// A band before it is put into words; its count may be given otherwise than it is.
#[derive(Clone, Debug, Default)]
pub struct Band {
    pub count: Option<u16>,
    pub commands: Vec<Vec<u16>>,
}

/// A page before it is put into words.
#[derive(Clone, Debug, Default)]
pub struct Page {
    pub count: Option<u16>,
    pub bands: Vec<Band>,
}

/// A film before it is put into words, so that a fault can be made where it belongs.
#[derive(Clone, Debug)]
pub struct Plan {
    pub herald: [u16; 12],
    pub pages: Vec<Page>,
    pub load: Load,
    pub load_count: u32,
    /// Words after the last page.
    pub tail: Vec<u16>,
    pub frame: Frame,
}

impl Plan {
    /// The sheet's words, and the places of the counts of bands and of words.
    pub fn words(&self) -> (Vec<u16>, Vec<usize>) {
        let mut words = self.herald.to_vec();
        let mut counts = Vec::new();
        for page in &self.pages {
            counts.push(words.len());
            words.push(page.count.unwrap_or(page.bands.len() as u16));
            for band in &page.bands {
                counts.push(words.len());
                let length: usize = band.commands.iter().map(Vec::len).sum();
                words.push(band.count.unwrap_or(length as u16));
                words.extend(band.commands.iter().flatten());
            }
        }
        words.extend(&self.tail);
        (words, counts)
    }

    /// The load's words with their count.
    pub fn load_words(&self) -> Vec<u16> {
        let mut words = vec![self.load_count as u16, (self.load_count >> 16) as u16];
        words.extend(&self.load.words);
        words
    }
}

/// Words as bytes, high byte first.
pub fn bytes(words: &[u16]) -> Vec<u8> {
    words.iter().flat_map(|word| word.to_be_bytes()).collect()
}

/// The sizes of a film: lines, dots, lines of a band.
struct Sizes {
    lines: u64,
    dots: u64,
    band: u64,
    large: bool,
}

/// At most this many lines of so many dots are a band.
fn most_rows(dots: u64) -> u64 {
    65_536 / (2 * dots.div_ceil(16))
}

fn band_size(rng: &mut Rng, lines: u64) -> u64 {
    match rng.below(8) {
        0 | 1 => lines,
        2 => 1,
        3 => lines.div_ceil(2),
        4 => (lines - 1).max(1),
        _ => rng.between(1, lines),
    }
}

fn small(rng: &mut Rng) -> Sizes {
    let dots = match rng.below(8) {
        0..=2 => rng.pick(&[1, 2, 7, 8, 9, 15, 16, 17, 31, 32, 33, 47, 48, 49, 64]),
        3..=5 => rng.between(1, 34),
        _ => rng.between(1, 70),
    };
    let lines = match rng.below(8) {
        0 => rng.between(1, 3),
        1..=5 => rng.between(1, 16),
        6 => rng.between(1, 32),
        _ => rng.between(1, 64),
    };
    let band = band_size(rng, lines);
    Sizes {
        lines,
        dots,
        band,
        large: false,
    }
}

fn large(rng: &mut Rng) -> Sizes {
    let (lines, dots) = match rng.below(8) {
        0..=2 => (rng.between(50, 300), rng.between(300, 2000)),
        3 => (rng.between(500, 2000), rng.between(1, 48)),
        4 => (rng.between(1, 20), 32_768 - rng.below(18)),
        5 => (32_768 - rng.below(2), rng.between(1, 16)),
        _ => (rng.between(64, 200), rng.between(64, 300)),
    };
    let most = most_rows(dots).min(lines);
    let band = match rng.below(4) {
        0 => most,
        1 => rng.between(1, most),
        _ => rng.between(most.div_ceil(3), most),
    };
    // Not too many bands: each draw walks over them.
    let band = band.max(lines.div_ceil(3000));
    Sizes {
        lines,
        dots,
        band,
        large: true,
    }
}

fn commands(rng: &mut Rng, frame: &Frame, load: &Load, bands: u64) -> Vec<Vec<u16>> {
    let count = match rng.below(10) {
        0 if rng.percent(50) => 0,
        0 | 1 => rng.between(1, 3),
        _ if bands > 300 => rng.between(0, 2),
        _ if bands > 40 => rng.between(1, 3),
        _ if frame.large && bands < 8 => rng.between(5, 40),
        2..=6 => rng.between(3, 8),
        7 | 8 => rng.between(4, 11),
        _ => rng.between(6, 16),
    };
    let mut commands = Vec::new();
    // Something to clear and to lay tiles on.
    if count > 0 && rng.percent(35) {
        commands.push(background(rng, frame));
    }
    let mut now = 0;
    for _ in 0..count {
        let next = command(rng, frame, load, &mut now);
        // A tile is mostly seen over much of the band.
        let tile = next[0] == 4;
        commands.push(next);
        if tile && rng.percent(60) {
            commands.push(background(rng, frame));
        }
    }
    commands
}

/// A film that passes the check.
pub fn plan(rng: &mut Rng) -> Plan {
    let sizes = if rng.one_in(500) {
        large(rng)
    } else {
        small(rng)
    };
    let Sizes {
        lines, dots, band, ..
    } = sizes;
    // A long load now and then: what it has stands at addresses with a high word.
    let long_load = if rng.one_in(600) { 65_530 } else { 0 };
    let load = load(rng, lines, dots, long_load);
    let load_count = load.words.len() as u32;
    let bands = lines.div_ceil(band);
    let pages = match rng.below(8) {
        0..=4 => 1,
        5 | 6 => 2,
        _ => rng.between(1, 4),
    };
    let pages = if bands > 100 { 1 } else { pages };
    let mut frame = Frame {
        lines,
        dots,
        first: 0,
        rows: band,
        large: sizes.large,
    };
    let mut plan_pages = Vec::new();
    for _ in 0..pages {
        let mut page = Page::default();
        for at in 0..bands {
            frame.first = at * band;
            frame.rows = band.min(lines - frame.first);
            page.bands.push(Band {
                count: None,
                commands: commands(rng, &frame, &load, bands),
            });
        }
        plan_pages.push(page);
    }
    let max_load = match rng.below(4) {
        0 => u32::MAX,
        1 => load_count + rng.below(9) as u32,
        _ => load_count,
    };
    let copies = if rng.percent(70) {
        1
    } else {
        rng.word().max(1)
    };
    let herald = [
        0xAAAA,
        1,
        rng.word(),
        rng.pick(&[0, 600, 0xFFFF]),
        rng.word(),
        lines as u16,
        dots as u16,
        band as u16,
        max_load as u16,
        (max_load >> 16) as u16,
        copies,
        pages as u16,
    ];
    Plan {
        herald,
        pages: plan_pages,
        load,
        load_count,
        tail: Vec::new(),
        frame,
    }
}

/// A random film: mostly well-formed, sometimes with a fault where it belongs, sometimes damaged.
pub fn film(rng: &mut Rng) -> Film {
    let mut plan = plan(rng);
    let kind = rng.below(100);
    let faults = match kind {
        0..=39 => 1,
        40..=43 => 2,
        _ => 0,
    };
    let mut cut = None;
    for _ in 0..faults {
        cut = cut.or(fault(rng, &mut plan));
    }
    let (words, _) = plan.words();
    let mut film = Film {
        sheet: bytes(&words),
        load: bytes(&plan.load_words()),
    };
    if let Some(cut) = cut {
        cut.apply(&mut film);
    }
    if (43..=54).contains(&kind) {
        for _ in 0..rng.between(1, 2) {
            if rng.percent(80) {
                damage(rng, &mut film.sheet, true);
            } else {
                damage(rng, &mut film.load, true);
            }
        }
    }
    if rng.one_in(400) {
        std::mem::swap(&mut film.sheet, &mut film.load);
    }
    film
}
