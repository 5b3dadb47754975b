//! Faults of films, each made where it belongs, one kind for each line of the table of refusals.

use crate::commands::{rectangle, trapezoid};
use crate::film::{Band, Film, Plan};
use crate::load::{array, group, padding};
use crate::Rng;

/// A cut that is made in the bytes, after the film was put into words.
#[derive(Clone, Copy, Debug)]
pub enum Cut {
    Sheet(usize),
    Load(usize),
    SheetMore(u8),
    LoadMore(u8),
}

impl Cut {
    /// Cuts the film.
    pub fn apply(self, film: &mut Film) {
        match self {
            Cut::Sheet(length) => film.sheet.truncate(length),
            Cut::Load(length) => film.load.truncate(length),
            Cut::SheetMore(byte) => film.sheet.push(byte),
            Cut::LoadMore(byte) => film.load.push(byte),
        }
    }
}

/// One of the plan's bands.
fn some_band<'a>(rng: &mut Rng, plan: &'a mut Plan) -> Option<&'a mut Band> {
    let pages = plan.pages.len();
    let page = plan.pages.get_mut(rng.index(pages))?;
    let bands = page.bands.len();
    page.bands.get_mut(rng.index(bands))
}

/// Puts a command at any place among those of a band.
fn put(rng: &mut Rng, plan: &mut Plan, command: Vec<u16>) {
    if let Some(band) = some_band(rng, plan) {
        let place = rng.index(band.commands.len() + 1);
        band.commands.insert(place, command);
    }
}

/// Makes one fault; a cut in the bytes is given back, to be made at the end.
pub fn fault(rng: &mut Rng, plan: &mut Plan) -> Option<Cut> {
    match rng.below(64) {
        0..=18 => return before_the_walk(rng, plan),
        19..=33 => return in_the_walk(rng, plan),
        _ => in_a_command(rng, plan),
    }
    None
}

fn before_the_walk(rng: &mut Rng, plan: &mut Plan) -> Option<Cut> {
    let herald = &mut plan.herald;
    let load = plan.load.words.len();
    match rng.below(28) {
        0 => return Some(Cut::SheetMore(rng.byte())),
        1 => return Some(Cut::LoadMore(rng.byte())),
        2 => return Some(Cut::Load(rng.index(load + 2) * 2 + 1)),
        3 | 4 => return Some(Cut::Sheet(rng.index(12) * 2)),
        5 => return Some(Cut::Sheet(rng.index(30))),
        6 => herald[0] = rng.pick(&[0, 0x5555, 0xAAAB, 0xAA2A, 0x2AAA, 0xFFFF]),
        7 => herald[1] = rng.pick(&[0, 2, 0x0100, 0x0101, 0xFFFF]),
        8 | 24 => herald[5] = rng.pick(&[0, 0, 32_769, 0xFFFF, 32_768]),
        9 | 25 => herald[6] = rng.pick(&[0, 32_769, 0xFFFF]),
        10 | 26 => herald[7] = rng.pick(&[0, 0, herald[5].wrapping_add(1), 0xFFFF]),
        11 => herald[10] = 0,
        12 | 13 | 27 => {
            // Band bytes at the limit and over it, with copies or without.
            let rows = rng.pick(&[15, 16, 17, 18]);
            herald[5] = rng.pick(&[rows, rows + 1, 32_768]);
            herald[6] = rng.pick(&[32_768, 32_753, 32_752]);
            herald[7] = rows;
            if rng.one_in(4) {
                herald[10] = 0;
            }
        }
        14 => {
            herald[5] = 32_768;
            herald[6] = rng.pick(&[16, 17, 32, 33]);
            herald[7] = rng.pick(&[32_768, 16_384, 16_385, 10_923, 10_922]);
        }
        15 => return Some(Cut::Load(rng.pick(&[0, 2]))),
        16 => plan.load_count = plan.load_count.wrapping_add(1),
        17 => plan.load_count = plan.load_count.wrapping_sub(1),
        18 => {
            plan.load_count = plan
                .load_count
                .wrapping_add(rng.pick(&[0x1_0000, 0xFFFF_0000]))
        }
        19 => return Some(Cut::Load(4 + rng.index(load + 1) * 2)),
        20 | 21 if load > 0 => {
            let some = 1 + rng.below(load as u64) as u32;
            let less = rng.pick(&[1, load as u32, some]);
            let most = load as u32 - less.min(load as u32);
            herald[8] = most as u16;
            herald[9] = (most >> 16) as u16;
        }
        _ => herald[11] = 0,
    }
    None
}

fn in_the_walk(rng: &mut Rng, plan: &mut Plan) -> Option<Cut> {
    let (words, counts) = plan.words();
    match rng.below(16) {
        // A count word is missing.
        0 | 1 => return Some(Cut::Sheet(counts[rng.index(counts.len())] * 2)),
        2 | 3 => return Some(Cut::Sheet(rng.index(words.len() + 1) * 2)),
        // A page more than there are, a page less.
        4 => plan.herald[11] = plan.herald[11].wrapping_add(rng.pick(&[1, 2, 0xFF])),
        5 => plan.herald[11] = plan.herald[11].saturating_sub(1).max(1),
        6 | 7 => {
            let page = rng.index(plan.pages.len());
            let page = &mut plan.pages[page];
            let right = page.bands.len() as u16;
            let wrong = [
                right.wrapping_add(1),
                right.wrapping_sub(1),
                0,
                0xFFFF,
                right ^ 0x100,
            ];
            page.count = Some(rng.pick(&wrong));
            // With as many bands as the wrong count says, or not.
            if rng.percent(30) {
                page.bands.pop();
            }
        }
        8 => {
            if let Some(page) = plan.pages.last_mut() {
                page.bands.pop();
                if rng.percent(50) {
                    page.count = Some((page.bands.len() as u16).wrapping_add(1));
                }
            }
        }
        9..=12 => {
            // A band past the file, or into the next one.
            let rest = words.len() as u64;
            if let Some(band) = some_band(rng, plan) {
                let length: usize = band.commands.iter().map(Vec::len).sum();
                let wrong = match rng.below(6) {
                    0 => 0xFFFF,
                    1 => (length as u16).wrapping_add(1),
                    2 => (length as u16).saturating_sub(1),
                    3 => 0x8000,
                    _ => (length as u16).wrapping_add(rng.between(1, rest) as u16),
                };
                band.count = Some(wrong);
            }
        }
        _ => {
            for _ in 0..rng.between(1, 4) {
                let word = if rng.percent(50) { 0 } else { rng.word() };
                plan.tail.push(word);
            }
        }
    }
    None
}

fn in_a_command(rng: &mut Rng, plan: &mut Plan) {
    match rng.below(22) {
        0..=2 => {
            let code = rng.pick(&[0, 11, 12, 0x0102, 0x0500, 0x8005, 0xFFFF, 0x000F]);
            put(rng, plan, vec![code]);
        }
        3..=6 => cut_command(rng, plan),
        7 | 12 => {
            let high = rng.pick(&[256, 257, 0x8000, 0xFFFF]);
            let low = rng.word();
            put(rng, plan, vec![1, low, high]);
        }
        8 | 9 => falling_priority(rng, plan),
        10 | 11 => {
            let mode = rng.pick(&[2, 3, 0x0100, 0x8000, 0xFFFF]);
            let address = rng.word() & 7;
            put(rng, plan, vec![4, mode, address, 0]);
        }
        13 | 14 => past_load(rng, plan),
        15 => cut_by_load(rng, plan),
        16 => no_side(rng, plan),
        17 | 18 => soup(rng, plan),
        19 | 20 => set_padding(rng, plan),
        _ => {
            // A line without a last run, in a band that goes on.
            let mut words = vec![7, rng.word() & 7, rng.pick(&[1, 2, 0xFFFF])];
            for _ in 0..rng.below(4) {
                words.extend([rng.word() & 31, rng.word() & 0x1F]);
            }
            put(rng, plan, words);
        }
    }
}

/// The last command of a band is cut, and the band's count says so.
fn cut_command(rng: &mut Rng, plan: &mut Plan) {
    let frame = plan.frame;
    let fresh = match rng.below(8) {
        0 => vec![1, 5, 0],
        1 => vec![4, rng.pick(&[0, 1, 2]), 0, 0],
        2 => rectangle(rng, &frame),
        3 => {
            let mut words = trapezoid(rng, &frame);
            words[2] = rng.pick(&[1, 2]);
            words
        }
        4 => vec![7, 0, 2, 1, 2, 3, 0x8001, 1, 0x8002],
        5 => vec![8, rng.pick(&[0, 0xFFFF]), 0, 1],
        6 => vec![9, 0, 0, 2, 17, 0xFFFF, 0x8000, 0x1234, 0x7FFF],
        _ => vec![10, rng.pick(&[0, 0xFFFF]), 0, 1, 1],
    };
    let old = rng.percent(40);
    if let Some(band) = some_band(rng, plan) {
        if !old || band.commands.is_empty() {
            band.commands.push(fresh);
        }
        if let Some(last) = band.commands.last_mut() {
            let length = rng.between(1, last.len() as u64 - u64::from(last.len() > 1));
            last.truncate(length as usize);
        }
    }
}

fn falling_priority(rng: &mut Rng, plan: &mut Plan) {
    let high = rng.below(256) as u16;
    let low = rng.word().max(1);
    let less = match rng.below(3) {
        0 => [low - 1, high],
        1 if high > 0 => [0xFFFF, high - 1],
        _ => [0, 0],
    };
    let frame = plan.frame;
    let between = rectangle(rng, &frame);
    if let Some(band) = some_band(rng, plan) {
        band.commands.push(vec![1, low, high]);
        if rng.percent(50) {
            band.commands.push(between);
        }
        band.commands.push(vec![1, less[0], less[1]]);
    }
}

/// A command names what is not whole in the load.
fn past_load(rng: &mut Rng, plan: &mut Plan) {
    let length = plan.load.words.len() as u32;
    let code = rng.pick(&[4, 8, 10]);
    let meant = match code {
        4 => &plan.load.tiles,
        8 => &plan.load.groups,
        _ => &plan.load.arrays,
    };
    let address = match rng.below(9) {
        0 => length,
        1 => length.saturating_sub(1),
        2 => length.saturating_sub(rng.between(1, 6) as u32),
        3 => length + 1,
        4 => u32::MAX - rng.below(6) as u32,
        // Something whole stands where the low word alone says.
        5 | 6 if !meant.is_empty() => rng.pick(meant) + rng.pick(&[0x1_0000, 0x100_0000]),
        7 => 0x8000_0000,
        _ => rng.below(u64::from(length) + 1) as u32,
    };
    let (low, high) = (address as u16, (address >> 16) as u16);
    let command = match code {
        4 => vec![4, rng.below(2) as u16, low, high],
        8 => vec![8, low, high, rng.word() & 7],
        _ => vec![10, low, high, rng.word() & 7, rng.word() & 7],
    };
    put(rng, plan, command);
    // Sometimes what ended with the load ends after it.
    if rng.one_in(4) && !plan.load.words.is_empty() {
        plan.load.words.pop();
        plan.load_count = plan.load_count.saturating_sub(1);
    }
}

/// Puts words at the load's end, so that its count and its limit allow them: their address.
fn append(rng: &mut Rng, plan: &mut Plan, words: &[u16]) -> [u16; 2] {
    let address = plan.load.words.len();
    plan.load.words.extend(words);
    plan.load_count = plan.load.words.len() as u32;
    let most = u32::from(plan.herald[9]) << 16 | u32::from(plan.herald[8]);
    if most < plan.load_count && rng.percent(95) {
        plan.herald[8] = plan.load_count as u16;
        plan.herald[9] = (plan.load_count >> 16) as u16;
    }
    [address as u16, (address >> 16) as u16]
}

/// A tile, a group or an array that the load's end cuts.
fn cut_by_load(rng: &mut Rng, plan: &mut Plan) {
    let code = rng.pick(&[4, 4, 8, 10]);
    let (lines, dots) = (rng.between(1, 5), rng.between(1, 40));
    let mut words = match code {
        4 => {
            let mut words = vec![rng.word() & 3, rng.word() & 7, rng.word() & 7];
            words.extend(array(rng, lines, dots));
            words
        }
        8 => group(rng, lines, dots, 3),
        _ => array(rng, lines, dots),
    };
    // With a padding bit set in a line that may be there.
    if code != 8 && rng.percent(50) {
        let sizes = if code == 4 { 3 } else { 0 };
        set_padding_bit(rng, &mut words[sizes..]);
    }
    let most = words.len() as u64 - 1;
    let length = if rng.percent(40) {
        most
    } else {
        rng.between(0, most)
    };
    words.truncate(length as usize);
    let [low, high] = append(rng, plan, &words);
    let command = match code {
        4 => vec![4, rng.below(2) as u16, low, high],
        8 => vec![8, low, high, rng.word() & 7],
        _ => vec![10, low, high, rng.word() & 7, rng.word() & 7],
    };
    put(rng, plan, command);
}

/// A tile of the load has no lines, or lines of no dots.
fn no_side(rng: &mut Rng, plan: &mut Plan) {
    let (height, width) = rng.pick(&[(0, 5), (5, 0), (0, 0), (0xFFFF, 0), (0, 0xFFFF)]);
    let [low, high] = append(rng, plan, &[1, 0, 0, height, width]);
    let mode = rng.below(2) as u16;
    put(rng, plan, vec![4, mode, low, high]);
}

/// Sets a padding bit of an array, or all of a line; an array of whole words stays as it is.
fn set_padding_bit(rng: &mut Rng, array: &mut [u16]) {
    let (lines, dots) = (usize::from(array[0]), u64::from(array[1]));
    if lines == 0 || dots % 16 == 0 {
        return;
    }
    let line = match rng.below(3) {
        0 => 1,
        1 => lines,
        _ => 1 + rng.index(lines),
    };
    let bits = match rng.below(4) {
        0 => padding(dots),
        // The first of them, and the last.
        1 => 1 << (15 - dots % 16),
        2 => 1,
        _ => 1 << rng.below(16 - dots % 16),
    };
    array[1 + line * dots.div_ceil(16) as usize] |= bits;
}

/// A padding bit is set in an array of the sheet, or in an array or a tile of the load.
fn set_padding(rng: &mut Rng, plan: &mut Plan) {
    let (lines, dots) = (rng.between(1, 5), 16 * rng.below(3) + rng.between(1, 15));
    let mut words = array(rng, lines, dots);
    set_padding_bit(rng, &mut words);
    let (s_min, f_min) = (rng.word() & 7, rng.word() & 7);
    let command = match rng.pick(&[4, 9, 10]) {
        4 => {
            let tile = [&[rng.word() & 3, s_min, f_min], &words[..]].concat();
            let [low, high] = append(rng, plan, &tile);
            vec![4, rng.below(2) as u16, low, high]
        }
        9 => [&[9, s_min, f_min], &words[..]].concat(),
        _ => {
            let [low, high] = append(rng, plan, &words);
            vec![10, low, high, s_min, f_min]
        }
    };
    put(rng, plan, command);
}

/// A band of small words that mean what they happen to mean.
fn soup(rng: &mut Rng, plan: &mut Plan) {
    let count = rng.between(1, 40);
    let mut words = Vec::new();
    for _ in 0..count {
        words.push(match rng.below(10) {
            0..=5 => rng.between(0, 11) as u16,
            6 | 7 => rng.between(0, 2) as u16,
            8 => 0x8000 | rng.between(0, 20) as u16,
            _ => rng.word(),
        });
    }
    put(rng, plan, words);
}
