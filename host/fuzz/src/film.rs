//! Sheets and loads of the fuzzer's bytes.
//!
//! An input is: flags (a byte); for a draw page, band (numbers) and room (a signed byte); the
//! load's length (a word); the load; the sheet. Changed bytes of a sheet seldom leave its counts
//! right, so with a flag the files are mended first: the herald is put into its ranges and every
//! count is made to fit, and what is left to chance are the commands.

use crate::common::{Call, Entry};
use crate::{hold, number_word, Input};

/// Flags of an input.
const MENDED: u8 = 1;
const FENCED_START: u8 = 2;

/// The greatest sides of a film that is mended. `reference` draws dot by dot.
const SIDE: u16 = 64;

/// The greatest product of a band's dots and a sheet's words that is drawn.
const WORK: usize = 1 << 21;

/// What an input says.
pub struct Film {
    flags: u8,
    page: usize,
    band: usize,
    room: i8,
    sheet: Vec<u8>,
    load: Vec<u8>,
}

impl Film {
    fn of_check(mut input: Input) -> Film {
        let flags = input.byte();
        Film {
            flags,
            page: 0,
            band: 0,
            room: 0,
            ..files(flags, input)
        }
    }

    fn of_draw(mut input: Input) -> Film {
        let flags = input.byte();
        let (page, band, room) = (input.number(), input.number(), input.byte() as i8);
        Film {
            page,
            band,
            room,
            ..files(flags, input)
        }
    }
}

fn files(flags: u8, mut input: Input) -> Film {
    let load_length = input.word().into();
    let load = input.bytes(load_length);
    let (sheet, load) = if flags & MENDED != 0 {
        mended(input.0, load)
    } else {
        (input.0.to_vec(), load.to_vec())
    };
    Film {
        flags,
        page: 0,
        band: 0,
        room: 0,
        sheet,
        load,
    }
}

pub fn check(bytes: &[u8]) {
    let Film {
        flags, sheet, load, ..
    } = Film::of_check(Input(bytes));
    let call = Call {
        entry: Entry::FilmCheck,
        inputs: [&sheet, &load],
        buffer: &[],
    };
    hold(&call, flags & FENCED_START != 0);
}

pub fn draw(bytes: &[u8]) {
    let Film {
        flags,
        page,
        band,
        room,
        sheet,
        load,
    } = Film::of_draw(Input(bytes));
    let [image_s, image_f, band_s] = [5, 6, 7].map(|field| usize::from(word(&sheet, field)));
    let row_bytes = image_f.div_ceil(16) * 2;
    if band_s * row_bytes * 8 * (sheet.len() / 2) > WORK {
        return;
    }
    // The band's own rows, and some bytes more or less.
    let rows = image_s
        .saturating_sub(band.saturating_mul(band_s))
        .min(band_s);
    let length = (rows * row_bytes).saturating_add_signed(room.into());
    let buffer: Vec<u8> = (0..length).map(|at| at as u8 ^ 0xEE).collect();
    let call = Call {
        entry: Entry::FilmDraw { page, band },
        inputs: [&sheet, &load],
        buffer: &buffer,
    };
    hold(&call, flags & FENCED_START != 0);
}

/// A word of a file, 0 where it has none.
fn word(file: &[u8], place: usize) -> u16 {
    match file.get(2 * place..2 * place + 2) {
        Some(&[high, low]) => u16::from_be_bytes([high, low]),
        _ => 0,
    }
}

/// The number itself where it is in the range, else one that is.
fn into_range(number: u16, greatest: u16) -> u16 {
    if (1..=greatest).contains(&number) {
        number
    } else {
        1 + number % greatest
    }
}

/// Sheet and load with a herald in its ranges and with counts that fit. A sheet that is right, and
/// of a small film, stays.
fn mended(sheet: &[u8], load: &[u8]) -> (Vec<u8>, Vec<u8>) {
    let words = load.len().saturating_sub(4) / 2;
    let mut mended_load: Vec<u8> = [words as u16, (words >> 16) as u16]
        .iter()
        .flat_map(|word| word.to_be_bytes())
        .collect();
    mended_load.extend(load.iter().skip(4).take(2 * words));

    let mut herald: [u16; 12] = std::array::from_fn(|place| word(sheet, place));
    herald[0] = 0xAAAA;
    herald[1] = 1;
    herald[5] = into_range(herald[5], SIDE);
    herald[6] = into_range(herald[6], SIDE);
    herald[7] = into_range(herald[7], herald[5]);
    if usize::from(herald[8]) + (usize::from(herald[9]) << 16) < words {
        (herald[8], herald[9]) = (0xFFFF, 0xFFFF);
    }
    herald[10] = herald[10].max(1);
    herald[11] = into_range(herald[11], 3);

    let mut mended = herald.to_vec();
    let bands = herald[5].div_ceil(herald[7]);
    let mut rest = Input(sheet.get(24..).unwrap_or(&[]));
    for _ in 0..herald[11] {
        rest.word();
        mended.push(bands);
        for _ in 0..bands {
            let count = usize::from(rest.word()).min(rest.0.len() / 2);
            mended.push(count as u16);
            mended.extend((0..count).map(|_| rest.word()));
        }
    }
    (
        mended.iter().flat_map(|word| word.to_be_bytes()).collect(),
        mended_load,
    )
}

/// The inputs of the target `film_check` that stand for a call: as it is, and mended.
pub fn check_seeds(sheet: &[u8], load: &[u8]) -> Vec<Vec<u8>> {
    seeds(&[], sheet, load)
}

/// The inputs of the target `film_draw` that stand for a call. Its buffer is longer or shorter than
/// the band's rows by a few bytes.
pub fn draw_seeds(sheet: &[u8], load: &[u8], page: usize, band: usize, room: i8) -> Vec<Vec<u8>> {
    match (number_word(page), number_word(band)) {
        (Some(page), Some(band)) => seeds(
            &[page[0], page[1], band[0], band[1], room as u8],
            sheet,
            load,
        ),
        _ => Vec::new(),
    }
}

fn seeds(numbers: &[u8], sheet: &[u8], load: &[u8]) -> Vec<Vec<u8>> {
    let Ok(length) = u16::try_from(load.len()) else {
        return Vec::new();
    };
    let seed = |flags: u8| [&[flags], numbers, &length.to_be_bytes(), load, sheet].concat();
    vec![seed(0), seed(MENDED | FENCED_START)]
}
