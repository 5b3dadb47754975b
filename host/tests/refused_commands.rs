//! A command that is refused for an argument is refused at that argument's word, and one that is
//! refused for its padding at its code, whatever stands before it and behind it: random sheets with
//! one such command at a known place, through the library and `reference`.

mod common;

use common::rounds::rounds;
use common::{Answer, Call, Entry};
use generate::Rng;

/// Bands have 2 lines of 16 dots. The load has a tile of one line of one dot, and at its address 3
/// that tile's array; at 6 and 9 the same with a padding bit set; at 9 and 12 a tile and an array of
/// two such lines, of which the load has the first.
const LINES: u16 = 2;
const LOAD_WORDS: u16 = 15;
const LOAD: [u16; 17] = [
    LOAD_WORDS, 0, 0, 0, 0, 1, 1, 0x8000, 0, 0, 0, 1, 1, 0x8001, 2, 1, 0x8001,
];

/// What a command may not have: an argument, or a bit in the padding of what it names.
#[derive(Clone, Copy, Debug)]
enum Fault {
    Falling,
    Oversized,
    Mode,
    Padding,
    TilePadding,
    LoadPadding,
}

const FAULTS: [Fault; 6] = [
    Fault::Falling,
    Fault::Oversized,
    Fault::Mode,
    Fault::Padding,
    Fault::TilePadding,
    Fault::LoadPadding,
];

impl Fault {
    /// The refusal's number, and its place in words after the code.
    fn told(self) -> (u64, usize) {
        match self {
            Fault::Falling => (8, 1),
            Fault::Oversized => (8, 2),
            Fault::Mode => (13, 1),
            Fault::Padding | Fault::TilePadding | Fault::LoadPadding => (15, 0),
        }
    }

    /// The words of a priority that has to stand before it, if any, those of such a command, and
    /// those of the same with the nearest argument, or the padding, that passes.
    fn words(self, rng: &mut Rng) -> (Vec<u16>, Vec<u16>, Vec<u16>) {
        match self {
            Fault::Falling => {
                let (high, low) = falling(rng);
                (priority(high), priority(low), priority(high))
            }
            Fault::Oversized => {
                let low = rng.word();
                let high = rng.pick(&[256, 257, 0x8000, 0xFFFF]);
                (vec![], vec![1, low, high], vec![1, low, 255])
            }
            Fault::Mode => {
                let mode = rng.pick(&[2, 3, 0x0100, 0x8000, 0xFFFF]);
                (vec![], vec![4, mode, 0, 0], vec![4, 1, 0, 0])
            }
            Fault::Padding => padding(rng),
            Fault::TilePadding => {
                let mode = rng.word() & 1;
                (vec![], vec![4, mode, 6, 0], vec![4, mode, 0, 0])
            }
            Fault::LoadPadding => {
                let (s_min, f_min) = (rng.word(), rng.word());
                let of = |address| vec![10, address, 0, s_min, f_min];
                (vec![], of(9), of(3))
            }
        }
    }
}

/// Samples of one to four lines with padding: nothing before them, with one bit of it set, and with
/// none.
fn padding(rng: &mut Rng) -> (Vec<u16>, Vec<u16>, Vec<u16>) {
    let (lines, bits) = (1 + rng.index(4), 1 + rng.index(15));
    let line_words = 1 + rng.index(3);
    let dots = 16 * line_words - bits;
    let mut good = vec![9, rng.word(), rng.word(), lines as u16, dots as u16];
    for _ in 0..lines {
        good.extend((1..line_words).map(|_| rng.word()));
        good.push(rng.word() >> bits << bits);
    }
    let mut bad = good.clone();
    bad[4 + line_words * (1 + rng.index(lines))] |= 1 << rng.index(bits);
    (vec![], bad, good)
}

fn priority(value: u32) -> Vec<u16> {
    vec![1, value as u16, (value >> 16) as u16]
}

/// Two priorities, the second one lower: by one, in the high word, or by any number.
fn falling(rng: &mut Rng) -> (u32, u32) {
    let most = 0x00FF_FFFF;
    let before = match rng.below(4) {
        0 => most,
        1 => 0x0001_0000,
        _ => rng.between(1, most.into()) as u32,
    };
    let after = match rng.below(3) {
        0 => before - 1,
        1 => 0,
        _ => rng.below(before.into()) as u32,
    };
    (before, after)
}

/// Commands that pass, none of them a priority.
fn filler(rng: &mut Rng) -> Vec<u16> {
    let mut words = Vec::new();
    for _ in 0..rng.index(4) {
        words.extend(match rng.below(6) {
            0 => vec![2],
            1 => vec![3],
            2 => vec![4, rng.word() & 1, 0, 0],
            3 => vec![5, rng.word(), rng.word(), rng.word(), rng.word()],
            4 => vec![7, rng.word(), 1, rng.word(), 0x8000 | rng.word()],
            _ => {
                let words = [rng.word(), rng.word() & 0x8000];
                vec![9, rng.word(), rng.word(), 1, 17, words[0], words[1]]
            }
        });
    }
    words
}

/// The words of each band of each page.
type Pages = Vec<Vec<Vec<u16>>>;

/// Pages and bands, as many of each as it comes, of commands that pass.
fn good_pages(rng: &mut Rng) -> Pages {
    let (pages, bands) = (1 + rng.index(3), 1 + rng.index(3));
    let page = |rng: &mut Rng| (0..bands).map(|_| filler(rng)).collect();
    (0..pages).map(|_| page(rng)).collect()
}

fn bytes(words: &[u16]) -> Vec<u8> {
    words.iter().flat_map(|word| word.to_be_bytes()).collect()
}

/// The sheet of these pages.
fn sheet(pages: &Pages) -> Vec<u8> {
    let bands = pages[0].len() as u16;
    let mut words = vec![0xAAAA, 1, 0, 600, 600, LINES * bands, 16, LINES];
    words.extend([LOAD_WORDS, 0, 1]);
    words.push(pages.len() as u16);
    for page in pages {
        words.push(bands);
        for band in page {
            words.push(band.len() as u16);
            words.extend(band);
        }
    }
    bytes(&words)
}

/// The place of a band's first command.
fn place(pages: &Pages, page: usize, band: usize) -> usize {
    let words = |page: &[Vec<u16>]| -> usize { page.iter().map(|band| 1 + band.len()).sum() };
    let before: usize = pages[..page].iter().map(|page| 1 + words(page)).sum();
    12 + before + 1 + words(&pages[page][..band]) + 1
}

/// What check and draws have to answer: the number of pages and all bands drawn, but where a band
/// is refused, that refusal of the check and of this band alone.
fn answers(pages: &Pages, refused: Option<(usize, usize, Answer)>) -> Result<(), String> {
    let sheet = sheet(pages);
    let agreed = |entry| {
        let call = Call {
            entry,
            inputs: [&sheet, &bytes(&LOAD)],
            buffer: &[0xEE; 2 * LINES as usize + 1],
        };
        Ok::<_, String>((call.agreed()?.answer, call.to_string()))
    };
    let passes = Answer::Done(pages.len() as u64, 0);
    let (check, call) = agreed(Entry::FilmCheck)?;
    if check != refused.map_or(passes, |(_, _, told)| told) {
        return Err(format!("{call}\n{check:?}, and not {refused:?}"));
    }
    for page in 0..pages.len() {
        for band in 0..pages[0].len() {
            let (drawn, call) = agreed(Entry::FilmDraw { page, band })?;
            let as_told = match refused {
                Some((p, b, told)) if (p, b) == (page, band) => drawn == told,
                _ => matches!(drawn, Answer::Done(rows, _) if rows == LINES.into()),
            };
            if !as_told {
                return Err(format!("{call}\n{drawn:?}, and not {refused:?}"));
            }
        }
    }
    Ok(())
}

/// One such command in a random sheet: told at its word; mended, all passes; cut, as the last
/// command of its band, it is 6 at its code.
fn round(rng: &mut Rng, fault: Fault) -> Result<(), String> {
    let mut pages = good_pages(rng);
    let (page, band) = (rng.index(pages.len()), rng.index(pages[0].len()));
    let (before, bad, mended) = fault.words(rng);
    let first = [&pages[page][band][..], &before, &filler(rng)].concat();
    let last = filler(rng);
    let code = place(&pages, page, band) + first.len();
    let (number, word) = fault.told();

    pages[page][band] = [&first[..], &bad, &last].concat();
    let told = Answer::Refused(number, (code + word) as u64);
    answers(&pages, Some((page, band, told)))?;

    pages[page][band] = [&first[..], &mended, &last].concat();
    answers(&pages, None)?;

    pages[page][band] = [&first[..], &bad[..bad.len() - 1]].concat();
    let cut = Answer::Refused(6, code as u64);
    answers(&pages, Some((page, band, cut)))?;

    // Past the load, which would be 9 at the code, the mode is told all the same.
    if let Fault::Mode = fault {
        let past = [&bad[..2], &[rng.word().max(1), rng.word()]].concat();
        pages[page][band] = [&first[..], &past, &last].concat();
        answers(&pages, Some((page, band, told)))?;
    }
    // Before the padding is told the mode, and that the load cuts a tile or an array.
    let before = match fault {
        Fault::Mode => Some((vec![4, bad[1], 6, 0], told)),
        Fault::TilePadding => Some((vec![4, bad[1], 9, 0], Answer::Refused(9, code as u64))),
        Fault::LoadPadding => Some((vec![10, 12, 0, 0, 0], Answer::Refused(9, code as u64))),
        _ => None,
    };
    if let Some((command, told)) = before {
        pages[page][band] = [&first[..], &command, &last].concat();
        answers(&pages, Some((page, band, told)))?;
    }
    Ok(())
}

#[test]
fn told_at_its_word() {
    for fault in FAULTS {
        let mut sheets = 0;
        rounds(2_000, |seed| {
            sheets += 1;
            round(&mut Rng::new(seed), fault)
        });
        let (number, word) = fault.told();
        println!("{fault:?}: {sheets} sheets, {number} told {word} words after the code");
    }
}
