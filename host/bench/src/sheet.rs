//! Film sheets made of a page's masks.

/// The lines and dots of a page or of a stretch of it.
#[derive(Clone, Copy, Debug, PartialEq, Eq)]
pub struct Size {
    pub width: usize,
    pub height: usize,
}

impl Size {
    pub fn dots(self) -> usize {
        self.width * self.height
    }

    /// The bytes of a film's row: two for each 16 dots, rounded up.
    pub fn row_bytes(self) -> usize {
        2 * self.width.div_ceil(16)
    }

    pub fn bands(self) -> usize {
        self.height.div_ceil(BAND_LINES)
    }
}

/// The lines of a band. The widest page here, 4,762 dots, could have 109.
pub const BAND_LINES: usize = 100;

/// A mask in film coordinates, as the commands have it.
#[derive(Clone, Debug)]
pub enum Mask {
    Rectangle(Rectangle),
    Trapezoid(Trapezoid),
    Runs(Runs),
    Samples(Samples),
}

#[derive(Clone, Copy, Debug, PartialEq, Eq)]
pub struct Rectangle {
    pub s_min: u16,
    pub s_size: u16,
    pub f_min: u16,
    pub f_size: u16,
}

#[derive(Clone, Copy, Debug, PartialEq, Eq)]
pub struct Trapezoid {
    pub s_min: u16,
    pub s_size: u16,
    pub f_min: u16,
    pub f_size: u16,
    pub f_min_last: u16,
    pub f_size_last: u16,
}

/// A run group: of each line its runs, fMin and fSize.
#[derive(Clone, Debug)]
pub struct Runs {
    pub s_min: u16,
    pub lines: Vec<Vec<(u16, u16)>>,
}

/// A sample array: of each line its words.
#[derive(Clone, Debug)]
pub struct Samples {
    pub s_min: u16,
    pub f_min: u16,
    pub f_size: u16,
    pub lines: Vec<Vec<u16>>,
}

impl Mask {
    /// The lines that the mask has, the last not included.
    fn lines(&self) -> (usize, usize) {
        let (s_min, s_size) = match self {
            Mask::Rectangle(mask) => (mask.s_min, mask.s_size.into()),
            Mask::Trapezoid(mask) => (mask.s_min, mask.s_size.into()),
            Mask::Runs(mask) => (mask.s_min, mask.lines.len()),
            Mask::Samples(mask) => (mask.s_min, mask.lines.len()),
        };
        (s_min.into(), usize::from(s_min) + s_size)
    }

    /// The mask's command in the band of these lines. Rectangles and trapezoids stand in each of
    /// their bands whole, and the draw clips them; of runs and samples a band has its own lines.
    pub fn put(&self, first: usize, end: usize, words: &mut Vec<u16>) {
        let (top, bottom) = self.lines();
        let (from, to) = (top.max(first), bottom.min(end));
        match self {
            Mask::Rectangle(mask) => {
                words.extend([5, mask.s_min, mask.s_size, mask.f_min, mask.f_size]);
            }
            Mask::Trapezoid(mask) => words.extend([
                6,
                mask.s_min,
                mask.s_size,
                mask.f_min,
                mask.f_size,
                mask.f_min_last,
                mask.f_size_last,
            ]),
            Mask::Runs(mask) => {
                words.extend([7, word(from), word(to - from)]);
                for line in &mask.lines[from - top..to - top] {
                    put_runs(line, words);
                }
            }
            Mask::Samples(mask) => {
                words.extend([9, word(from), mask.f_min, word(to - from), mask.f_size]);
                words.extend(mask.lines[from - top..to - top].iter().flatten());
            }
        }
    }
}

/// The runs of a line, the last with its top bit; a line without runs has one of no dots.
fn put_runs(line: &[(u16, u16)], words: &mut Vec<u16>) {
    let Some((&(f_min, f_size), rest)) = line.split_last() else {
        words.extend([0, 0x8000]);
        return;
    };
    for &(f_min, f_size) in rest {
        words.extend([f_min, f_size]);
    }
    words.extend([f_min, 0x8000 | f_size]);
}

/// A sheet with its load.
#[derive(Clone, Debug)]
pub struct Film {
    pub size: Size,
    pub sheet: Vec<u8>,
    pub load: Vec<u8>,
    pub commands: usize,
}

/// The first 12 words: the herald and the count of pages.
pub fn herald(size: Size, load_words: usize, pages: u16) -> Vec<u16> {
    let [low, high] = long(load_words);
    vec![
        0xAAAA,
        1,
        0,
        600,
        600,
        word(size.height),
        word(size.width),
        word(BAND_LINES.min(size.height)),
        low,
        high,
        1,
        pages,
    ]
}

/// A film of one page. `load` are the words after the load's count; each band begins with the
/// command `colour`, if there is one.
pub fn film(size: Size, masks: &[Mask], load: &[u16], colour: &[u16]) -> Film {
    let mut words = herald(size, load.len(), 1);
    words.push(word(size.bands()));
    let mut commands = 0;
    for band in 0..size.bands() {
        let first = band * BAND_LINES;
        let end = (first + BAND_LINES).min(size.height);
        let mut own = colour.to_vec();
        commands += usize::from(!colour.is_empty());
        for mask in masks {
            let (top, bottom) = mask.lines();
            if top < end && bottom > first {
                mask.put(first, end, &mut own);
                commands += 1;
            }
        }
        words.push(word(own.len()));
        words.extend(own);
    }
    let load = [&long(load.len())[..], load].concat();
    Film {
        size,
        sheet: bytes(&words),
        load: bytes(&load),
        commands,
    }
}

/// A long number: two words, low word first.
pub fn long(number: usize) -> [u16; 2] {
    [(number & 0xFFFF) as u16, word(number >> 16)]
}

pub fn word(number: usize) -> u16 {
    u16::try_from(number).expect("the inputs here are made of numbers that fit a word")
}

/// Words as a file has them: two bytes, high byte first.
pub fn bytes(words: &[u16]) -> Vec<u8> {
    words.iter().flat_map(|word| word.to_be_bytes()).collect()
}
