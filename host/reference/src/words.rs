//! Words, run groups and sample arrays, wherever they stand.

/// The words of a lent file: "16 bits, high byte first". A last odd byte is no word.
#[derive(Clone, Copy)]
pub struct Words<'a>(pub &'a [u8]);

impl<'a> Words<'a> {
    /// How many words there are.
    pub fn count(self) -> u64 {
        (self.0.len() / 2) as u64
    }

    /// The word at a place, if there is one.
    pub fn at(self, place: u64) -> Option<u16> {
        let first = usize::try_from(place).ok()?.checked_mul(2)?;
        let high = *self.0.get(first)?;
        let low = *self.0.get(first.checked_add(1)?)?;
        Some(u16::from_be_bytes([high, low]))
    }

    /// "A long number is two words, low word first."
    pub fn long_at(self, place: u64) -> Option<u32> {
        let low = self.at(place)?;
        let high = self.at(place.checked_add(1)?)?;
        Some(u32::from(high) << 16 | u32::from(low))
    }

    /// The words before a place: what lies past it cannot be read.
    pub fn before(self, end: u64) -> Words<'a> {
        let bytes = usize::try_from(end.min(self.count()) * 2).unwrap_or(self.0.len());
        Words(&self.0[..bytes])
    }
}

/// One run of a run group: "fMin, then last-run in the top bit with fSize in the low 15".
#[derive(Clone, Copy)]
pub struct Run {
    pub f_min: u16,
    pub f_size: u16,
    pub last: bool,
}

/// The run that stands at a place; half a run is none.
pub fn run_at(words: Words, place: u64) -> Option<Run> {
    let f_min = words.at(place)?;
    let second = words.at(place.checked_add(1)?)?;
    Some(Run {
        f_min,
        f_size: second & 0x7FFF,
        last: second & 0x8000 != 0,
    })
}

/// A run group: "sSize, then for each scan line runs of two words".
#[derive(Clone, Copy)]
pub struct Group<'a> {
    pub words: Words<'a>,
    /// The place of the size word.
    pub place: u64,
    pub s_size: u16,
}

impl<'a> Group<'a> {
    /// The group at a place and the place after it, if it is whole within the words.
    pub fn read(words: Words<'a>, place: u64) -> Option<(Group<'a>, u64)> {
        let s_size = words.at(place)?;
        let mut next = place + 1;
        for _ in 0..s_size {
            next = line_end(words, next)?;
        }
        let group = Group {
            words,
            place,
            s_size,
        };
        Some((group, next))
    }
}

/// The place after a line of runs: "the line ends with the run whose top bit is set".
pub fn line_end(words: Words, line: u64) -> Option<u64> {
    let mut place = line;
    loop {
        let run = run_at(words, place)?;
        place += 2;
        if run.last {
            return Some(place);
        }
    }
}

/// A sample array: "sSize, fSize, then sSize lines of fSize/16 words rounded up, high bit first".
#[derive(Clone, Copy)]
pub struct Samples<'a> {
    words: Words<'a>,
    place: u64,
    pub s_size: u16,
    pub f_size: u16,
}

impl<'a> Samples<'a> {
    /// The array at a place and the place after it, if it is whole within the words.
    pub fn read(words: Words<'a>, place: u64) -> Option<(Samples<'a>, u64)> {
        let s_size = words.at(place)?;
        let f_size = words.at(place.checked_add(1)?)?;
        let next = place + 2 + u64::from(s_size) * u64::from(f_size).div_ceil(16);
        if next > words.count() {
            return None;
        }
        let samples = Samples {
            words,
            place,
            s_size,
            f_size,
        };
        Some((samples, next))
    }

    /// Whether each line is "padded with zeroes to a word boundary": the last word of a line has as
    /// many zeros at its end as there are bits after the dots.
    pub fn is_padded_with_zeros(&self) -> bool {
        let line_words = u64::from(self.f_size).div_ceil(16);
        let padding = 16 * line_words - u64::from(self.f_size);
        (1..=u64::from(self.s_size)).all(|lines| {
            let last = self.words.at(self.place + 1 + lines * line_words);
            last.is_some_and(|word| u64::from(word.trailing_zeros()) >= padding)
        })
    }

    /// The sample of a line and a dot along it, both counted from 0. Off the array there is none:
    /// no padding bit is a dot.
    pub fn is_set(&self, line: i64, dot: i64) -> bool {
        if line < 0 || line >= i64::from(self.s_size) || dot < 0 || dot >= i64::from(self.f_size) {
            return false;
        }
        let (line, dot) = (line.unsigned_abs(), dot.unsigned_abs());
        let line_words = u64::from(self.f_size).div_ceil(16);
        let word = self.words.at(self.place + 2 + line * line_words + dot / 16);
        word.is_some_and(|word| word & (0x8000 >> (dot % 16)) != 0)
    }
}
