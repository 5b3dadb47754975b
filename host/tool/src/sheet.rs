//! What the tool reads of a sheet by itself, outside of the proved library: numbers of the herald,
//! and which page, band and command a place lies in. None of it decides what is refused or drawn.

/// A sheet or a load as words of 16 bits, high byte first.
#[derive(Clone, Copy)]
pub struct Words<'a>(pub &'a [u8]);

impl Words<'_> {
    pub fn len(self) -> usize {
        self.0.len() / 2
    }

    pub fn word(self, at: usize) -> Option<usize> {
        match self.0.get(2 * at..2 * at + 2) {
            Some(&[high, low]) => Some(usize::from(u16::from_be_bytes([high, low]))),
            _ => None,
        }
    }

    /// A number of two words, low word first.
    pub fn long(self, at: usize) -> Option<usize> {
        Some(self.word(at)? + 65_536 * self.word(at + 1)?)
    }
}

/// The numbers of a herald.
#[derive(Clone, Copy, Debug, PartialEq, Eq)]
pub struct Herald {
    pub image_s_size: usize,
    pub image_f_size: usize,
    pub band_s_size: usize,
    pub max_load_words: usize,
    pub copies: usize,
    pub pages: usize,
}

impl Herald {
    /// None where the sheet has fewer than 12 words.
    pub fn of(sheet: &[u8]) -> Option<Herald> {
        let words = Words(sheet);
        Some(Herald {
            image_s_size: words.word(5)?,
            image_f_size: words.word(6)?,
            band_s_size: words.word(7)?,
            max_load_words: words.long(8)?,
            copies: words.word(10)?,
            pages: words.word(11)?,
        })
    }

    /// The bands of a page; 0 where bandSSize is 0, which the check refuses.
    pub fn bands(self) -> usize {
        match self.band_s_size {
            0 => 0,
            lines => self.image_s_size.div_ceil(lines),
        }
    }

    /// The bytes of a row of a film.
    pub fn row_bytes(self) -> usize {
        2 * self.image_f_size.div_ceil(16)
    }
}

/// Where in the pages of a sheet a place lies.
#[derive(Clone, Copy, Debug, PartialEq, Eq)]
pub enum Spot {
    /// A page's count of bands.
    Page { page: usize },
    /// A band's count of words.
    Band { page: usize, band: usize },
    /// A word of a command, its code or an argument.
    Command {
        page: usize,
        band: usize,
        /// Counted from 0 in its band.
        command: usize,
        /// The place of its code.
        code: usize,
        /// The priority that holds before it.
        priority: usize,
    },
}

/// Where a place of the walk over pages and bands lies. None where the walk does not come to it, as
/// behind the last page.
pub fn locate(sheet: &[u8], place: usize) -> Option<Spot> {
    let words = Words(sheet);
    let herald = Herald::of(sheet)?;
    let mut at = 12;
    for page in 0..herald.pages {
        if at == place {
            return Some(Spot::Page { page });
        }
        at += 1;
        for band in 0..herald.bands() {
            if at == place {
                return Some(Spot::Band { page, band });
            }
            let end = at + 1 + words.word(at)?;
            if place < end {
                return command_at(words, page, band, at + 1, place);
            }
            at = end;
        }
    }
    None
}

/// The command that has a place of a band, whose first command's code stands at `code`.
fn command_at(
    words: Words,
    page: usize,
    band: usize,
    mut code: usize,
    place: usize,
) -> Option<Spot> {
    let (mut command, mut priority) = (0, 0);
    // A command that is refused at its code may have no length.
    while code != place {
        let next = code + command_words(words, code)?;
        if place < next {
            break;
        }
        if words.word(code) == Some(1) {
            priority = words.long(code + 1)?;
        }
        code = next;
        command += 1;
    }
    Some(Spot::Command {
        page,
        band,
        command,
        code,
        priority,
    })
}

/// The words of the command at a place.
fn command_words(words: Words, at: usize) -> Option<usize> {
    Some(match words.word(at)? {
        1 => 3,
        2 | 3 => 1,
        4 => 4,
        5 => 5,
        6 => 7,
        7 => 2 + group_words(words, at + 2)?,
        8 => 4,
        9 => 5 + words.word(at + 3)? * words.word(at + 4)?.div_ceil(16),
        10 => 5,
        _ => return None,
    })
}

/// The words of the run group at a place: its count of lines, and of each line runs of two words up
/// to the one whose second has the top bit.
fn group_words(words: Words, at: usize) -> Option<usize> {
    let mut length = 1;
    for _ in 0..words.word(at)? {
        loop {
            length += 2;
            if words.word(at + length - 1)? >= 0x8000 {
                break;
            }
        }
    }
    Some(length)
}

/// A padding bit that is set in a sample array.
#[derive(Clone, Copy, Debug, PartialEq, Eq)]
pub struct PaddingBit {
    pub line: usize,
    /// Counted along the line from 0, the high bit of its first word.
    pub bit: usize,
    /// The dots of a line.
    pub dots: usize,
    /// The line's last word, its place, and what it is without its padding bits.
    pub word: usize,
    pub place: usize,
    pub cleared: usize,
}

/// The first one in the array at a place, if there is any.
pub fn padding_bit(words: Words, at: usize) -> Option<PaddingBit> {
    let (lines, dots) = (words.word(at)?, words.word(at + 1)?);
    let line_words = dots.div_ceil(16);
    let bits = 16 * line_words - dots;
    (0..lines).find_map(|line| {
        let place = at + 1 + (line + 1) * line_words;
        let word = words.word(place)?;
        let padding = word % (1 << bits);
        (padding != 0).then(|| PaddingBit {
            line,
            bit: 16 * line_words - 1 - padding.ilog2() as usize,
            dots,
            word,
            place,
            cleared: word - padding,
        })
    })
}

#[cfg(test)]
mod tests {
    use super::*;

    /// A sheet of pages of bands, each band a list of commands; and where each of its parts lies.
    fn sheet(pages: &[Vec<Vec<Vec<u16>>>]) -> (Vec<u8>, Vec<(usize, Spot)>) {
        let bands = pages[0].len() as u16;
        let mut words = vec![0xAAAA, 1, 0, 600, 600, 2 * bands, 16, 2, 0, 0, 1];
        words.push(pages.len() as u16);
        let mut spots = Vec::new();
        for (page, bands) in pages.iter().enumerate() {
            spots.push((words.len(), Spot::Page { page }));
            words.push(bands.len() as u16);
            for (band, commands) in bands.iter().enumerate() {
                spots.push((words.len(), Spot::Band { page, band }));
                words.push(commands.iter().map(Vec::len).sum::<usize>() as u16);
                let mut priority = 0;
                for (command, code_and_arguments) in commands.iter().enumerate() {
                    let spot = Spot::Command {
                        page,
                        band,
                        command,
                        code: words.len(),
                        priority,
                    };
                    spots.push((words.len(), spot));
                    words.extend(code_and_arguments);
                    if let [1, low, high] = code_and_arguments[..] {
                        priority = usize::from(low) + 65_536 * usize::from(high);
                    }
                }
            }
        }
        let bytes = words.iter().flat_map(|word| word.to_be_bytes()).collect();
        (bytes, spots)
    }

    /// One command of each code, with empty, short and long run groups and arrays.
    fn commands() -> Vec<Vec<u16>> {
        vec![
            vec![1, 7, 0],
            vec![2],
            vec![1, 7, 2],
            vec![3],
            vec![5, 0, 1, 0, 1],
            vec![6, 0, 2, 0, 1, 0, 1],
            vec![7, 0, 0],
            vec![7, 0, 1, 0, 0x8001],
            vec![7, 0, 2, 0, 1, 3, 1, 5, 0x8001, 9, 0x8000],
            vec![9, 0, 0, 0, 16],
            vec![9, 0, 0, 3, 0],
            vec![9, 0, 0, 2, 16, 1, 2],
            vec![9, 0, 0, 2, 17, 1, 0, 3, 0x8000],
            vec![2],
        ]
    }

    #[test]
    fn every_place() {
        let all = commands();
        let pages = [
            vec![vec![], all.clone(), vec![vec![2]]],
            vec![vec![vec![3], vec![3]], vec![], all],
        ];
        let (sheet, spots) = sheet(&pages);
        assert_eq!(printbox::film::check(&sheet, &[0; 4]), Ok(2));
        let words = sheet.len() / 2;
        for place in 0..words + 3 {
            // A word that is no count and no code is an argument of the command before it.
            let expected = spots
                .iter()
                .rfind(|(at, _)| *at <= place && place < words)
                .map(|(_, spot)| *spot);
            assert_eq!(locate(&sheet, place), expected, "place {place}");
        }
    }

    /// Codes 4, 8 and 10 name the load, so they have a sheet of their own.
    #[test]
    fn commands_of_the_load() {
        let band = vec![
            vec![4, 0, 0, 0],
            vec![8, 0, 0, 1],
            vec![10, 0, 0, 1, 1],
            vec![2],
        ];
        let (sheet, spots) = sheet(&[vec![band]]);
        for (place, spot) in spots {
            assert_eq!(locate(&sheet, place), Some(spot), "place {place}");
        }
    }

    /// In place of each count and code one at which the check stops: it stops at the spot.
    #[test]
    fn where_the_check_stops() {
        let pages = [vec![commands(), commands()], vec![commands(), commands()]];
        let (good, spots) = sheet(&pages);
        for (place, spot) in spots {
            let mut damaged = good.clone();
            damaged[2 * place..2 * place + 2].copy_from_slice(&[0xFF, 0xFF]);
            let refusal = printbox::film::check(&damaged, &[0; 4]).expect_err("a damaged sheet");
            assert_eq!(refusal.place, place as u64);
            assert_eq!(locate(&damaged, place), Some(spot));

            // Cut off before it, the sheet ends inside of a band, or where a count should stand.
            let refusal = printbox::film::check(&good[..2 * place], &[0; 4]);
            let refusal = refusal.expect_err("a cut off sheet");
            assert_eq!(refusal.number, 6);
            let stop = locate(&good[..2 * place], refusal.place as usize);
            match (spot, stop) {
                (Spot::Command { page, band, .. }, Some(Spot::Band { page: p, band: b })) => {
                    assert_eq!((page, band), (p, b));
                }
                (spot, stop) => assert_eq!(stop, Some(spot)),
            }
        }
    }

    /// Random sheets: the draw of the band that a fault lies in is refused with that fault, and the
    /// draw of the band before it is not. A command is refused at its code, or at the argument that
    /// its number is for.
    #[test]
    fn the_band_that_is_refused() {
        let mut buffer = vec![0; printbox::film::BAND_BYTES];
        let mut located = 0;
        for seed in 0..20_000 {
            let generate::Film { sheet, load } = generate::film(&mut generate::Rng::new(seed));
            let Err(refusal) = printbox::film::check(&sheet, &load) else {
                continue;
            };
            let mut draw = |page, band| {
                let drawn = printbox::film::draw(&sheet, &load, page, band, &mut buffer);
                drawn.err() == Some(refusal)
            };
            let place = refusal.place as usize;
            let (page, band) = match (refusal.number, locate(&sheet, place)) {
                (5 | 6, Some(Spot::Page { page })) => (page, 0),
                (6, Some(Spot::Band { page, band })) => (page, band),
                (
                    number @ (6..=9 | 13 | 15),
                    Some(Spot::Command {
                        page, band, code, ..
                    }),
                ) => {
                    let words = match number {
                        8 => 1..=2,
                        13 => 1..=1,
                        _ => 0..=0,
                    };
                    assert!(words.contains(&(place - code)), "seed {seed}, {refusal}");
                    (page, band)
                }
                (5, None) if place == 11 => continue,
                (1..=4 | 10, _) => continue,
                (_, other) => panic!("seed {seed}, {refusal}: {other:?}"),
            };
            assert!(draw(page, band), "seed {seed}, {refusal}");
            match (page, band) {
                (0, 0) => {}
                (page, 0) => {
                    let last = Herald::of(&sheet).expect("a herald").bands() - 1;
                    assert!(!draw(page - 1, last), "seed {seed}, {refusal}");
                }
                (page, band) => assert!(!draw(page, band - 1), "seed {seed}, {refusal}"),
            }
            located += 1;
        }
        assert!(located > 2000, "{located} sheets");
    }

    /// Of random sheets that are refused for their padding: each bit that is found is set and is
    /// padding, line after line, and with all of them cleared the command is not refused again.
    #[test]
    fn padding_that_is_refused() {
        let mut found = 0;
        for seed in 0..20_000 {
            let generate::Film { sheet, load } = generate::film(&mut generate::Rng::new(seed));
            let Err(refusal) = printbox::film::check(&sheet, &load) else {
                continue;
            };
            if refusal.number != 15 {
                continue;
            }
            let words = Words(&sheet);
            let code = refusal.place as usize;
            let (mut mended, at) = match words.word(code) {
                Some(4) => (load.clone(), 5 + words.long(code + 2).expect("an address")),
                Some(9) => (sheet.clone(), code + 3),
                _ => (load.clone(), 2 + words.long(code + 1).expect("an address")),
            };
            let mut lines = Vec::new();
            while let Some(padding) = padding_bit(Words(&mended), at) {
                let line_words = padding.dots.div_ceil(16);
                assert!((padding.dots..16 * line_words).contains(&padding.bit));
                let bit = padding.bit - 16 * (line_words - 1);
                assert_eq!(padding.word >> (15 - bit) & 1, 1, "seed {seed}");
                let cleared = (padding.cleared as u16).to_be_bytes();
                mended[2 * padding.place..2 * padding.place + 2].copy_from_slice(&cleared);
                lines.push(padding.line);
            }
            assert!(lines.is_sorted_by(|a, b| a < b) && !lines.is_empty());
            // Mended, the command is not refused again.
            let (sheet, load) = match words.word(code) {
                Some(9) => (&mended, &load),
                _ => (&sheet, &mended),
            };
            let next = printbox::film::check(sheet, load);
            assert_ne!(next.err(), Some(refusal), "seed {seed}");
            found += 1;
        }
        assert!(found > 100, "{found} sheets");
    }

    #[test]
    fn no_place() {
        assert_eq!(locate(&[], 0), None);
        assert_eq!(locate(&[0xAA; 22], 11), None);
        assert_eq!(Herald::of(&[0; 23]), None);
        assert_eq!(Herald::of(&[0; 24]).map(Herald::bands), Some(0));
    }
}
