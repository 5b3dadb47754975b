//! The film sheet: its herald, its load, the walk over pages and bands, and the check.

use crate::commands::read_band;
use crate::words::Words;
use crate::{answer, refuse, Answer, Refusal, LONGEST_FILE};

/// A sheet and a load that passed the tests before the walk.
pub struct Film<'a> {
    pub sheet: Words<'a>,
    /// The load's words after its count: "addresses count from 0 after the count".
    pub load: Words<'a>,
    pub image_s_size: u64,
    pub image_f_size: u64,
    pub band_s_size: u64,
    pub pages: u64,
}

/// "A row takes 2 bytes for each 16 dots, rounded up."
fn row_bytes(image_f_size: u64) -> u64 {
    2 * image_f_size.div_ceil(16)
}

impl<'a> Film<'a> {
    /// The order for sheets up to the page count: 1, 2, 3, 4, 5.
    pub fn open(sheet: &'a [u8], load: &'a [u8]) -> Result<Film<'a>, Refusal> {
        for file in [sheet, load] {
            if file.len() % 2 == 1 || file.len() > LONGEST_FILE {
                return refuse(1, 0);
            }
        }
        let sheet = Words(sheet);
        if sheet.count() < 12 {
            return refuse(2, 0);
        }
        let field = |i: u64| u64::from(sheet.at(i).unwrap_or(0));
        if field(0) != 0xAAAA {
            return refuse(2, 0);
        }
        if field(1) != 1 {
            return refuse(2, 1);
        }
        let (image_s_size, image_f_size, band_s_size) = (field(5), field(6), field(7));
        if !(1..=32_768).contains(&image_s_size) {
            return refuse(3, 5);
        }
        if !(1..=32_768).contains(&image_f_size) {
            return refuse(3, 6);
        }
        if !(1..=image_s_size).contains(&band_s_size) {
            return refuse(3, 7);
        }
        if field(10) == 0 {
            return refuse(3, 10);
        }
        if band_s_size * row_bytes(image_f_size) > 65_536 {
            return refuse(3, 7);
        }
        let load_words = Words(load).count();
        let Some(load_count) = Words(load).long_at(0) else {
            return refuse(4, 8);
        };
        if 2 + u64::from(load_count) != load_words {
            return refuse(4, 8);
        }
        let max_load_words = sheet.long_at(8).unwrap_or(0);
        if load_count > max_load_words {
            return refuse(4, 8);
        }
        let pages = field(11);
        if pages == 0 {
            return refuse(5, 11);
        }
        Ok(Film {
            sheet,
            load: Words(&load[4..]),
            image_s_size,
            image_f_size,
            band_s_size,
            pages,
        })
    }

    /// "A page has imageSSize / bandSSize bands, rounded up."
    pub fn bands_per_page(&self) -> u64 {
        self.image_s_size.div_ceil(self.band_s_size)
    }

    /// The bytes of one row.
    pub fn row_bytes(&self) -> u64 {
        row_bytes(self.image_f_size)
    }

    /// The first line of a band: bandSSize · b.
    pub fn first_line(&self, band: u64) -> u64 {
        self.band_s_size * band
    }

    /// The band's own rows: up to bandSSize · (b+1), "cut off at imageSSize".
    pub fn rows(&self, band: u64) -> u64 {
        let end = (self.band_s_size * (band + 1)).min(self.image_s_size);
        end - self.first_line(band)
    }

    /// "A page is its count of bands, then the bands": the place after a right count.
    pub fn enter_page(&self, place: u64) -> Result<u64, Refusal> {
        let Some(count) = self.sheet.at(place) else {
            return refuse(6, self.sheet.count());
        };
        if u64::from(count) != self.bands_per_page() {
            return refuse(5, place);
        }
        Ok(place + 1)
    }

    /// "A band is a count of words, then its commands": the place after the band, which is known
    /// to lie in the file. Its commands stand from `place + 1` on.
    pub fn band_end(&self, place: u64) -> Result<u64, Refusal> {
        let Some(count) = self.sheet.at(place) else {
            return refuse(6, self.sheet.count());
        };
        let end = place + 1 + u64::from(count);
        if end > self.sheet.count() {
            return refuse(6, place);
        }
        Ok(end)
    }
}

/// The place of the first page's count of bands.
pub const FIRST_PAGE: u64 = 12;

fn check(sheet: &[u8], load: &[u8]) -> Result<(u64, u64), Refusal> {
    let film = Film::open(sheet, load)?;
    let mut place = FIRST_PAGE;
    for _page in 0..film.pages {
        place = film.enter_page(place)?;
        for _band in 0..film.bands_per_page() {
            let end = film.band_end(place)?;
            read_band(film.sheet, film.load, place + 1, end, |_| ())?;
            place = end;
        }
    }
    // Words after the last page.
    if place < film.sheet.count() {
        return refuse(10, place);
    }
    Ok((film.pages, 0))
}

/// "Check takes sheet and load and answers the pages."
pub fn film_check(sheet: &[u8], load: &[u8]) -> Answer {
    answer(check(sheet, load))
}
