//! The draw: one band of one page into a lent buffer.

use crate::commands::{read_band, Command};
use crate::imaging::{Colour, Placed};
use crate::sheet::{Film, FIRST_PAGE};
use crate::{answer, refuse, Answer, Refusal};

/// One command that paints, with the colour that holds at it.
struct Stroke<'a> {
    mask: Placed<'a>,
    colour: Colour<'a>,
}

/// "Draw looks at counts on its way, at its own band's commands, and at nothing else after the
/// load." The places where the band's commands begin and end.
fn find_band(film: &Film, page: u64, band: u64) -> Result<(u64, u64), Refusal> {
    let mut place = FIRST_PAGE;
    for at_page in 0..film.pages {
        place = film.enter_page(place)?;
        for at_band in 0..film.bands_per_page() {
            let end = film.band_end(place)?;
            if at_page == page && at_band == band {
                return Ok((place + 1, end));
            }
            place = end;
        }
    }
    refuse(11, 0)
}

/// The dot of the finished picture: "each band begins with all dots 0", then each command in order.
fn dot(strokes: &[&Stroke], s: i64, f: i64) -> bool {
    let mut picture = false;
    for stroke in strokes {
        picture = stroke
            .colour
            .paint(picture, stroke.mask.has_dot(s, f), s, f);
    }
    picture
}

fn draw(
    sheet: &[u8],
    load: &[u8],
    page: usize,
    band: usize,
    buffer: &mut [u8],
) -> Result<(u64, u64), Refusal> {
    let film = Film::open(sheet, load)?;
    let (page, band) = (page as u64, band as u64);
    if page >= film.pages || band >= film.bands_per_page() {
        return refuse(11, 0);
    }
    let rows = film.rows(band);
    let bytes = rows * film.row_bytes();
    if (buffer.len() as u64) < bytes {
        return refuse(12, 0);
    }
    let (first, end) = find_band(&film, page, band)?;

    // Every command is read before the first byte is stored.
    let band_first = film.first_line(band) as i64;
    let band_end = band_first + rows as i64;
    let mut colour = Colour::Ink;
    let mut strokes = Vec::new();
    read_band(film.sheet, film.load, first, end, |command| match command {
        Command::Priority(_) => (),
        Command::Ink => colour = Colour::Ink,
        Command::Clear => colour = Colour::Clear,
        Command::Tile { transparent, tile } => colour = Colour::Tile { transparent, tile },
        Command::Mask(mask) => strokes.push(Stroke {
            mask: Placed::new(mask, band_first, band_end),
            colour,
        }),
    })?;

    // "The high bit of the first byte is f = 0; spare bits are 0." Bytes beyond the rows stay.
    let row_bytes = film.row_bytes() as usize;
    let mut dots = 0;
    for (s, row) in (band_first..band_end).zip(buffer.chunks_exact_mut(row_bytes)) {
        let touching: Vec<&Stroke> = strokes.iter().filter(|x| x.mask.has_line(s)).collect();
        row.fill(0);
        for f in 0..film.image_f_size {
            if dot(&touching, s, f as i64) {
                row[(f / 8) as usize] |= 0x80 >> (f % 8);
                dots += 1;
            }
        }
    }
    Ok((rows, dots))
}

/// "Draw takes sheet, load, page, band and buffer, and answers rows and dots; dots is the number
/// of one bits in the rows written."
pub fn film_draw(sheet: &[u8], load: &[u8], page: usize, band: usize, buffer: &mut [u8]) -> Answer {
    answer(draw(sheet, load, page, band, buffer))
}
