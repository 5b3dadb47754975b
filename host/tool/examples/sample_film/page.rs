//! A page as masks in the order of painting, and the commands of its bands.

use crate::font::Font;
use crate::geometry::{between, column, distance, row, Point};
use crate::load::Stored;
use std::ops::Range;

pub const BAND_S_SIZE: u16 = 64;

#[derive(Clone, Copy, Default, PartialEq)]
pub enum Colour {
    #[default]
    Ink,
    Clear,
    Opaque([u16; 2]),
    Transparent([u16; 2]),
}

/// A mask's command, the rows that it can touch, and what it is painted with.
struct Mask {
    rows: Range<u16>,
    words: Vec<u16>,
    colour: Colour,
    priority: u16,
}

/// The masks of a page in the order of painting, and what the next one is painted with.
#[derive(Default)]
pub struct Page {
    masks: Vec<Mask>,
    pub colour: Colour,
    pub priority: u16,
}

impl Page {
    fn mask(&mut self, s_min: u16, s_size: u16, words: &[u16]) {
        self.masks.push(Mask {
            rows: s_min..s_min + s_size,
            words: words.to_vec(),
            colour: self.colour,
            priority: self.priority,
        });
    }

    pub fn rectangle(&mut self, rows: Range<u16>, columns: Range<u16>) {
        let (s_min, s_size) = (rows.start, rows.len() as u16);
        let words = [5, s_min, s_size, columns.start, columns.len() as u16];
        self.mask(s_min, s_size, &words);
    }

    /// The trapezoid from the columns of its first row to those of its last.
    pub fn trapezoid(&mut self, rows: (u16, u16), first: Range<u16>, last: Range<u16>) {
        let s_size = rows.1 - rows.0 + 1;
        let mut words = vec![6, rows.0, s_size];
        words.extend([
            first.start,
            first.len() as u16,
            last.start,
            last.len() as u16,
        ]);
        self.mask(rows.0, s_size, &words);
    }

    pub fn runs(&mut self, s_min: u16, group: &[u16]) {
        self.mask(s_min, group[0], &[&[7, s_min], group].concat());
    }

    pub fn runs_from_load(&mut self, s_min: u16, group: Stored) {
        let [low, high] = group.address;
        self.mask(s_min, group.s_size, &[8, low, high, s_min]);
    }

    pub fn samples(&mut self, s_min: u16, f_min: u16, array: &[u16]) {
        self.mask(s_min, array[0], &[&[9, s_min, f_min], array].concat());
    }

    pub fn samples_from_load(&mut self, s_min: u16, f_min: u16, array: Stored) {
        let [low, high] = array.address;
        self.mask(s_min, array.s_size, &[10, low, high, s_min, f_min]);
    }

    /// A line two dots wide, level from left to right or steep downward.
    pub fn line(&mut self, a: Point, b: Point) {
        let rows = (row(a.1), row(b.1));
        let columns = |p: Point| column(p.0) - 1..column(p.0) + 1;
        if rows.0 == rows.1 {
            self.rectangle(rows.0 - 1..rows.0 + 1, column(a.0)..column(b.0));
        } else {
            self.trapezoid(rows, columns(a), columns(b));
        }
    }

    /// Such a line in long and short dashes.
    pub fn centre_line(&mut self, a: Point, b: Point) {
        let length = distance(a, b);
        let (mut start, mut dashes) = (0.0, [34.0, 6.0].iter().cycle());
        while start + 1.0 < length {
            let end = f64::min(start + dashes.next().unwrap(), length);
            self.line(between(a, b, start / length), between(a, b, end / length));
            start = end + 7.0;
        }
    }

    /// The text with its left end (0), middle (0.5) or right end (1) at a column.
    pub fn text(&mut self, font: &Font, s: u16, f: u16, end: f64, text: &str) {
        let glyph = |letter| font.glyphs.iter().find(|glyph| glyph.0 == letter);
        let width = |letter| glyph(letter).map_or(font.gap, |glyph| glyph.2);
        let length: u16 = text.chars().map(|letter| width(letter) + font.gap).sum();
        let mut f = f - (f64::from(length.saturating_sub(font.gap)) * end) as u16;
        for letter in text.chars() {
            if let Some((_, array, _)) = glyph(letter) {
                self.samples_from_load(s, f, *array);
            }
            f += width(letter) + font.gap;
        }
    }

    /// The commands of the band from a row on. A band begins with ink and priority 0, and what
    /// spans bands is repeated in each.
    pub fn band(&self, first: u16) -> Vec<u16> {
        let mut words = Vec::new();
        let (mut colour, mut priority) = (Colour::Ink, 0);
        let touches = |mask: &&Mask| mask.rows.start < first + BAND_S_SIZE && first < mask.rows.end;
        for mask in self.masks.iter().filter(touches) {
            if priority != mask.priority {
                priority = mask.priority;
                words.extend([1, priority, 0]);
            }
            if colour != mask.colour {
                colour = mask.colour;
                match colour {
                    Colour::Ink => words.push(2),
                    Colour::Clear => words.push(3),
                    Colour::Opaque([low, high]) => words.extend([4, 0, low, high]),
                    Colour::Transparent([low, high]) => words.extend([4, 1, low, high]),
                }
            }
            words.extend(&mask.words);
        }
        words
    }
}
