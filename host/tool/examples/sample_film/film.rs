//! What both pages have: zones, datum, labels and frame.

use crate::font::Font;
use crate::geometry::{column, distance, place, polar, row, thin, to_line, Point};
use crate::geometry::{COLUMNS, HEIGHT, ROWS, WIDTH};
use crate::load::{runs, Load};
use crate::page::{Colour, Page};

/// By how much a part may be larger or smaller, in micrometres.
const TOLERANCE: f64 = 10.0;

/// What the pages share: the load and what it holds for both.
pub struct Film {
    pub load: Load,
    title: Font,
    label: Font,
}

impl Film {
    pub fn new() -> Film {
        let mut load = Load::default();
        Film {
            title: Font::new(&mut load, 2.0, 2.0),
            label: Font::new(&mut load, 1.0, 1.5),
            load,
        }
    }

    /// Adds the field's dots that a rule picks, as a run group of the load.
    pub fn runs(&mut self, page: &mut Page, rule: impl Fn(Point) -> bool) {
        let (s_min, group) = runs(ROWS, COLUMNS, rule);
        page.runs_from_load(s_min, self.load.store(group[0], &group));
    }

    /// A part's zones, each to be painted over the one outside of it: the colour, and how far it
    /// reaches beyond the nominal outline.
    pub fn zones(&mut self, hatch: [u8; 8]) -> [(Colour, f64); 5] {
        let limit = TOLERANCE + 2.5;
        let stipple = self.load.tile([0x80, 0, 0, 0, 0x08, 0, 0, 0]);
        let hatch = self.load.tile(hatch);
        [
            (Colour::Transparent(stipple), TOLERANCE + 50.0),
            (Colour::Ink, limit),
            (Colour::Opaque(hatch), TOLERANCE),
            (Colour::Ink, -TOLERANCE),
            (Colour::Clear, -limit),
        ]
    }

    /// A circle around the datum, which is the locking corner, and an angle at it.
    pub fn datum(&mut self, page: &mut Page, corner: Point, from: f64, degrees: f64) {
        self.runs(page, |p| thin(distance(p, corner) - 50.0));
        let along = |part: f64| polar(corner, 220.0, from - part * degrees);
        let arc = [0.0, 0.25, 0.5, 0.75, 1.0].map(along);
        self.runs(page, |p| thin(to_line(p, &arc)));
        let (s, f) = (row(arc[0].1) - 9, column(arc[0].0) + 18);
        page.text(&self.label, s, f, 0.0, &format!("{degrees}°"));
    }

    /// The size of the tolerance on a shelf, and a leader from there down to a dot in the zone.
    pub fn leader(&mut self, page: &mut Page, shelf: f64, knee: Point, zone: Point) {
        self.runs(page, |p| distance(p, zone) <= 4.0);
        page.line(knee, zone);
        page.line((shelf, knee.1), (shelf + 95.0, knee.1));
        let (s, f) = (row(knee.1) - 26, column(shelf + 47.5));
        page.text(&self.label, s, f, 0.5, &format!("±{TOLERANCE} µm"));
    }

    /// Registration marks, frame, graduation, titles, and bars of 1 to 4 dots to focus on.
    pub fn frame(&self, page: &mut Page, title: &str, number: &str) {
        page.priority = 2;
        for (s, f) in [(36, 36), (36, 1164), (864, 36), (864, 1164)] {
            let circle = |p| thin(distance(p, place(s, f)) - 12.0);
            let (s_min, group) = runs(s - 20..s + 20, f - 20..f + 20, circle);
            page.runs(s_min, &group);
            page.rectangle(s - 1..s + 1, f - 24..f + 24);
            page.rectangle(s - 24..s + 24, f - 1..f + 1);
        }
        let (top, bottom) = (ROWS.start - 3, ROWS.end + 3);
        let (left, right) = (COLUMNS.start - 3, COLUMNS.end + 3);
        page.rectangle(top..ROWS.start, left..right);
        page.rectangle(ROWS.end..bottom, left..right);
        page.rectangle(ROWS, left..COLUMNS.start);
        page.rectangle(ROWS, COLUMNS.end..right);
        for um in (0..=WIDTH as u16).step_by(10) {
            let (s, f) = (row(um.into()), column(um.into()));
            let tick = match um % 100 {
                0 => 18,
                50 => 13,
                _ => 8,
            };
            page.rectangle(top - tick..top, f - 1..f + 1);
            page.rectangle(bottom..bottom + tick, f - 1..f + 1);
            let text = if um % 100 == 0 {
                um.to_string()
            } else {
                String::new()
            };
            page.text(&self.label, bottom + 23, f, 0.5, &text);
            if um <= HEIGHT as u16 {
                page.rectangle(s - 1..s + 1, left - tick..left);
                page.rectangle(s - 1..s + 1, right..right + tick);
                page.text(&self.label, s - 9, left - 25, 1.0, &text);
            }
        }
        page.text(&self.label, bottom + 23, COLUMNS.end, 0.5, "µm");
        page.text(&self.label, 864, left, 0.0, "×50  DOT 0.85 µm");
        page.text(&self.title, 26, left, 0.0, title);
        page.text(&self.title, 26, right, 1.0, number);
        let bars = [0xAAAA, 0, 0xCCCC, 0, 0xE38E, 0, 0xF0F0].repeat(19);
        page.samples(864, right - 112, &[&[19, 112], &bars[..]].concat());
    }
}
