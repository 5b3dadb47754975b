//! Writes a sample strip: a pocket gauge's protocol of 25 pallet stones, as a PGM picture.
//!
//!     cargo run -p printbox-tool --example sample_strip -- strip.pgm
//!
//! The dial shows the last stone; a stone passes in the light part of its ring. Below it is how many
//! stones have each deviation.

use std::f64::consts::PI;
use std::ops::Range;
use std::{env, fs, process};

const WIDTH: usize = 160;
const HEIGHT: usize = 200;

/// By how much each stone is thicker than its nominal size, in tenths of a micrometre.
const STONES: [i32; 25] = [
    12, 31, -8, 45, 22, 7, 64, 38, -21, 19, 51, 28, 3, 36, 83, 26, -42, 41, 15, 112, 33, 9, 57, 24,
    34,
];

/// A stone passes within this deviation.
const TOLERANCE: i32 = 100;

/// Letters of 5 dots by 7, each row a digit of base 32.
const GLYPHS: &str = "\
    0 ehjlphe; 1 4c4444e; 2 eh168gv; 3 u11e11u; 4 26aiv22; 5 vgu11he; 6 68guhhe; 7 v124888;
    8 ehhehhe; 9 ehhf12c; A ehhvhhh; C ehggghe; D uhhhhhu; E vgguggv; F vgguggg; G ehgnhhf;
    H hhhvhhh; I e44444e; K hikokih; L ggggggv; M hrllhhh; N hpljhhh; O ehhhhhe; P uhhuggg;
    R uhhukih; S fgge11u; T v444444; U hhhhhhe; X hha4ahh; µ 00iiitg; m 00qllll; + 044v440;
    - 000v000; ± 44v440v; . 00000cc";

/// A place on the strip in dots, to the right and down.
type Point = (f64, f64);

fn distance(a: Point, b: Point) -> f64 {
    (a.0 - b.0).hypot(a.1 - b.1)
}

/// The strip: a shade for each dot, 0 for white to 3 for black.
struct Strip([[u8; WIDTH]; HEIGHT]);

impl Strip {
    /// Paints a shade where a rule covers a dot, in part where it covers it in part.
    fn paint(&mut self, shade: u8, cover: impl Fn(Point) -> f64) {
        for (y, row) in self.0.iter_mut().enumerate() {
            for (x, dot) in row.iter_mut().enumerate() {
                let part = cover((x as f64 + 0.5, y as f64 + 0.5)).clamp(0.0, 1.0);
                let mixed = f64::from(*dot) * (1.0 - part) + f64::from(shade) * part;
                *dot = mixed.round() as u8;
            }
        }
    }

    fn rectangle(&mut self, shade: u8, columns: Range<usize>, rows: Range<usize>) {
        for row in &mut self.0[rows] {
            row[columns.clone()].fill(shade);
        }
    }

    /// A line from one point to another, this wide at each of them.
    fn line(&mut self, shade: u8, ends: [Point; 2], widths: [f64; 2]) {
        let [a, b] = ends;
        let length = distance(a, b);
        self.paint(shade, |p| {
            let product = (p.0 - a.0) * (b.0 - a.0) + (p.1 - a.1) * (b.1 - a.1);
            let part = (product / length.powi(2)).clamp(0.0, 1.0);
            let near = (a.0 + part * (b.0 - a.0), a.1 + part * (b.1 - a.1));
            let width = widths[0] + part * (widths[1] - widths[0]);
            width / 2.0 + 0.5 - distance(p, near)
        });
    }

    /// A text with its left end (0), middle (0.5) or right end (1) at a place.
    fn text(&mut self, shade: u8, scale: usize, at: (usize, usize), end: f64, text: &str) {
        let width = scale * (6 * text.chars().count() - 1);
        let mut left = at.0 - (width as f64 * end) as usize;
        for letter in text.chars() {
            let glyphs = GLYPHS.split(';').map(|glyph| glyph.trim().split_once(' '));
            let glyph = glyphs.flatten().find(|(name, _)| name.chars().eq([letter]));
            let rows = glyph.map_or("", |(_, rows)| rows);
            for (y, row) in rows.chars().enumerate() {
                let bits = row.to_digit(32).expect("a digit of base 32");
                for x in (0..5).filter(|x| bits >> (4 - x) & 1 == 1) {
                    let (left, top) = (left + scale * x, at.1 + scale * y);
                    self.rectangle(shade, left..left + scale, top..top + scale);
                }
            }
            left += 6 * scale;
        }
    }

    /// A dial from -15 to +15 micrometres, 9 degrees for each, with 0 at its top.
    fn dial(&mut self, centre: Point, radius: f64, reading: i32) {
        let at = |tenths: i32, radius: f64| {
            let (sin, cos) = (f64::from(tenths) * 0.9 * PI / 180.0).sin_cos();
            (centre.0 + radius * sin, centre.1 - radius * cos)
        };
        let ring = |inner: f64, outer: f64, p: Point| {
            let away = distance(p, centre);
            (away - inner + 0.5).min(outer - away + 0.5)
        };
        let within = |tenths: i32, p: Point| {
            let angle = (p.0 - centre.0).atan2(centre.1 - p.1).abs();
            // In dots along the ring.
            (f64::from(tenths) * 0.9 * PI / 180.0 - angle) * distance(p, centre) + 0.5
        };
        let zone = (radius - 13.0, radius - 8.0);
        self.paint(3, |p| ring(radius - 1.5, radius, p));
        self.paint(2, |p| ring(zone.0, zone.1, p).min(within(150, p)));
        self.paint(1, |p| ring(zone.0, zone.1, p).min(within(TOLERANCE, p)));
        for tenths in (-150..=150).step_by(10) {
            let (inner, width) = match tenths % 50 {
                0 => (radius - 8.0, 1.5),
                _ => (radius - 5.5, 0.9),
            };
            let ends = [at(tenths, inner), at(tenths, radius - 2.0)];
            self.line(3, ends, [width; 2]);
        }
        for (tenths, text) in [(-100, "10"), (0, "0"), (100, "10")] {
            let (x, y) = at(tenths, radius - 21.0);
            self.text(2, 1, (x.round() as usize, y as usize - 3), 0.5, text);
        }
        let below = (centre.0 as usize, centre.1 as usize + 16);
        self.text(2, 1, below, 0.5, "µm");
        let ends = [at(reading, -9.0), at(reading, radius - 5.0)];
        self.line(3, ends, [3.0, 0.6]);
        self.paint(3, |p| 4.5 - distance(p, centre));
        self.paint(0, |p| 1.7 - distance(p, centre));
    }

    /// How many stones have each deviation, in whole micrometres from -12 to 12, between the limits.
    fn histogram(&mut self, left: usize, floor: usize) {
        const STEP: usize = 5;
        let column = |micrometres: i32| left + STEP * (micrometres + 12) as usize;
        let height = 50;
        let limit = TOLERANCE / 10;
        let zone = column(-limit)..column(limit) + STEP;
        self.rectangle(1, zone.clone(), floor - height..floor);
        for side in [zone.start, zone.end] {
            self.rectangle(3, side - 1..side + 1, floor - height - 3..floor);
        }
        let passed = STONES.iter().filter(|stone| stone.abs() <= TOLERANCE);
        let passed = passed.count();
        let text = (zone.start + 4, floor - height + 3);
        self.text(3, 1, text, 0.0, &format!("{passed} PASSED"));
        let out = format!("{} OUT", STONES.len() - passed);
        self.text(3, 1, (text.0, text.1 + 10), 0.0, &out);
        for micrometres in -12..=12 {
            let here = |stone: &&i32| (f64::from(**stone) / 10.0).round() as i32 == micrometres;
            let stones = STONES.iter().filter(here).count();
            let top = floor - 9 * stones;
            let left = column(micrometres);
            if stones > 0 {
                self.rectangle(3, left..left + STEP, top..floor);
            }
            if stones > 0 && micrometres.abs() <= limit {
                self.rectangle(2, left + 1..left + STEP - 1, top + 1..floor);
            }
            if micrometres % 5 == 0 {
                self.rectangle(3, left + 2..left + 3, floor..floor + 4);
            }
        }
        self.rectangle(3, left - 4..left + STEP * 25 + 4, floor..floor + 1);
        for (micrometres, text) in [(-10, "-10"), (-5, "-5"), (0, "0"), (5, "+5"), (10, "+10")] {
            self.text(3, 1, (column(micrometres) + 3, floor + 6), 0.5, text);
        }
    }
}

/// Tenths as a number with its sign.
fn signed(tenths: i32) -> String {
    format!("{:+.1}", f64::from(tenths) / 10.0)
}

fn protocol() -> Strip {
    let mut strip = Strip([[0; WIDTH]; HEIGHT]);
    strip.rectangle(3, 0..WIDTH, 0..20);
    strip.text(0, 2, (80, 3), 0.5, "PALLET STONE");
    strip.text(3, 1, (3, 24), 0.0, "THICKNESS");
    strip.text(3, 1, (157, 24), 1.0, "420 ±10 µm");
    strip.rectangle(1, 0..WIDTH, 34..35);

    let last = STONES[STONES.len() - 1];
    strip.dial((44.0, 79.0), 41.0, last);
    let mean = STONES.iter().sum::<i32>() as f64 / STONES.len() as f64;
    let least = STONES.iter().min().expect("a stone");
    let greatest = STONES.iter().max().expect("a stone");
    strip.text(3, 2, (157, 42), 1.0, &signed(last));
    for (y, name, value) in [
        (66, "MEAN", signed(mean.round() as i32)),
        (78, "MIN", signed(*least)),
        (90, "MAX", signed(*greatest)),
        (102, "N", STONES.len().to_string()),
    ] {
        strip.text(2, 1, (94, y), 0.0, name);
        strip.text(3, 1, (157, y), 1.0, &value);
    }

    strip.rectangle(1, 0..WIDTH, 124..125);
    strip.histogram(18, 182);
    strip
}

fn main() {
    let paths: Vec<String> = env::args().skip(1).collect();
    let [path] = &paths[..] else {
        eprintln!("usage: sample_strip PICTURE");
        process::exit(2);
    };
    let mut picture = format!("P5\n{WIDTH} {HEIGHT}\n255\n").into_bytes();
    let greys = protocol()
        .0
        .into_iter()
        .flatten()
        .map(|shade| 255 - 85 * shade);
    picture.extend(greys);
    if let Err(error) = fs::write(path, picture) {
        eprintln!("sample_strip: {path}: {error}");
        process::exit(2);
    }
}
