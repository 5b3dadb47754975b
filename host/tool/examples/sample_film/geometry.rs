//! Places on the part and dots of the film.

use std::ops::Range;

pub const IMAGE_S_SIZE: u16 = 900;
pub const IMAGE_F_SIZE: u16 = 1200;
pub const DOTS_PER_INCH: u16 = 600;

/// Dots for each micrometre of the part.
pub const SCALE: f64 = DOTS_PER_INCH as f64 / 25_400.0 * 50.0;

/// The field within the frame: its dots, and its sides in micrometres.
pub const ROWS: Range<u16> = 92..801;
pub const COLUMNS: Range<u16> = 102..1106;
pub const WIDTH: f64 = 850.0;
pub const HEIGHT: f64 = 600.0;

/// A place on the part in micrometres, x to the right and y up from the field's lower left corner.
pub type Point = (f64, f64);

pub fn row(y: f64) -> u16 {
    (f64::from(ROWS.end) - y * SCALE).round() as u16
}

pub fn column(x: f64) -> u16 {
    (f64::from(COLUMNS.start) + x * SCALE).round() as u16
}

pub fn place(s: u16, f: u16) -> Point {
    let x = f64::from(f) - f64::from(COLUMNS.start);
    (x / SCALE, (f64::from(ROWS.end) - f64::from(s)) / SCALE)
}

pub fn distance(a: Point, b: Point) -> f64 {
    ((a.0 - b.0).powi(2) + (a.1 - b.1).powi(2)).sqrt()
}

/// The point a part of the way from one to another.
pub fn between(a: Point, b: Point, part: f64) -> Point {
    (a.0 + (b.0 - a.0) * part, a.1 + (b.1 - a.1) * part)
}

/// The point this far from another; the direction is in degrees from x toward y.
pub fn polar(from: Point, length: f64, degrees: f64) -> Point {
    let (sin, cos) = degrees.to_radians().sin_cos();
    (from.0 + length * cos, from.1 + length * sin)
}

/// The distance of a point from a line of segments.
pub fn to_line(p: Point, line: &[Point]) -> f64 {
    let to_segment = |ends: &[Point]| {
        let (a, b) = (ends[0], ends[1]);
        let product = (p.0 - a.0) * (b.0 - a.0) + (p.1 - a.1) * (b.1 - a.1);
        let part = product / distance(a, b).powi(2).max(1e-9);
        distance(p, between(a, b, part.clamp(0.0, 1.0)))
    };
    line.windows(2).map(to_segment).fold(f64::MAX, f64::min)
}

/// Whether a dot is on a line two dots wide, by its distance from the middle.
pub fn thin(distance: f64) -> bool {
    distance.abs() * SCALE <= 1.0
}
