//! What the linked peers are given, and their pages in the film's form.

use crate::ffi::Bits;
use crate::sheet::{Size, Trapezoid};

/// The version of pixman, where it is linked.
#[cfg(peer_pixman)]
pub const PIXMAN: Option<&str> = Some(env!("PEER_PIXMAN_VERSION"));
#[cfg(not(peer_pixman))]
pub const PIXMAN: Option<&str> = None;

/// The version of libtiff, where it is linked.
#[cfg(peer_tiff)]
pub const LIBTIFF: Option<&str> = Some(env!("PEER_TIFF_VERSION"));
#[cfg(not(peer_tiff))]
pub const LIBTIFF: Option<&str> = None;

/// A page of pixman as rows of a film. In its native words dot 0 is the low bit on little-endian
/// machines, the high bit on others.
pub fn film_rows(bits: &Bits) -> Vec<u8> {
    let row_bytes = bits.size().row_bytes();
    let order = |byte: u8| {
        if cfg!(target_endian = "little") {
            byte.reverse_bits()
        } else {
            byte
        }
    };
    bits.rows()
        .flat_map(|row| {
            let bytes = row.iter().flat_map(|word| word.to_ne_bytes());
            bytes.take(row_bytes).map(order)
        })
        .collect()
}

/// Where the corners of a trapezoid are put.
#[derive(Clone, Copy, Debug, PartialEq, Eq)]
pub enum Corners {
    /// Half a dot right and down of the film's numbers.
    Moved,
    /// The film's numbers as they stand.
    Plain,
}

/// Trapezoids as pixman takes them, in 16.16 fixed point.
///
/// A dot of pixman is a square that is inked where its middle is within; a dot of a film is a point.
/// Moved by half a dot, the film's points are the middles. Top and bottom stay: they say which lines
/// there are.
pub fn pixman_trapezoids(list: &[Trapezoid], corners: Corners) -> Vec<[i32; 10]> {
    let half = match corners {
        Corners::Moved => 1 << 15,
        Corners::Plain => 0,
    };
    let fixed = |number: i32| {
        assert!(
            number < 1 << 15,
            "{number} is over pixman's greatest number"
        );
        number << 16
    };
    let corner = |number: i32| fixed(number) + half;
    let trapezoid = |mask: &Trapezoid| {
        let (s, lines) = (i32::from(mask.s_min), i32::from(mask.s_size));
        let (f, dots) = (i32::from(mask.f_min), i32::from(mask.f_size));
        let (f_last, dots_last) = (i32::from(mask.f_min_last), i32::from(mask.f_size_last));
        let (first, last) = (corner(s), corner(s + lines - 1));
        let left = [corner(f), first, corner(f_last), last];
        let right = [corner(f + dots), first, corner(f_last + dots_last), last];
        let mut numbers = [fixed(s), fixed(s + lines), 0, 0, 0, 0, 0, 0, 0, 0];
        numbers[2..6].copy_from_slice(&left);
        numbers[6..].copy_from_slice(&right);
        numbers
    };
    list.iter().map(trapezoid).collect()
}

/// A length of file that is enough for every page of these rows: a dot has at most 8 bits of code,
/// and each line an end of line.
pub fn tiff_room(size: Size, rows: &[u8]) -> usize {
    rows.len() * 8 + size.height * 4 + 65_536
}
