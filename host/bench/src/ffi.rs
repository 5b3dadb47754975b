//! The C functions of peers/ behind functions that lend slices, and the system's processor time. All
//! unsafe code of this program is here. build.rs compiles each file of peers/ whose package is
//! installed and sets a cfg for it.

#![allow(unsafe_code)]
// What a peer is given is made whether or not it is linked.
#![cfg_attr(not(all(peer_pixman, peer_tiff)), allow(dead_code))]

use crate::sheet::{Rectangle, Size};
use std::time::Duration;

/// The processor time of this process, and of those that it started and waited for; None where the
/// system's structures are not known here.
#[cfg(all(target_os = "linux", target_pointer_width = "64"))]
pub fn processor_time() -> Option<Duration> {
    const PROCESS_TIME: i32 = 2; // CLOCK_PROCESS_CPUTIME_ID
    const CHILDREN: i32 = -1; // RUSAGE_CHILDREN
    extern "C" {
        fn clock_gettime(clock: i32, time: *mut [i64; 2]) -> i32;
        fn getrusage(who: i32, usage: *mut [i64; 18]) -> i32;
    }
    let (mut own, mut children) = ([0; 2], [0; 18]);
    // SAFETY: on 64-bit Linux a `timespec` is two numbers of 64 bits and an `rusage` is 18; each call
    // writes the one that it is lent and keeps no pointer.
    let told = unsafe {
        (
            clock_gettime(PROCESS_TIME, &mut own),
            getrusage(CHILDREN, &mut children),
        )
    };
    if told != (0, 0) {
        return None;
    }
    // Seconds and nanoseconds; then the user's and the system's seconds and microseconds.
    let [seconds, nanoseconds] = own.map(|number: i64| number.unsigned_abs());
    let own = Duration::from_secs(seconds) + Duration::from_nanos(nanoseconds);
    let children: [u64; 18] = children.map(|number: i64| number.unsigned_abs());
    let seconds = Duration::from_secs(children[0] + children[2]);
    Some(own + seconds + Duration::from_micros(children[1] + children[3]))
}

#[cfg(not(all(target_os = "linux", target_pointer_width = "64")))]
pub fn processor_time() -> Option<Duration> {
    None
}

/// A page of pixman: for each row its dots in words of 32, rounded up.
pub struct Bits {
    size: Size,
    words: Vec<u32>,
}

impl Bits {
    pub fn new(size: Size) -> Bits {
        let words = vec![0; Bits::stride(size) * size.height];
        Bits { size, words }
    }

    /// The words of a row.
    fn stride(size: Size) -> usize {
        size.width.div_ceil(32)
    }

    pub fn size(&self) -> Size {
        self.size
    }

    pub fn rows(&self) -> impl Iterator<Item = &[u32]> {
        self.words.chunks_exact(Bits::stride(self.size))
    }
}

/// Rectangles that lie within a page of this size: x, y, width and height.
pub struct Rectangles {
    size: Size,
    list: Vec<[i32; 4]>,
}

impl Rectangles {
    pub fn new(size: Size, list: &[Rectangle]) -> Rectangles {
        let list = list.iter().map(|mask| {
            let right = usize::from(mask.f_min) + usize::from(mask.f_size);
            let bottom = usize::from(mask.s_min) + usize::from(mask.s_size);
            assert!(
                right <= size.width && bottom <= size.height,
                "pixman's fill would write outside of the page: {mask:?}"
            );
            [mask.f_min, mask.s_min, mask.f_size, mask.s_size].map(i32::from)
        });
        let list = list.collect();
        Rectangles { size, list }
    }
}

#[cfg(any(peer_pixman, peer_tiff))]
mod c {
    #[cfg(peer_pixman)]
    extern "C" {
        pub fn bench_pixman_rectangles(
            bits: *mut u32,
            stride: i32,
            height: i32,
            list: *const [i32; 4],
            count: usize,
        ) -> i32;
        pub fn bench_pixman_trapezoids(
            bits: *mut u32,
            stride: i32,
            width: i32,
            height: i32,
            list: *const [i32; 10],
            count: usize,
        ) -> i32;
    }

    #[cfg(peer_tiff)]
    extern "C" {
        pub fn bench_tiff_write(
            rows: *mut u8,
            width: u32,
            height: u32,
            file: *mut u8,
            room: usize,
        ) -> usize;
        pub fn bench_tiff_read(
            file: *mut u8,
            length: usize,
            width: u32,
            height: u32,
            rows: *mut u8,
        ) -> i32;
    }

    /// A side of a page as C has it.
    pub fn side<T: TryFrom<usize>>(number: usize) -> T {
        match T::try_from(number) {
            Ok(side) => side,
            Err(_) => panic!("no page has a side of {number}"),
        }
    }
}

/// Clears the page and fills the rectangles on it.
#[cfg(peer_pixman)]
pub fn pixman_rectangles(bits: &mut Bits, rectangles: &Rectangles) {
    assert_eq!(bits.size, rectangles.size, "the page they lie within");
    let (size, list) = (bits.size, &rectangles.list);
    // SAFETY: `bits` has stride times height words, which its constructor made and nobody changes,
    // and every rectangle lies within them, as the list's constructor asserts. The list is only
    // read, and no pointer is kept.
    let done = unsafe {
        c::bench_pixman_rectangles(
            bits.words.as_mut_ptr(),
            c::side(Bits::stride(size)),
            c::side(size.height),
            list.as_ptr(),
            list.len(),
        )
    };
    assert_eq!(done, 1, "pixman fills 1-bit rectangles");
}

/// Clears the page and draws the trapezoids on it. Each is ten numbers in 16.16 fixed point: top and
/// bottom, then two points of the left edge and two of the right one, x and y.
#[cfg(peer_pixman)]
pub fn pixman_trapezoids(bits: &mut Bits, list: &[[i32; 10]]) {
    let size = bits.size;
    // SAFETY: `bits` has stride times height words, and pixman clips trapezoids to the image, which
    // is made with that stride and height. A trapezoid is ten numbers in pixman too, which
    // peers/pixman.c asserts. The list is only read, and no pointer is kept.
    let done = unsafe {
        c::bench_pixman_trapezoids(
            bits.words.as_mut_ptr(),
            c::side(Bits::stride(size)),
            c::side(size.width),
            c::side(size.height),
            list.as_ptr(),
            list.len(),
        )
    };
    assert_eq!(done, 1, "pixman draws 1-bit trapezoids");
}

/// Writes the rows of a page as a TIFF file and answers its length. libtiff does not promise to
/// leave the rows as they are, so they are lent mutably.
#[cfg(peer_tiff)]
pub fn tiff_write(size: Size, rows: &mut [u8], file: &mut [u8]) -> usize {
    let row_bytes = printbox::gdi::row_bytes(size.width);
    assert_eq!(rows.len(), row_bytes * size.height, "the page's rows");
    // SAFETY: `rows` has height rows of (width + 7) / 8 bytes, and libtiff is given one of them at a
    // time; peers/tiff.c writes the file within its room alone. No pointer is kept.
    let length = unsafe {
        c::bench_tiff_write(
            rows.as_mut_ptr(),
            c::side(size.width),
            c::side(size.height),
            file.as_mut_ptr(),
            file.len(),
        )
    };
    assert_ne!(length, 0, "libtiff writes the page");
    length
}

/// Reads such a file into the rows of a page. libtiff maps the file as memory that could be written,
/// so it is lent mutably.
#[cfg(peer_tiff)]
pub fn tiff_read(size: Size, file: &mut [u8], rows: &mut [u8]) {
    let row_bytes = printbox::gdi::row_bytes(size.width);
    assert_eq!(rows.len(), row_bytes * size.height, "the page's rows");
    // SAFETY: the file is lent with its length. `rows` has height rows of (width + 7) / 8 bytes, and
    // peers/tiff.c reads no file whose width, height or bytes of a row are others. No pointer is
    // kept.
    let done = unsafe {
        c::bench_tiff_read(
            file.as_mut_ptr(),
            file.len(),
            c::side(size.width),
            c::side(size.height),
            rows.as_mut_ptr(),
        )
    };
    assert_eq!(done, 1, "libtiff reads the page");
}

#[cfg(not(peer_pixman))]
pub fn pixman_rectangles(_: &mut Bits, _: &Rectangles) {
    unreachable!("pixman is not linked");
}

#[cfg(not(peer_pixman))]
pub fn pixman_trapezoids(_: &mut Bits, _: &[[i32; 10]]) {
    unreachable!("pixman is not linked");
}

#[cfg(not(peer_tiff))]
pub fn tiff_write(_: Size, _: &mut [u8], _: &mut [u8]) -> usize {
    unreachable!("libtiff is not linked");
}

#[cfg(not(peer_tiff))]
pub fn tiff_read(_: Size, _: &mut [u8], _: &mut [u8]) {
    unreachable!("libtiff is not linked");
}
