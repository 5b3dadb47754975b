//! Buffers that start or end at a page of memory which nobody may touch: where the library reads or
//! writes past them, the program stops with a fault. Known bytes show what is written; only this
//! shows what is read.

use super::guarded::{known, Memory, GUARD};
use std::cell::RefCell;
use std::ffi::{c_int, c_void};
use std::hint::black_box;
use std::ops::Range;
use std::{ptr, slice};

const PAGE: usize = 4096;

extern "C" {
    fn mmap(
        at: *mut c_void,
        length: usize,
        access: c_int,
        flags: c_int,
        file: c_int,
        offset: i64,
    ) -> *mut c_void;
    fn mprotect(at: *mut c_void, length: usize, access: c_int) -> c_int;
    fn munmap(at: *mut c_void, length: usize) -> c_int;
}

/// Pages of memory between two that nobody may touch.
struct Pages {
    start: *mut u8,
    length: usize,
}

impl Pages {
    fn new(length: usize) -> Pages {
        const READ_AND_WRITE: c_int = 1 | 2;
        const PRIVATE_AND_ANONYMOUS: c_int = 0x02 | 0x20;
        // SAFETY: a new mapping of no file, which touches no other memory; access is given to its
        // inner pages.
        unsafe {
            let all = mmap(
                ptr::null_mut(),
                length + 2 * PAGE,
                0,
                PRIVATE_AND_ANONYMOUS,
                -1,
                0,
            );
            assert!(all as isize != -1, "no memory for {length} bytes");
            let start = all.byte_add(PAGE);
            assert_eq!(
                mprotect(start, length, READ_AND_WRITE),
                0,
                "no access to {length} bytes"
            );
            Pages {
                start: start.cast(),
                length,
            }
        }
    }
}

impl Drop for Pages {
    fn drop(&mut self) {
        // SAFETY: the mapping that `new` made, which nothing refers to any more.
        unsafe { munmap(self.start.byte_sub(PAGE).cast(), self.length + 2 * PAGE) };
    }
}

thread_local! {
    /// Pages that serve again.
    static FREE: RefCell<Vec<Pages>> = const { RefCell::new(Vec::new()) };
}

/// A buffer in such pages: it ends at their last byte, or starts at their first.
pub struct Fenced<const AT_END: bool> {
    pages: Option<Pages>,
    buffer: Range<usize>,
    guard: Range<usize>,
}

/// A buffer after whose last byte nobody may read or write.
pub type FencedEnd = Fenced<true>;

/// A buffer before whose first byte nobody may read or write.
pub type FencedStart = Fenced<false>;

impl<const AT_END: bool> Fenced<AT_END> {
    fn pages(&self) -> (*mut u8, usize) {
        let pages = self
            .pages
            .as_ref()
            .expect("the pages are given back by drop alone");
        (pages.start, pages.length)
    }

    fn all(&self) -> &[u8] {
        let (start, length) = self.pages();
        // SAFETY: the pages may be read, were 0 at first, and are borrowed with self.
        unsafe { slice::from_raw_parts(start, length) }
    }

    fn all_mut(&mut self) -> &mut [u8] {
        let (start, length) = self.pages();
        // SAFETY: the pages may be written, were 0 at first, and are borrowed with self alone.
        unsafe { slice::from_raw_parts_mut(start, length) }
    }
}

impl<const AT_END: bool> Memory for Fenced<AT_END> {
    fn new(content: &[u8]) -> Self {
        let room = (content.len() + GUARD).next_multiple_of(PAGE);
        let free = FREE.with_borrow_mut(|free| {
            let fits = free.iter().position(|pages| pages.length == room);
            fits.map(|index| free.swap_remove(index))
        });
        let pages = free.unwrap_or_else(|| Pages::new(room));
        let from = if AT_END { room - content.len() } else { 0 };
        let to = from + content.len();
        let guard = if AT_END {
            from - GUARD..from
        } else {
            to..to + GUARD
        };
        let mut fenced = Fenced {
            pages: Some(pages),
            buffer: from..to,
            guard: guard.clone(),
        };
        fenced.all_mut()[from..to].copy_from_slice(content);
        for (place, byte) in fenced.all_mut()[guard].iter_mut().enumerate() {
            *byte = known(place);
        }
        fenced
    }

    fn lent(&mut self) -> &mut [u8] {
        let buffer = self.buffer.clone();
        &mut self.all_mut()[buffer]
    }

    fn content(&self) -> Result<&[u8], String> {
        let all = black_box(self.all());
        if !all[self.guard.clone()]
            .iter()
            .copied()
            .eq((0..GUARD).map(known))
        {
            return Err("the bytes beside a buffer were written".to_string());
        }
        Ok(&all[self.buffer.clone()])
    }
}

impl<const AT_END: bool> Drop for Fenced<AT_END> {
    fn drop(&mut self) {
        FREE.with_borrow_mut(|free| free.extend(self.pages.take()));
    }
}
