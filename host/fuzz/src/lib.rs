//! Coverage fuzzing: libFuzzer's bytes become calls of the library, each of which is held against
//! `reference`.
//!
//! The proved library is compiled as it is. What guides the fuzzer is the coverage of `reference`,
//! which is compiled with counters. Buffers are fenced, so that a read or a write past one stops
//! the program; a difference aborts it. libFuzzer keeps the input in both cases.

#[path = "../../tests/common/mod.rs"]
pub mod common;
pub mod film;
pub mod gdi;
pub mod strip;

use common::fenced::{FencedEnd, FencedStart};
use common::Call;
use std::slice;

/// The bytes of an input, taken one after the other. Where there are no more, they are 0.
pub struct Input<'a>(pub &'a [u8]);

impl<'a> Input<'a> {
    pub fn byte(&mut self) -> u8 {
        match self.0.split_first() {
            Some((&byte, rest)) => {
                self.0 = rest;
                byte
            }
            None => 0,
        }
    }

    pub fn word(&mut self) -> u16 {
        u16::from_be_bytes([self.byte(), self.byte()])
    }

    /// A number for a page, a band, a place or a width: a word; from FF00 on they stand for the
    /// greatest numbers.
    pub fn number(&mut self) -> usize {
        let word = usize::from(self.word());
        if word < 0xFF00 {
            word
        } else {
            usize::MAX - (0xFFFF - word)
        }
    }

    /// So many bytes, or all that are left.
    pub fn bytes(&mut self, length: usize) -> &'a [u8] {
        let (bytes, rest) = self.0.split_at(length.min(self.0.len()));
        self.0 = rest;
        bytes
    }
}

/// The word that [`Input::number`] takes for a number, where there is one.
pub fn number_word(number: usize) -> Option<[u8; 2]> {
    let word = match number {
        0..0xFF00 => number,
        _ if usize::MAX - number <= 0xFF => 0xFFFF - (usize::MAX - number),
        _ => return None,
    };
    Some((word as u16).to_be_bytes())
}

/// Makes a call with its buffers fenced at their start or at their end, and aborts where library and
/// `reference` do not agree on it.
pub fn hold(call: &Call, fenced_start: bool) {
    let agreed = if fenced_start {
        call.agreed_in::<FencedStart>()
    } else {
        call.agreed_in::<FencedEnd>()
    };
    if let Err(difference) = agreed {
        panic!("{difference}");
    }
}

/// The fuzzer's entry points, one for each target: `run` links one of them as
/// LLVMFuzzerTestOneInput.
macro_rules! targets {
    ($($name:ident: $function:path;)*) => {$(
        /// # Safety
        ///
        /// `data` has `size` bytes, as libFuzzer lends them.
        #[no_mangle]
        pub unsafe extern "C" fn $name(data: *const u8, size: usize) -> i32 {
            // SAFETY: as the caller promises; libFuzzer may lend a null pointer for no bytes.
            let bytes = if size == 0 { &[] } else { unsafe { slice::from_raw_parts(data, size) } };
            $function(bytes);
            0
        }
    )*};
}

targets! {
    fuzz_film_check: film::check;
    fuzz_film_draw: film::draw;
    fuzz_gdi_check: gdi::check;
    fuzz_gdi_read_line: gdi::read_line;
    fuzz_strip_receive: strip::receive;
}
