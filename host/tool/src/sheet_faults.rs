//! What is wrong with a sheet that was refused, in words: the line of `check` and `draw`.
//!
//! Number and place are the proved library's. What follows the colon is worked out here from the
//! files, and no proof covers it.

use crate::english::{count, ordinal, pages_of_bands, thousands};
use crate::sheet::{locate, padding_bit, Herald, Spot, Words};
use printbox::film::BAND_BYTES;
use printbox::{Refusal, FILE_BYTES};

/// The line of a refused sheet, as `refused 7 at 14: unknown command code (page 0, band 0, first
/// command)`.
pub fn line(refusal: &Refusal, sheet: &[u8], load: &[u8]) -> String {
    let place = refusal.place as usize;
    let what = match refusal.number {
        1 => length(sheet, load),
        2 => no_sheet(sheet, place),
        3 => herald(sheet, place),
        4 => load_count(sheet, load),
        11 => no_page_or_band(sheet),
        12 => "the buffer is too short".to_string(),
        _ => walk(refusal.number, sheet, load, place),
    };
    format!("{refusal}: {what}")
}

/// Number 1. A file that is too long was not read to its end, so its length says nothing more.
fn length(sheet: &[u8], load: &[u8]) -> String {
    let limit = thousands(FILE_BYTES as u64);
    for (file, name) in [(sheet, "sheet"), (load, "load")] {
        if file.len() > FILE_BYTES {
            return format!("the {name} is longer than {limit} bytes");
        }
        if file.len() % 2 != 0 {
            return format!("the {name} has an odd number of bytes");
        }
    }
    "a length".to_string()
}

/// Number 2.
fn no_sheet(sheet: &[u8], place: usize) -> String {
    let words = Words(sheet);
    if words.len() < 12 {
        return format!("fewer than 12 words ({})", words.len());
    }
    let word = word(sheet, place);
    match place {
        0 => format!("the password is {word:04X} hex, and not AAAA"),
        _ => format!("the version is {word}, and not 1"),
    }
}

/// Number 3.
fn herald(sheet: &[u8], place: usize) -> String {
    let Some(herald) = Herald::of(sheet) else {
        return "the herald".to_string();
    };
    let (s, f, band) = (herald.image_s_size, herald.image_f_size, herald.band_s_size);
    match place {
        5 => format!("imageSSize is {s}, and not 1 to 32,768"),
        6 => format!("imageFSize is {f}, and not 1 to 32,768"),
        7 if band < 1 || band > s => {
            format!("bandSSize is {band}, and not 1 to {s}, the imageSSize")
        }
        7 => {
            let bytes = thousands((band * herald.row_bytes()) as u64);
            let limit = thousands(BAND_BYTES as u64);
            format!("the rows of a band take {bytes} bytes, more than {limit}")
        }
        _ => format!("copies is {}, and not at least 1", herald.copies),
    }
}

/// Number 4.
fn load_count(sheet: &[u8], load: &[u8]) -> String {
    let words = Words(load);
    let Some(counted) = words.long(0) else {
        return "the load has no whole count".to_string();
    };
    let there = words.len() - 2;
    if counted != there {
        let there = count(there, "word");
        return format!("the load's count is {counted}, and it has {there}");
    }
    let limit = Herald::of(sheet).map_or(0, |herald| herald.max_load_words);
    let there = count(there, "word");
    format!("the load has {there}, more than maxLoadWords, {limit}")
}

/// Number 11.
fn no_page_or_band(sheet: &[u8]) -> String {
    match Herald::of(sheet) {
        Some(herald) => {
            let there = pages_of_bands(herald.pages, herald.bands());
            format!("no such page or band (the sheet has {there})")
        }
        None => "no such page or band".to_string(),
    }
}

/// Numbers 5 to 10, 13 and 15, which the walk over pages and bands meets.
fn walk(number: u8, sheet: &[u8], load: &[u8], place: usize) -> String {
    let spot = locate(sheet, place);
    let what = match number {
        5 => count_of_pages_or_bands(sheet, place),
        6 => past_an_end(sheet, place, spot).to_string(),
        7 => "unknown command code".to_string(),
        8 => priority(sheet, place, spot),
        9 => past_the_load(sheet, load, place).to_string(),
        10 => "words after the last page".to_string(),
        13 => format!("the tile mode is {}, and not 0 or 1", word(sheet, place)),
        15 => padding(sheet, load, place),
        _ => "refused".to_string(),
    };
    match spot {
        None => what,
        Some(Spot::Page { page }) => format!("{what} (page {page})"),
        Some(Spot::Band { page, band }) => format!("{what} (page {page}, band {band})"),
        Some(Spot::Command {
            page,
            band,
            command,
            code,
            ..
        }) => {
            let command = ordinal(command);
            let argument = argument(number, place - code);
            format!("{what} (page {page}, band {band}, {command} command{argument})")
        }
    }
}

fn count_of_pages_or_bands(sheet: &[u8], place: usize) -> String {
    if place == 11 {
        return "the page count is 0".to_string();
    }
    let there = word(sheet, place);
    let wanted = Herald::of(sheet).map_or(0, Herald::bands);
    format!("the count of bands is {there}, and not {wanted}")
}

/// The word at a place; it is there, since the refusal names it.
fn word(sheet: &[u8], place: usize) -> usize {
    Words(sheet).word(place).unwrap_or(0)
}

fn past_an_end(sheet: &[u8], place: usize, spot: Option<Spot>) -> &'static str {
    let is_missing = place == Words(sheet).len();
    match spot {
        Some(Spot::Page { .. }) => "the page's count of bands is missing",
        Some(Spot::Band { .. }) if is_missing => "the band's count of words is missing",
        Some(Spot::Band { .. }) => "the band runs past the end of the sheet",
        _ => "the command runs past the end of its band",
    }
}

/// Number 8: its low word falls, or its high word is over the limit.
fn priority(sheet: &[u8], place: usize, spot: Option<Spot>) -> String {
    let Some(Spot::Command { code, priority, .. }) = spot else {
        return "a priority".to_string();
    };
    let value = thousands(Words(sheet).long(code + 1).unwrap_or(0) as u64);
    if place == code + 1 {
        let before = thousands(priority as u64);
        return format!("the priority falls from {before} to {value}");
    }
    format!("the priority is {value}, more than 16,777,215")
}

/// The name of the argument that a command is refused at, so many words after its code.
fn argument(number: u8, word: usize) -> &'static str {
    match (number, word) {
        (8, 1) => ", its low word",
        (8, 2) => ", its high word",
        (13, 1) => ", its mode",
        _ => "",
    }
}

fn past_the_load(sheet: &[u8], load: &[u8], code: usize) -> &'static str {
    let words = Words(sheet);
    match words.word(code) {
        Some(4) => {
            // Past the load's count: phase, sMin, fMin, and the sides.
            let sides = words.long(code + 2).and_then(|address| {
                let load = Words(load);
                Some((load.word(address + 5)?, load.word(address + 6)?))
            });
            match sides {
                Some((s_size, f_size)) if s_size == 0 || f_size == 0 => "tile with a side of 0",
                _ => "the tile runs past the load",
            }
        }
        Some(8) => "the run group runs past the load",
        _ => "the sample array runs past the load",
    }
}

/// Number 15: the first padding bit that is set, and the word that has it, as it is and as it has
/// to be. A word of the load is told by its address.
fn padding(sheet: &[u8], load: &[u8], code: usize) -> String {
    let words = Words(sheet);
    // The place of the array's sizes; an address counts after the two words of the load's count.
    let in_load = |address: usize, before: usize| 2 + words.long(address).unwrap_or(0) + before;
    let (what, file, sizes) = match words.word(code) {
        Some(4) => ("tile", Words(load), in_load(code + 2, 3)),
        Some(9) => ("sample array", words, code + 3),
        _ => ("sample array", Words(load), in_load(code + 1, 0)),
    };
    let Some(padding) = padding_bit(file, sizes) else {
        return "a padding bit is set".to_string();
    };
    let (line, bit, place) = (padding.line, padding.bit, padding.place);
    let named = match words.word(code) {
        Some(9) => format!("word {place}"),
        _ => format!("the word at load address {}", place - 2),
    };
    let dots = count(padding.dots, "dot");
    let (there, wanted) = (padding.word, padding.cleared);
    format!(
        "bit {bit} of line {line} of the {what} is set, after its {dots}: {named} is {there:04X} \
         hex, and has to be {wanted:04X}"
    )
}

#[cfg(test)]
mod tests {
    use super::*;
    use printbox::film;

    fn bytes(words: &[u16]) -> Vec<u8> {
        words.iter().flat_map(|word| word.to_be_bytes()).collect()
    }

    /// 4 lines of 16 dots in bands of 2, a load of up to 9 words, one page; its bands' words.
    const HERALD: [u16; 12] = [0xAAAA, 1, 0, 600, 600, 4, 16, 2, 9, 0, 1, 1];

    fn refused(sheet: &[u8], load: &[u8]) -> String {
        line(
            &film::check(sheet, load).expect_err("a refusal"),
            sheet,
            load,
        )
    }

    /// A sheet whose first band has these commands, with an empty load.
    fn commands(words: &[u16]) -> String {
        with_load(words, &[0, 0])
    }

    fn with_load(words: &[u16], load: &[u16]) -> String {
        let mut sheet = HERALD.to_vec();
        sheet.extend([2, words.len() as u16]);
        sheet.extend(words);
        sheet.push(0);
        refused(&bytes(&sheet), &bytes(load))
    }

    /// The herald with another word at a place, then an empty page.
    fn herald_with(place: usize, word: u16) -> String {
        let mut sheet = HERALD.to_vec();
        sheet.extend([2, 0, 0]);
        sheet[place] = word;
        refused(&bytes(&sheet), &[0; 4])
    }

    #[test]
    fn before_the_walk() {
        let sheet = bytes(&HERALD);
        let long = vec![0; FILE_BYTES + 1];
        assert_eq!(
            refused(&long, &[0; 4]),
            "refused 1 at 0: the sheet is longer than 16,777,216 bytes"
        );
        assert_eq!(
            refused(&sheet, &long),
            "refused 1 at 0: the load is longer than 16,777,216 bytes"
        );
        assert_eq!(
            refused(&sheet[1..], &[0; 4]),
            "refused 1 at 0: the sheet has an odd number of bytes"
        );
        assert_eq!(
            refused(&sheet, &[0; 5]),
            "refused 1 at 0: the load has an odd number of bytes"
        );
        assert_eq!(
            refused(&[], &[0; 4]),
            "refused 2 at 0: fewer than 12 words (0)"
        );
        assert_eq!(
            refused(&sheet[..22], &[0; 4]),
            "refused 2 at 0: fewer than 12 words (11)"
        );
        assert_eq!(
            herald_with(0, 0x55AA),
            "refused 2 at 0: the password is 55AA hex, and not AAAA"
        );
        assert_eq!(
            herald_with(1, 2),
            "refused 2 at 1: the version is 2, and not 1"
        );
        assert_eq!(
            herald_with(5, 0),
            "refused 3 at 5: imageSSize is 0, and not 1 to 32,768"
        );
        assert_eq!(
            herald_with(6, 32_769),
            "refused 3 at 6: imageFSize is 32769, and not 1 to 32,768"
        );
        assert_eq!(
            herald_with(7, 5),
            "refused 3 at 7: bandSSize is 5, and not 1 to 4, the imageSSize"
        );
        assert_eq!(
            herald_with(10, 0),
            "refused 3 at 10: copies is 0, and not at least 1"
        );
        let mut wide = HERALD;
        (wide[5], wide[6], wide[7]) = (17, 32_768, 17);
        assert_eq!(
            refused(&bytes(&wide), &[0; 4]),
            "refused 3 at 7: the rows of a band take 69,632 bytes, more than 65,536"
        );
    }

    #[test]
    fn loads() {
        let sheet = bytes(&HERALD);
        assert_eq!(
            refused(&sheet, &[]),
            "refused 4 at 8: the load has no whole count"
        );
        assert_eq!(
            refused(&sheet, &bytes(&[3, 0, 7])),
            "refused 4 at 8: the load's count is 3, and it has 1 word"
        );
        assert_eq!(
            refused(&sheet, &bytes(&[10, 0, 1, 2, 3, 4, 5, 6, 7, 8, 9, 10])),
            "refused 4 at 8: the load has 10 words, more than maxLoadWords, 9"
        );
    }

    #[test]
    fn pages_and_bands() {
        let page = |words: &[u16]| {
            let mut sheet = HERALD.to_vec();
            sheet.extend(words);
            refused(&bytes(&sheet), &[0; 4])
        };
        assert_eq!(herald_with(11, 0), "refused 5 at 11: the page count is 0");
        assert_eq!(
            page(&[3, 0, 0, 0]),
            "refused 5 at 12: the count of bands is 3, and not 2 (page 0)"
        );
        assert_eq!(
            page(&[]),
            "refused 6 at 12: the page's count of bands is missing (page 0)"
        );
        assert_eq!(
            page(&[2, 0]),
            "refused 6 at 14: the band's count of words is missing (page 0, band 1)"
        );
        assert_eq!(
            page(&[2, 0, 1]),
            "refused 6 at 14: the band runs past the end of the sheet (page 0, band 1)"
        );
        assert_eq!(
            page(&[2, 0, 0, 7, 7]),
            "refused 10 at 15: words after the last page"
        );
    }

    #[test]
    fn bad_commands() {
        for (words, expected) in [
            (&[11][..], "refused 7 at 14: unknown command code (page 0, band 0, first command)"),
            (&[2, 0], "refused 7 at 15: unknown command code (page 0, band 0, second command)"),
            (&[2, 5, 1], "refused 6 at 15: the command runs past the end of its band (page 0, band 0, second command)"),
            (&[1, 0, 256], "refused 8 at 16: the priority is 16,777,216, more than 16,777,215 (page 0, band 0, first command, its high word)"),
            (&[1, 1, 0, 1, 0, 0], "refused 8 at 18: the priority falls from 1 to 0 (page 0, band 0, second command, its low word)"),
            (&[1, 9, 0, 2, 1, 0, 1, 1, 65535, 0], "refused 8 at 22: the priority falls from 65,536 to 65,535 (page 0, band 0, fourth command, its low word)"),
            (&[4, 2, 0, 0], "refused 13 at 15: the tile mode is 2, and not 0 or 1 (page 0, band 0, first command, its mode)"),
            (&[3, 4, 65535, 0, 0], "refused 13 at 16: the tile mode is 65535, and not 0 or 1 (page 0, band 0, second command, its mode)"),
            (&[4, 0, 0, 0], "refused 9 at 14: the tile runs past the load (page 0, band 0, first command)"),
            (&[8, 0, 0, 0], "refused 9 at 14: the run group runs past the load (page 0, band 0, first command)"),
            (&[3, 10, 0, 0, 0, 0], "refused 9 at 15: the sample array runs past the load (page 0, band 0, second command)"),
        ] {
            assert_eq!(commands(words), expected);
        }
        // A priority that falls after one and an array of 29 words, where it was "8 at 51" once.
        let mut falling = vec![1, 9, 0, 9, 0, 0, 29, 16];
        falling.extend([0; 29]);
        falling.extend([1, 5, 0]);
        assert_eq!(
            commands(&falling),
            "refused 8 at 52: the priority falls from 9 to 5 (page 0, band 0, third command, its low word)"
        );
        // A tile that is whole but for its second line, and tiles with a side of 0.
        let first = "(page 0, band 0, first command)";
        assert_eq!(
            with_load(&[4, 0, 1, 0], &[7, 0, 9, 0, 0, 0, 2, 1, 0x8000]),
            format!("refused 9 at 14: the tile runs past the load {first}")
        );
        for sides in [[0, 1], [1, 0], [0, 0]] {
            let load = [7, 0, 9, 0, 0, 0, sides[0], sides[1], 0x8000];
            assert_eq!(
                with_load(&[4, 0, 1, 0], &load),
                format!("refused 9 at 14: tile with a side of 0 {first}")
            );
        }
    }

    /// The line, the bit and the word, in the sheet and in the load.
    #[test]
    fn padding_bits() {
        let first = "(page 0, band 0, first command)";
        assert_eq!(
            commands(&[9, 0, 0, 1, 4, 0xF001]),
            format!(
                "refused 15 at 14: bit 15 of line 0 of the sample array is set, after its 4 dots: \
                 word 19 is F001 hex, and has to be F000 {first}"
            )
        );
        assert_eq!(
            commands(&[2, 9, 0, 0, 2, 17, 0xFFFF, 0x8000, 0xFFFF, 0xC001]),
            "refused 15 at 15: bit 17 of line 1 of the sample array is set, after its 17 dots: \
             word 23 is C001 hex, and has to be 8000 (page 0, band 0, second command)"
        );
        assert_eq!(
            with_load(&[4, 0, 1, 0], &[7, 0, 9, 0, 0, 0, 1, 1, 0x4000]),
            format!(
                "refused 15 at 14: bit 1 of line 0 of the tile is set, after its 1 dot: the word \
                 at load address 6 is 4000 hex, and has to be 0000 {first}"
            )
        );
        assert_eq!(
            with_load(&[10, 1, 0, 0, 0], &[5, 0, 9, 2, 15, 0xFFFE, 0xFFFF]),
            format!(
                "refused 15 at 14: bit 15 of line 1 of the sample array is set, after its 15 dots: \
                 the word at load address 4 is FFFF hex, and has to be FFFE {first}"
            )
        );
    }

    #[test]
    fn draws() {
        let mut sheet = HERALD.to_vec();
        sheet.extend([2, 0, 0]);
        let sheet = bytes(&sheet);
        let refusal = film::draw(&sheet, &[0; 4], 0, 2, &mut [0; 64]).expect_err("no band 2");
        assert_eq!(
            line(&refusal, &sheet, &[0; 4]),
            "refused 11 at 0: no such page or band (the sheet has 1 page of 2 bands)"
        );
    }
}
