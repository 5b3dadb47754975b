//! The commands of a band, each taken only whole.

use crate::words::{Group, Samples, Words};
use crate::{refuse, Refusal};

/// A mask: the dots that a command may change.
#[derive(Clone, Copy)]
pub enum Mask<'a> {
    Rectangle {
        s_min: u16,
        s_size: u16,
        f_min: u16,
        f_size: u16,
    },
    Trapezoid {
        s_min: u16,
        s_size: u16,
        f_min: u16,
        f_size: u16,
        f_min_last: u16,
        f_size_last: u16,
    },
    Runs {
        s_min: u16,
        group: Group<'a>,
    },
    Samples {
        s_min: u16,
        f_min: u16,
        samples: Samples<'a>,
    },
}

/// "A tile is phase, sMin, fMin, sample array."
#[derive(Clone, Copy)]
pub struct Tile<'a> {
    pub phase: u16,
    pub s_min: u16,
    pub f_min: u16,
    pub samples: Samples<'a>,
}

/// A whole command.
#[derive(Clone, Copy)]
pub enum Command<'a> {
    Priority(u32),
    Ink,
    Clear,
    Tile { transparent: bool, tile: Tile<'a> },
    Mask(Mask<'a>),
}

/// The words that follow the code, without a run group or an array of the sheet.
fn argument_words(code: u16) -> Option<u64> {
    match code {
        1 => Some(2),
        2 | 3 => Some(0),
        4 => Some(3),
        5 => Some(4),
        6 => Some(6),
        7 => Some(1),
        8 => Some(3),
        9 => Some(2),
        10 => Some(4),
        _ => None,
    }
}

/// The tile at an address, if it is whole in the load and has no side of 0.
fn tile_at(load: Words, address: u32) -> Option<Tile> {
    let address = u64::from(address);
    let (samples, _) = Samples::read(load, address + 3)?;
    if samples.s_size == 0 || samples.f_size == 0 {
        return None;
    }
    Some(Tile {
        phase: load.at(address)?,
        s_min: load.at(address + 1)?,
        f_min: load.at(address + 2)?,
        samples,
    })
}

/// The command at a place of a band that ends at `end`, and the place after it.
/// `load` is the load's words after its count. "In one command 7, 6, 8, 9", 13 "where 8 stood in
/// the order", and 15 "last in one command after 9"; 7, 6, 9 and 15 at the code, the others at "the
/// argument word at fault".
pub fn read<'a>(
    sheet: Words<'a>,
    load: Words<'a>,
    place: u64,
    end: u64,
    priority: u32,
) -> Result<(Command<'a>, u64), Refusal> {
    // A command may not be read past its band.
    let band = sheet.before(end);
    let Some(code) = band.at(place) else {
        return refuse(6, place);
    };
    let Some(words) = argument_words(code) else {
        return refuse(7, place);
    };
    let arguments_end = place + 1 + words;
    if arguments_end > band.count() {
        return refuse(6, place);
    }
    // Every argument is there by now; `cut` only answers what cannot happen.
    let cut = Refusal { number: 6, place };
    let past_load = Refusal { number: 9, place };
    let argument = |i: u64| band.at(place + 1 + i).ok_or(cut);
    let long = |i: u64| band.long_at(place + 1 + i).ok_or(cut);
    let padded = |samples: Samples| {
        if samples.is_padded_with_zeros() {
            Ok(())
        } else {
            refuse(15, place)
        }
    };
    let whole = |command| Ok((command, arguments_end));
    match code {
        1 => {
            let new = long(0)?;
            let (low_word, high_word) = (place + 1, place + 2);
            if new >> 16 > 255 {
                return refuse(8, high_word);
            }
            if new < priority {
                return refuse(8, low_word);
            }
            whole(Command::Priority(new))
        }
        2 => whole(Command::Ink),
        3 => whole(Command::Clear),
        4 => {
            let mode = argument(0)?;
            if mode > 1 {
                return refuse(13, place + 1);
            }
            let tile = tile_at(load, long(1)?).ok_or(past_load)?;
            padded(tile.samples)?;
            whole(Command::Tile {
                transparent: mode == 1,
                tile,
            })
        }
        5 => whole(Command::Mask(Mask::Rectangle {
            s_min: argument(0)?,
            s_size: argument(1)?,
            f_min: argument(2)?,
            f_size: argument(3)?,
        })),
        6 => whole(Command::Mask(Mask::Trapezoid {
            s_min: argument(0)?,
            s_size: argument(1)?,
            f_min: argument(2)?,
            f_size: argument(3)?,
            f_min_last: argument(4)?,
            f_size_last: argument(5)?,
        })),
        7 => {
            let s_min = argument(0)?;
            let (group, next) = Group::read(band, place + 2).ok_or(cut)?;
            Ok((Command::Mask(Mask::Runs { s_min, group }), next))
        }
        8 => {
            let (group, _) = Group::read(load, u64::from(long(0)?)).ok_or(past_load)?;
            let s_min = argument(2)?;
            whole(Command::Mask(Mask::Runs { s_min, group }))
        }
        9 => {
            let (s_min, f_min) = (argument(0)?, argument(1)?);
            let (samples, next) = Samples::read(band, place + 3).ok_or(cut)?;
            padded(samples)?;
            let mask = Mask::Samples {
                s_min,
                f_min,
                samples,
            };
            Ok((Command::Mask(mask), next))
        }
        10 => {
            let (samples, _) = Samples::read(load, u64::from(long(0)?)).ok_or(past_load)?;
            padded(samples)?;
            whole(Command::Mask(Mask::Samples {
                s_min: argument(2)?,
                f_min: argument(3)?,
                samples,
            }))
        }
        _ => refuse(7, place),
    }
}

/// All commands of the band whose words stand from `place` up to `end`, or the first fault.
/// "Each band begins with ... priority 0. Priority may not fall within a band."
/// `each` is shown every command in order.
pub fn read_band<'a>(
    sheet: Words<'a>,
    load: Words<'a>,
    mut place: u64,
    end: u64,
    mut each: impl FnMut(Command<'a>),
) -> Result<(), Refusal> {
    let mut priority = 0;
    while place < end {
        let (command, next) = read(sheet, load, place, end, priority)?;
        if let Command::Priority(new) = command {
            priority = new;
        }
        each(command);
        place = next;
    }
    Ok(())
}
