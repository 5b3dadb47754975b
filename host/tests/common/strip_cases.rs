//! The stored cases of the strip printer, one a line, in tests/data/strip.txt. It needs nothing of
//! the library or of `reference`.
//!
//!     strip BANDLEN BANDFILL DOTLEN DOTFILL OPS = ANSWERS WAITING BANDS DOTS PLACE
//!
//! A new record gets the operations, with a band buffer of BANDLEN bytes BANDFILL and a dot buffer
//! of DOTLEN bytes DOTFILL. Fields are split by a blank, bytes are in hexadecimal (`-` for none)
//! and numbers in decimal. Operations are joined by commas:
//!
//!     b:HEX          these bytes, a call each
//!     s:HH           the host sets the status
//!     x:HH:BL:DL     byte HH, with buffers of BL and DL bytes of any content
//!     n:K            somebody writes K into the record's count of bands
//!     m:K            somebody writes K into its count of body bytes
//!     u              the record as it was before the last n or m
//!
//! ANSWERS has INDEX:WHAT for each call, counted from 0, whose answer is not a plain 0: rHH that
//! reply; einit, eband, eend, einquiry, eprint/COUNT/MARGINS/DENSITY a packet that acted; fNO
//! refused. WAITING is the record's count of bands; BANDS and DOTS are the buffers' first bytes,
//! the rest is as it was. PLACE is where the receiver stands: hunt mark command indicator len0 len1
//! body/COUNT sum0 sum1 clock1 clock2.

use super::fields::{bytes, number};
use std::fmt;
use std::slice;

pub const STRIP: &str = include_str!("../data/strip.txt");

/// An operation on a record.
#[derive(Clone, Debug, PartialEq, Eq)]
pub enum Op {
    /// These bytes, a call each.
    Bytes(Vec<u8>),
    /// The host sets the status.
    Status(u8),
    /// This byte, with buffers of so many bytes.
    Lent { byte: u8, bands: usize, dots: usize },
    /// Somebody writes the record's count of bands.
    Bands(u8),
    /// Somebody writes the record's count of body bytes.
    Body(u16),
    /// The record as it was before the last [`Op::Bands`] or [`Op::Body`].
    Undo,
}

/// What comes of a case.
#[derive(Clone, Debug, PartialEq, Eq)]
pub struct Outcome {
    /// The answers that are not a plain 0, with their calls.
    pub answers: Vec<(usize, String)>,
    pub waiting: usize,
    pub bands: Vec<u8>,
    pub dots: Vec<u8>,
    pub place: String,
}

/// Operations on a new record with what the two buffers hold at first, and what has to come of it.
pub struct Case {
    pub bands: Vec<u8>,
    pub dots: Vec<u8>,
    pub ops: Vec<Op>,
    pub expected: Outcome,
}

fn byte(field: &str) -> Result<u8, String> {
    match bytes(field)?[..] {
        [byte] => Ok(byte),
        _ => Err(format!("{field:?} is not a byte")),
    }
}

fn op(field: &str) -> Result<Op, String> {
    let parts: Vec<&str> = field.split(':').collect();
    Ok(match parts[..] {
        ["b", hex] => Op::Bytes(bytes(hex)?),
        ["s", hex] => Op::Status(byte(hex)?),
        ["x", hex, bands, dots] => Op::Lent {
            byte: byte(hex)?,
            bands: number(bands)?,
            dots: number(dots)?,
        },
        ["n", count] => Op::Bands(number(count)?),
        ["m", count] => Op::Body(number(count)?),
        ["u"] => Op::Undo,
        _ => return Err(format!("{field:?} is no operation")),
    })
}

fn answer(field: &str) -> Result<(usize, String), String> {
    match field.split_once(':') {
        Some((call, what)) => Ok((number(call)?, what.to_string())),
        None => Err(format!("{field:?} is no answer")),
    }
}

fn list<T>(field: &str, read: impl Fn(&str) -> Result<T, String>) -> Result<Vec<T>, String> {
    match field {
        "-" => Ok(Vec::new()),
        _ => field.split(',').map(read).collect(),
    }
}

/// The buffer that begins with these bytes and is otherwise as it was.
fn after(first: &str, before: &[u8]) -> Result<Vec<u8>, String> {
    let mut all = bytes(first)?;
    let rest = before
        .get(all.len()..)
        .ok_or("more bytes than the buffer has")?;
    all.extend(rest);
    Ok(all)
}

/// The case that a line describes.
pub fn case(line: &str) -> Result<Case, String> {
    let fields: Vec<&str> = line.split(' ').collect();
    let (["strip", bands_len, bands_fill, dots_len, dots_fill, ops], after_ops) =
        fields.split_at(fields.len().min(6))
    else {
        return Err("the line does not begin with a strip's operations".to_string());
    };
    let ["=", answers, waiting, bands, dots, place] = after_ops else {
        return Err("the line does not end with what comes of them".to_string());
    };
    let lent_bands = vec![byte(bands_fill)?; number(bands_len)?];
    let lent_dots = vec![byte(dots_fill)?; number(dots_len)?];
    Ok(Case {
        ops: list(ops, op)?,
        expected: Outcome {
            answers: list(answers, answer)?,
            waiting: number(waiting)?,
            bands: after(bands, &lent_bands)?,
            dots: after(dots, &lent_dots)?,
            place: place.to_string(),
        },
        bands: lent_bands,
        dots: lent_dots,
    })
}

/// The answers that are not a plain 0, with their calls.
pub fn not_plain(answers: impl IntoIterator<Item = impl fmt::Display>) -> Vec<(usize, String)> {
    let texts = answers.into_iter().map(|answer| answer.to_string());
    texts
        .enumerate()
        .filter(|(_, text)| text != "r00")
        .collect()
}

impl fmt::Display for Op {
    fn fmt(&self, f: &mut fmt::Formatter<'_>) -> fmt::Result {
        match self {
            Op::Bytes(bytes) if bytes.is_empty() => write!(f, "b:-"),
            Op::Bytes(bytes) => {
                write!(f, "b:")?;
                bytes.iter().try_for_each(|byte| write!(f, "{byte:02x}"))
            }
            Op::Status(status) => write!(f, "s:{status:02x}"),
            Op::Lent { byte, bands, dots } => write!(f, "x:{byte:02x}:{bands}:{dots}"),
            Op::Bands(count) => write!(f, "n:{count}"),
            Op::Body(count) => write!(f, "m:{count}"),
            Op::Undo => write!(f, "u"),
        }
    }
}

/// The bytes that are taken, each with the status that the host had set by then.
#[derive(Default)]
pub struct Taken {
    pub bytes: Vec<u8>,
    pub status: Vec<u8>,
    /// For each call its byte in `bytes`, none where it is not taken.
    pub calls: Vec<Option<usize>>,
    /// The status at the end.
    pub last_status: u8,
}

impl Taken {
    /// The answer of each call, by the answers of the bytes that are taken.
    pub fn answers<'a, T: Copy>(
        &'a self,
        bytes: &'a [T],
        not_taken: T,
    ) -> impl Iterator<Item = T> + 'a {
        let answer = move |call: &Option<usize>| call.map_or(not_taken, |byte| bytes[byte]);
        self.calls.iter().map(answer)
    }
}

/// Of a record the status, and the counts that somebody wrote.
#[derive(Clone, Copy, Default)]
struct Written {
    status: u8,
    bands: Option<usize>,
    body: Option<usize>,
}

/// What is taken of some operations, with buffers of so many bytes, where `is_not_taken` is the
/// rule of 36: for the lengths of the two buffers and the record's counts of bands and body bytes.
/// None where a byte is taken by a record that somebody wrote: the bytes then do not say all.
///
/// The counts that nobody wrote are within the limits, and the rule is given 0 for them.
pub fn taken(
    ops: &[Op],
    bands: usize,
    dots: usize,
    is_not_taken: impl Fn(usize, usize, usize, usize) -> bool,
) -> Option<Taken> {
    let mut taken = Taken::default();
    let (mut record, mut before) = (Written::default(), Written::default());
    for op in ops {
        let (bytes, bands, dots) = match op {
            Op::Bytes(bytes) => (&bytes[..], bands, dots),
            Op::Lent { byte, bands, dots } => (slice::from_ref(byte), *bands, *dots),
            Op::Status(status) => {
                record.status = *status;
                continue;
            }
            Op::Bands(count) => {
                before = record;
                record.bands = Some((*count).into());
                continue;
            }
            Op::Body(count) => {
                before = record;
                record.body = Some((*count).into());
                continue;
            }
            Op::Undo => {
                record = before;
                continue;
            }
        };
        let (waiting, body) = (record.bands.unwrap_or(0), record.body.unwrap_or(0));
        if is_not_taken(bands, dots, waiting, body) {
            taken.calls.extend(bytes.iter().map(|_| None));
        } else if record.bands.is_some() || record.body.is_some() {
            return None;
        } else {
            let first = taken.bytes.len();
            taken.calls.extend((first..first + bytes.len()).map(Some));
            taken.bytes.extend(bytes);
            taken.status.extend(bytes.iter().map(|_| record.status));
        }
    }
    taken.last_status = record.status;
    Some(taken)
}
