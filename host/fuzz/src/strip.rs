//! Streams of the strip printer's line of the fuzzer's bytes.
//!
//! An input of the target `strip_receive` is flags (a byte) and operations. Changed bytes of a
//! packet seldom leave its checksum right, so most operations stand for a packet that is right, or
//! nearly so. An operation's first byte tells what follows it:
//!
//!     0   a count, and so many bytes as they are
//!     1   command, indicator, a length (a word), and a body of this length
//!     2   a count, and so many bytes of a coded body, which is made to expand to a band
//!     3   a count, and so many bytes that are repeated in a plain band
//!     4   the four bytes of a Print packet
//!     5   a command, for a packet without a body
//!     6   a status
//!     7   a byte, and the lengths of two other buffers for it (numbers of `ROOMS`)
//!     8   a byte, and by how much (a word) the count of bands or of body bytes is greater then
//!         than the least that is refused
//!
//! Of the first byte the low half counts. The bit `CLOCK` puts two clock bytes after a packet, and
//! the bit `BODY` makes 8 write the count of body bytes.

use crate::common::fenced::{FencedEnd, FencedStart};
use crate::common::strip::Session;
use crate::common::strip_cases::Op;
use crate::Input;

/// Flags of an input. The buffers are longer than they need to be where `LONGER` is there.
const FENCED_START: u8 = 1;
const LONGER: u8 = 2;

/// Bits of an operation.
const CLOCK: u8 = 0x10;
const BODY: u8 = 0x20;

/// The lengths of other buffers.
const ROOMS: [usize; 8] = [0, 1, 640, 5_120, 5_759, 5_760, 5_761, 6_400];

/// The greatest number of operations of an input: `reference` prints dot by dot.
const OPERATIONS: usize = 32;

const BAND: usize = 640;

/// A packet with its right checksum, as far as its body is there.
fn packet(command: u8, indicator: u8, length: u16, body: &[u8]) -> Vec<u8> {
    let [low, high] = length.to_le_bytes();
    let mut bytes = vec![0x88, 0x33, command, indicator, low, high];
    bytes.extend(body);
    if body.len() == usize::from(length) {
        let sum = bytes[2..]
            .iter()
            .fold(0, |sum: u16, byte| sum.wrapping_add((*byte).into()));
        bytes.extend(sum.to_le_bytes());
    }
    bytes
}

/// A coded body that begins with these bytes as far as their runs are whole and stand for at most a
/// band, and that stands for a band.
fn mended(bytes: &[u8]) -> Vec<u8> {
    let (mut place, mut left) = (0, BAND);
    while let Some(&head) = bytes.get(place) {
        let low = usize::from(head & 0x7F);
        let (length, stands_for) = match head {
            0..0x80 => (low + 2, low + 1),
            _ => (2, low + 2),
        };
        if place + length > bytes.len() || stands_for > left {
            break;
        }
        place += length;
        left -= stands_for;
    }
    let mut body = bytes[..place].to_vec();
    while left > 0 {
        let run = left.min(129);
        let head = match run {
            1 => 0,
            _ => 0x80 | (run - 2) as u8,
        };
        body.extend([head, run as u8]);
        left -= run;
    }
    body
}

/// The operations of an input.
fn ops(input: &mut Input) -> Vec<Op> {
    let mut ops = Vec::new();
    for _ in 0..OPERATIONS {
        if input.0.is_empty() {
            break;
        }
        let first = input.byte();
        let mut bytes = match first & 0x0F {
            1 => {
                let (command, indicator, length) = (input.byte(), input.byte(), input.word());
                packet(command, indicator, length, input.bytes(length.into()))
            }
            2 => {
                let count = input.byte().into();
                let body = mended(input.bytes(count));
                packet(0x04, 1, body.len() as u16, &body)
            }
            3 => {
                let count = input.byte().into();
                let pattern = input.bytes(count);
                let pattern = if pattern.is_empty() { &[0xFF] } else { pattern };
                let band: Vec<u8> = pattern.iter().copied().cycle().take(BAND).collect();
                packet(0x04, 0, BAND as u16, &band)
            }
            4 => packet(0x02, 0, 4, &[0; 4].map(|_: u8| input.byte())),
            5 => packet(input.byte(), 0, 0, &[]),
            6 => {
                ops.push(Op::Status(input.byte()));
                continue;
            }
            7 => {
                let byte = input.byte();
                let [bands, dots] =
                    [0; 2].map(|_: u8| ROOMS[usize::from(input.byte()) % ROOMS.len()]);
                ops.push(Op::Lent { byte, bands, dots });
                continue;
            }
            8 => {
                let (byte, more) = (input.byte(), input.word());
                ops.push(if first & BODY != 0 {
                    Op::Body(649_u16.saturating_add(more))
                } else {
                    Op::Bands(10_u8.saturating_add(more as u8))
                });
                ops.extend([Op::Bytes(vec![byte]), Op::Undo]);
                continue;
            }
            _ => {
                let count = input.byte().into();
                ops.push(Op::Bytes(input.bytes(count).to_vec()));
                continue;
            }
        };
        if first & CLOCK != 0 {
            bytes.extend([0, 0]);
        }
        ops.push(Op::Bytes(bytes));
    }
    ops
}

pub fn receive(bytes: &[u8]) {
    let mut input = Input(bytes);
    let flags = input.byte();
    let length = if flags & LONGER != 0 { 5_843 } else { 5_760 };
    let [bands, dots] = [0xEE, 0x11]
        .map(|fill: u8| -> Vec<u8> { (0..length).map(|at: usize| at as u8 ^ fill).collect() });
    let session = Session {
        bands: &bands,
        dots: &dots,
        ops: &ops(&mut input),
    };
    let agreed = if flags & FENCED_START != 0 {
        session.agreed_in::<FencedStart>()
    } else {
        session.agreed_in::<FencedEnd>()
    };
    if let Err(difference) = agreed {
        panic!("{difference}");
    }
}

/// The inputs of the target `strip_receive` that stand for operations. A record that somebody wrote
/// is left out.
pub fn receive_seeds(ops: &[Op]) -> Vec<Vec<u8>> {
    let mut seed = Vec::new();
    for op in ops {
        match op {
            Op::Bytes(bytes) => {
                for part in bytes.chunks(255) {
                    seed.extend([0, part.len() as u8]);
                    seed.extend(part);
                }
            }
            Op::Status(status) => seed.extend([6, *status]),
            Op::Lent { byte, bands, dots } => {
                let room = |length| ROOMS.partition_point(|room| *room <= length) as u8 - 1;
                seed.extend([7, *byte, room(*bands), room(*dots)]);
            }
            Op::Bands(_) | Op::Body(_) | Op::Undo => {}
        }
    }
    let with = |flags: u8| [&[flags], &seed[..]].concat();
    vec![with(0), with(FENCED_START | LONGER)]
}

/// Inputs that stand for a page: the packets in their order, and after nine bands one more, right
/// or wrong.
pub fn page_seeds() -> Vec<Vec<u8>> {
    let init = [5 | CLOCK, 0x01];
    let plain = [3 | CLOCK, 3, 0x0F, 0x33, 0x55];
    let coded = [2 | CLOCK, 5, 2, 1, 2, 3, 0xA0];
    let end = [5 | CLOCK, 0x04];
    let print = [4 | CLOCK, 1, 0x13, 0xE4, 0x40];
    let inquiry = [5 | CLOCK, 0x0F];
    let page = |pairs: usize, last: &[u8]| {
        let bands = [&plain[..], &coded].concat().repeat(pairs);
        [&[0], &init[..], &bands, last, &end, &print, &inquiry].concat()
    };
    let wrong = [1, 0x04, 1, 0, 1, 0x80];
    vec![
        page(0, &[]),
        page(1, &[]),
        page(1, &wrong),
        page(5, &[]),
        page(5, &wrong),
    ]
}
