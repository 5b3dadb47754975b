//! The strip printer's line: a plain reading of a whole stream.
//!
//! The stream has the bytes that were taken, one after the other. A packet is found by its mark,
//! cut out by its length and judged as a whole; what it does is answered at its last byte.

use std::fmt;

/// A band: 40 tiles of 16 bytes as it waits, 16 rows of 40 bytes as it is printed.
const BAND: usize = 640;
/// "At most nine bands wait in a lent buffer."
const MOST_BANDS: usize = 9;
/// "A lent buffer under 5,760 bytes" is refused.
const ROOM: usize = 5_760;
/// The longest body that fits a command.
const LONGEST_BODY: usize = 648;

/// "Mark 88 33."
const MARK: [u8; 2] = [0x88, 0x33];

/// The source's commands.
const INITIALIZE: u8 = 0x01;
const PRINT: u8 = 0x02;
const DATA: u8 = 0x04;
const INQUIRY: u8 = 0x0F;

/// What a taken byte is answered.
#[derive(Clone, Copy, Debug, PartialEq, Eq)]
pub enum Answer {
    /// This byte on the line.
    Reply(u8),
    /// 0 on the line; the packet that ends with the byte has acted.
    Acted(Event),
    /// 0 on the line; the packet is refused with this number.
    Refused(u8),
}

/// What a packet did.
#[derive(Clone, Copy, Debug, PartialEq, Eq)]
pub enum Event {
    Initialize,
    /// Data with a band: the number of bands that wait now.
    Band(u8),
    /// Data with nothing.
    PageEnd,
    Inquiry,
    Print {
        bands: u8,
        margins: u8,
        density: u8,
    },
}

/// Where a stream ends: what was found so far, and how many bytes of it.
#[derive(Clone, Copy, Debug, PartialEq, Eq)]
pub enum Place {
    Searching,
    /// After an 88 that may begin a mark.
    Marking,
    Header(usize),
    Body(usize),
    Checksum(usize),
    Clock(usize),
}

/// One of the two lent buffers.
#[derive(Clone, Copy, Debug, PartialEq, Eq)]
pub enum Buffer {
    Bands,
    Dots,
}

/// What a packet wrote when it acted: a band, or the rows of a page.
#[derive(Clone, Debug, PartialEq, Eq)]
pub struct Write {
    /// The byte of the stream at which it acted.
    pub at: usize,
    pub buffer: Buffer,
    /// The buffer's first byte that was written.
    pub from: usize,
    pub bytes: Vec<u8>,
}

impl Write {
    /// Writes it into its buffer, one of these two.
    pub fn put(&self, bands: &mut [u8], dots: &mut [u8]) {
        let buffer = match self.buffer {
            Buffer::Bands => bands,
            Buffer::Dots => dots,
        };
        buffer[self.from..self.from + self.bytes.len()].copy_from_slice(&self.bytes);
    }
}

/// What a stream says.
#[derive(Clone, Debug, PartialEq, Eq)]
pub struct Reading {
    /// The answer of each byte.
    pub answers: Vec<Answer>,
    /// What was written, in order: of each Data with a band the band, of each Print the rows.
    pub writes: Vec<Write>,
    /// The bands that wait at the end, one after the other.
    pub waiting: Vec<u8>,
    pub place: Place,
    /// Of a packet that the stream does not end: its bytes after the mark.
    pub open: Vec<u8>,
}

/// "36 a lent buffer under 5,760 bytes, or a record of over nine bands or 648 body bytes, the byte
/// not taken": whether this is so, for buffers of so many bytes and a record of these counts.
pub fn is_not_taken(bands_room: usize, dots_room: usize, bands: usize, body: usize) -> bool {
    bands_room < ROOM || dots_room < ROOM || bands > MOST_BANDS || body > LONGEST_BODY
}

/// "33 an indicator or length not fitting the command": whether they fit.
fn fits(command: u8, indicator: u8, length: usize) -> bool {
    match (command, indicator) {
        (DATA, 0) => length == BAND || length == 0,
        (DATA, 1) => (1..=LONGEST_BODY).contains(&length),
        (PRINT, 0) => length == 4,
        (INITIALIZE | INQUIRY, 0) => length == 0,
        (DATA | PRINT | INITIALIZE | INQUIRY, _) => false,
        _ => length <= LONGEST_BODY,
    }
}

/// "The checksum adds header and body bytes, and carried past 65,535 it starts again at zero."
fn sum(bytes: &[u8]) -> u64 {
    bytes.iter().map(|byte| u64::from(*byte)).sum::<u64>() % 65_536
}

/// The band of a coded body, if it "expands to exactly 640".
fn expand(body: &[u8]) -> Option<Vec<u8>> {
    let mut band = Vec::new();
    let mut rest = body;
    while let Some((&first, after)) = rest.split_first() {
        // "Coded runs reach 129, literal runs 128."
        let low = usize::from(first & 0x7F);
        if first & 0x80 != 0 {
            let (&byte, after) = after.split_first()?;
            band.extend(vec![byte; low + 2]);
            rest = after;
        } else {
            let (literal, after) = after.split_at_checked(low + 1)?;
            band.extend(literal);
            rest = after;
        }
    }
    (band.len() == BAND).then_some(band)
}

/// The index of the dot x of the row y of the waiting bands. "In each tile row the first byte holds
/// the low bits, bit 7 leftmost."
fn index(waiting: &[u8], x: usize, y: usize) -> u8 {
    let (band, y) = (y / 16, y % 16);
    let tile = 20 * (y / 8) + x / 8;
    let tile_row = &waiting[BAND * band + 16 * tile + 2 * (y % 8)..];
    let bit = |byte: u8| byte >> (7 - x % 8) & 1;
    bit(tile_row[0]) + 2 * bit(tile_row[1])
}

/// "The dots through its palette byte, highest two bits for index 0, 40 bytes a row, leftmost dot
/// highest."
fn rows(waiting: &[u8], palette: u8) -> Vec<u8> {
    let mut rows = vec![0; waiting.len()];
    for (y, row) in rows.chunks_mut(40).enumerate() {
        for x in 0..160 {
            let dot = palette >> (6 - 2 * index(waiting, x, y)) & 3;
            row[x / 4] |= dot << (6 - 2 * (x % 4));
        }
    }
    rows
}

/// A packet without its mark.
struct Packet<'a> {
    header_and_body: &'a [u8],
    checksum: [u8; 2],
}

/// What stands after a mark.
enum Found<'a> {
    /// A packet that the stream does not end.
    Open(Place),
    /// A header that does not fit.
    Unfit,
    Whole(Packet<'a>),
}

fn find(bytes: &[u8]) -> Found<'_> {
    let Some((&[command, indicator, low, high], after)) = bytes.split_first_chunk() else {
        return Found::Open(Place::Header(bytes.len()));
    };
    let length = usize::from(low) + 256 * usize::from(high);
    if !fits(command, indicator, length) {
        return Found::Unfit;
    }
    let Some(after) = after.get(length..) else {
        return Found::Open(Place::Body(after.len()));
    };
    let Some((&checksum, _)) = after.split_first_chunk() else {
        return Found::Open(Place::Checksum(after.len()));
    };
    Found::Whole(Packet {
        header_and_body: &bytes[..4 + length],
        checksum,
    })
}

/// What a packet that ends at this byte does, and what it writes; or the number that refuses it.
fn act(packet: &Packet, at: usize, waiting: &mut Vec<u8>) -> Result<(Event, Option<Write>), u8> {
    let (header, body) = packet.header_and_body.split_at(4);
    let [low, high] = packet.checksum;
    if sum(packet.header_and_body) != u64::from(low) + 256 * u64::from(high) {
        return Err(31);
    }
    let bands = (waiting.len() / BAND) as u8;
    match header[0] {
        INITIALIZE => {
            waiting.clear();
            Ok((Event::Initialize, None))
        }
        INQUIRY => Ok((Event::Inquiry, None)),
        PRINT => {
            let (margins, palette, density) = (body[1], body[2], body[3]);
            let print = Event::Print {
                bands,
                margins,
                density,
            };
            let write = Write {
                at,
                buffer: Buffer::Dots,
                from: 0,
                bytes: rows(waiting, palette),
            };
            Ok((print, Some(write)))
        }
        DATA if body.is_empty() => Ok((Event::PageEnd, None)),
        DATA => {
            if usize::from(bands) == MOST_BANDS {
                return Err(34);
            }
            let band = match header[1] {
                0 => body.to_vec(),
                _ => expand(body).ok_or(35)?,
            };
            let write = Write {
                at,
                buffer: Buffer::Bands,
                from: waiting.len(),
                bytes: band.clone(),
            };
            waiting.extend(band);
            Ok((Event::Band(bands + 1), Some(write)))
        }
        _ => Err(32),
    }
}

/// Reads a stream from a new record on. `status` has for each byte the status that the host had set
/// by then.
pub fn read(stream: &[u8], status: &[u8]) -> Reading {
    assert_eq!(stream.len(), status.len(), "a status for each byte");
    // "Every other byte is answered 0."
    let mut answers = vec![Answer::Reply(0); stream.len()];
    let mut writes = Vec::new();
    let mut waiting = Vec::new();
    let mut open = Vec::new();
    let mut from = 0;
    let place = loop {
        // "A second 88 while 33 is awaited counts as a first": the mark is the next 88 33.
        let rest = &stream[from..];
        let Some(before) = rest.windows(2).position(|pair| pair == MARK) else {
            break match rest.last() {
                Some(0x88) => Place::Marking,
                _ => Place::Searching,
            };
        };
        let start = from + before + 2;
        let packet = match find(&stream[start..]) {
            Found::Open(place) => {
                open = stream[start..].to_vec();
                break place;
            }
            Found::Unfit => {
                // "Told at the length"; "the search for a mark goes on at the next byte".
                from = start + 4;
                answers[from - 1] = Answer::Refused(33);
                continue;
            }
            Found::Whole(packet) => packet,
        };
        from = start + packet.header_and_body.len() + 2;
        let last = from - 1;
        match act(&packet, last, &mut waiting) {
            Err(number) => answers[last] = Answer::Refused(number),
            Ok((event, write)) => {
                answers[last] = Answer::Acted(event);
                writes.extend(write);
                // "Two clock bytes of any content, answered 81 and the status the host last set."
                let clock = stream.len() - from;
                if clock >= 1 {
                    answers[from] = Answer::Reply(0x81);
                }
                if clock >= 2 {
                    answers[from + 1] = Answer::Reply(status[from + 1]);
                } else {
                    break Place::Clock(clock);
                }
                from += 2;
            }
        }
    };
    Reading {
        answers,
        writes,
        waiting,
        place,
        open,
    }
}

/// As the stored cases write it.
impl fmt::Display for Answer {
    fn fmt(&self, f: &mut fmt::Formatter<'_>) -> fmt::Result {
        match self {
            Answer::Reply(reply) => write!(f, "r{reply:02x}"),
            Answer::Acted(Event::Initialize) => write!(f, "einit"),
            Answer::Acted(Event::Band(_)) => write!(f, "eband"),
            Answer::Acted(Event::PageEnd) => write!(f, "eend"),
            Answer::Acted(Event::Inquiry) => write!(f, "einquiry"),
            Answer::Acted(Event::Print {
                bands,
                margins,
                density,
            }) => write!(f, "eprint/{bands}/{margins}/{density}"),
            Answer::Refused(number) => write!(f, "f{number}"),
        }
    }
}

/// As the stored cases write it.
impl fmt::Display for Place {
    fn fmt(&self, f: &mut fmt::Formatter<'_>) -> fmt::Result {
        let awaited = match *self {
            Place::Searching => "hunt",
            Place::Marking => "mark",
            Place::Header(have) => ["command", "indicator", "len0", "len1"][have],
            Place::Body(have) => return write!(f, "body/{have}"),
            Place::Checksum(have) => ["sum0", "sum1"][have],
            Place::Clock(have) => ["clock1", "clock2"][have],
        };
        write!(f, "{awaited}")
    }
}
