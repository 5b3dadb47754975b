//! Streams of the strip printer's line, and what else is done to a receiver: the host sets its
//! status, buffers are too short, somebody writes its record.

use crate::Rng;

/// An operation on a receiver's record.
#[derive(Clone, Debug, PartialEq, Eq)]
pub enum StripOp {
    /// These bytes, a call each.
    Bytes(Vec<u8>),
    /// The host sets the status.
    Status(u8),
    /// This byte, with buffers of so many bytes.
    Lent { byte: u8, bands: usize, dots: usize },
    /// Somebody writes the record's count of bands: over nine.
    Bands(u8),
    /// Somebody writes the record's count of body bytes: over 648.
    Body(u16),
    /// The record as it was before the last of these two.
    Undo,
}

/// Operations on a new record, and what the two lent buffers hold at first.
#[derive(Clone, Debug, PartialEq, Eq)]
pub struct Strip {
    pub bands: Vec<u8>,
    pub dots: Vec<u8>,
    pub ops: Vec<StripOp>,
}

const ROOM: usize = 5_760;
const BAND: usize = 640;
const LONGEST_BODY: usize = 648;

const INITIALIZE: u8 = 0x01;
const PRINT: u8 = 0x02;
const DATA: u8 = 0x04;
const INQUIRY: u8 = 0x0F;
const KNOWN: [u8; 4] = [INITIALIZE, PRINT, DATA, INQUIRY];

/// A packet; its length and checksum may be given otherwise than they are.
#[derive(Clone, Debug)]
struct Packet {
    command: u8,
    indicator: u8,
    length: Option<u16>,
    body: Vec<u8>,
    checksum: Option<u16>,
}

impl Packet {
    fn new(command: u8, indicator: u8, body: Vec<u8>) -> Packet {
        Packet {
            command,
            indicator,
            length: None,
            body,
            checksum: None,
        }
    }

    fn header(&self) -> [u8; 4] {
        let length = self.length.unwrap_or(self.body.len() as u16);
        let [low, high] = length.to_le_bytes();
        [self.command, self.indicator, low, high]
    }

    fn sum(&self) -> u16 {
        let header = self.header();
        let bytes = header.iter().chain(&self.body);
        bytes.fold(0, |sum, byte| sum.wrapping_add((*byte).into()))
    }

    /// The packet's bytes from its mark to its checksum.
    fn bytes(&self) -> Vec<u8> {
        let checksum = self.checksum.unwrap_or(self.sum()).to_le_bytes();
        [&[0x88, 0x33], &self.header()[..], &self.body, &checksum].concat()
    }
}

/// So many bytes of one of the kinds that bodies have.
fn content(rng: &mut Rng, count: usize) -> Vec<u8> {
    match rng.below(12) {
        0..=2 => rng.bytes(count),
        3 | 4 => vec![0xFF; count],
        5 => vec![rng.pick(&[0, 0x88, 0x33, 0x80, 0x7F]); count],
        6 => vec![rng.byte(); count],
        7 => [0x88, 0x33].repeat(count.div_ceil(2))[..count].to_vec(),
        8 => (0..count).map(|_| noise_byte(rng)).collect(),
        9 => (0..count).map(|_| 1 << rng.below(8)).collect(),
        // Whole packets, the last of them cut.
        _ => {
            let mut bytes = Vec::new();
            while bytes.len() < count {
                let packet = short_packet(rng);
                bytes.extend(clocked(rng, packet.bytes()));
            }
            bytes.truncate(count);
            bytes
        }
    }
}

/// A byte of noise: often one of a mark.
fn noise_byte(rng: &mut Rng) -> u8 {
    match rng.below(8) {
        0..=2 => 0x88,
        3 | 4 => 0x33,
        5 => rng.pick(&[0x83, 0x00, 0x01, 0x02, 0x04, 0x0F]),
        _ => rng.byte(),
    }
}

/// A body that expands to so many bytes and has at most 648, where so many can be.
pub fn coded(rng: &mut Rng, total: usize) -> Vec<u8> {
    let style = rng.below(8);
    let mut body = Vec::new();
    let mut left = total;
    // Literal runs alone, eight of them: 648 bytes for 640.
    let eight = style == 7 && total <= 8 * 128;
    for rest in (1..9).rev().filter(|_| eight) {
        let least = left.saturating_sub((rest - 1) * 128).max(1);
        let most = left.saturating_sub(rest - 1).min(128);
        let length = rng.between(least as u64, most as u64) as usize;
        literal(rng, &mut body, length.min(left));
        left -= length.min(left);
    }
    while left > 0 {
        let run = match style {
            0 => 129,
            1 => rng.between(2, 129) as usize,
            2 => rng.pick(&[2, 3, 31, 32, 33, 127, 128, 129]),
            _ => rng.between(2, 40) as usize,
        };
        let piece = match style {
            0 => 128,
            1 => rng.between(1, 128) as usize,
            2 => rng.pick(&[1, 2, 31, 32, 33, 126, 127, 128]),
            _ => rng.between(1, 30) as usize,
        };
        // A literal run takes a byte more than it stands for; the rest takes at most one more.
        let fits = body.len() + left + 2 <= LONGEST_BODY;
        let piece = piece.min(left);
        let wants_literal = match style {
            0 => rng.one_in(8),
            3 => rng.percent(90),
            _ => rng.percent(40),
        };
        if left == 1 || (wants_literal && fits) {
            literal(rng, &mut body, piece);
            left -= piece;
        } else {
            let run = run.min(left);
            body.push(0x80 | (run - 2) as u8);
            body.push(if rng.one_in(3) { 0xFF } else { noise_byte(rng) });
            left -= run;
        }
    }
    body
}

fn literal(rng: &mut Rng, body: &mut Vec<u8>, length: usize) {
    if length > 0 {
        body.push((length - 1) as u8);
        body.extend(content(rng, length));
    }
}

/// A body of coded Data that does not expand to 640 bytes; seldom it does after all.
fn wrong_coded(rng: &mut Rng) -> Vec<u8> {
    let mut body = match rng.below(8) {
        0 => {
            let total = rng.pick(&[1, 2, 639, 641, 642, 638, 512, 644, 768]);
            coded(rng, total)
        }
        1 => {
            let total = rng.between(1, 800) as usize;
            coded(rng, total)
        }
        2 => {
            // The last run is cut.
            let mut body = coded(rng, BAND);
            let cut = rng.between(1, 3) as usize;
            body.truncate(body.len() - cut);
            body
        }
        3 => {
            // A run after the last, cut or whole.
            let mut body = coded(rng, BAND);
            body.push(rng.byte());
            let more = rng.index(3);
            body.extend(content(rng, more));
            body
        }
        4 => {
            // A run of 129 more, or one byte more, than fits.
            let mut body = coded(rng, BAND - 1);
            body.extend([rng.pick(&[0x80, 0x81, 0xFF]), rng.byte()]);
            body
        }
        5 => {
            let count = rng.between(1, LONGEST_BODY as u64) as usize;
            content(rng, count)
        }
        6 => vec![rng.byte()],
        _ => {
            // The head of a run is another.
            let mut body = coded(rng, BAND);
            let change = rng.pick(&[0x80, 0x01, 0x40, 0xFF]);
            body[0] ^= change;
            body
        }
    };
    body.truncate(LONGEST_BODY);
    if body.is_empty() {
        body.push(rng.byte());
    }
    body
}

/// A command that the source lacks.
fn unknown_command(rng: &mut Rng) -> u8 {
    let near = [
        0x00, 0x03, 0x05, 0x06, 0x08, 0x0E, 0x10, 0x11, 0x12, 0x14, 0x1F, 0x81, 0x82, 0x84, 0x8F,
        0xFF, 0x88, 0x33,
    ];
    let command = if rng.percent(60) {
        rng.pick(&near)
    } else {
        rng.byte()
    };
    if KNOWN.contains(&command) {
        0x07
    } else {
        command
    }
}

fn unknown(rng: &mut Rng) -> Packet {
    let length = match rng.below(6) {
        0 => 0,
        1 => rng.pick(&[1, 4, 639, 640, 641, 647]),
        2 => LONGEST_BODY,
        3 => rng.between(0, LONGEST_BODY as u64) as usize,
        _ => rng.between(0, 20) as usize,
    };
    let indicator = match rng.below(3) {
        0 => rng.byte(),
        _ => rng.below(3) as u8,
    };
    Packet::new(unknown_command(rng), indicator, content(rng, length))
}

fn print(rng: &mut Rng) -> Packet {
    let mut body = rng.bytes(4);
    if rng.percent(50) {
        body[0] = 1;
        body[2] = rng.pick(&[0xE4, 0x1B, 0x00, 0xFF, 0x55, 0xD2]);
    }
    Packet::new(PRINT, 0, body)
}

fn data(rng: &mut Rng) -> Packet {
    match rng.below(10) {
        0..=2 => Packet::new(DATA, 0, content(rng, BAND)),
        _ => Packet::new(DATA, 1, coded(rng, BAND)),
    }
}

/// A right packet with a body of at most four bytes.
fn short_packet(rng: &mut Rng) -> Packet {
    match rng.below(8) {
        0 | 1 => Packet::new(INITIALIZE, 0, Vec::new()),
        2 => Packet::new(DATA, 0, Vec::new()),
        3 | 4 => print(rng),
        _ => Packet::new(INQUIRY, 0, Vec::new()),
    }
}

fn packet(rng: &mut Rng) -> Packet {
    match rng.below(16) {
        0..=6 => short_packet(rng),
        7..=13 => data(rng),
        _ => unknown(rng),
    }
}

/// Damages a packet so that the rest of it is right.
fn fault(rng: &mut Rng, packet: &mut Packet) {
    let sum = packet.sum();
    let length = packet.body.len() as u16;
    match rng.below(10) {
        0 => packet.checksum = Some(sum ^ 1 << rng.below(16)),
        1 => {
            // A sum of other bytes, or carried otherwise.
            let header = packet.header().iter().map(|byte| u16::from(*byte)).sum();
            let others = [
                sum.swap_bytes(),
                sum.wrapping_sub(header),
                sum.wrapping_add(0x88 + 0x33),
                sum.wrapping_add(1),
                sum.wrapping_sub(1),
                sum & 0xFF,
                sum.wrapping_neg(),
                0xFFFF,
                0x8888,
                0x3388,
            ];
            packet.checksum = Some(rng.pick(&others));
        }
        2 => packet.checksum = Some(rng.word()),
        3 | 4 => {
            let others = [
                0, 1, 3, 4, 5, 639, 640, 641, 647, 648, 649, 650, 1024, 0x8802, 0x3388, 0xFFFF,
            ];
            packet.length = Some(match rng.below(5) {
                0 => length.wrapping_add(1),
                1 => length.wrapping_sub(1),
                2 => length.swap_bytes(),
                3 => rng.word(),
                _ => rng.pick(&others),
            });
        }
        5 => packet.indicator = rng.pick(&[0, 1, 2, 3, 0x80, 0x81, 0xFF, 0x88]),
        6 => packet.command = rng.pick(&KNOWN),
        7 => packet.command = unknown_command(rng),
        _ => *packet = Packet::new(DATA, 1, wrong_coded(rng)),
    }
}

/// Damages the bytes of a packet, of which nothing is then mended.
fn damage(rng: &mut Rng, bytes: &mut Vec<u8>) {
    let place = match rng.below(3) {
        // In the mark and the header, at the end, or anywhere.
        0 => rng.index(bytes.len().min(7)),
        1 => bytes.len() - 1 - rng.index(bytes.len().min(4)),
        _ => rng.index(bytes.len()),
    };
    match rng.below(8) {
        0 => bytes[place] ^= 1 << rng.below(8),
        1 => bytes[place] = rng.pick(&[0x88, 0x33, 0x83, 0x00, 0xFF]),
        2 => {
            bytes.remove(place);
        }
        3 => bytes.insert(place, noise_byte(rng)),
        4 => bytes.insert(place, bytes[place]),
        5 => bytes[0] = 0x83,
        // Cut here.
        _ => bytes.truncate(place),
    }
}

/// A packet's bytes with what clocks its answer.
fn clocked(rng: &mut Rng, mut bytes: Vec<u8>) -> Vec<u8> {
    let clock: &[u8] = match rng.below(20) {
        0..=10 => &[0, 0],
        11..=14 => &[rng.byte(), rng.byte()],
        15 => &[0x88, 0x33],
        16 => &[noise_byte(rng), 0x88],
        17 => &[noise_byte(rng), noise_byte(rng)],
        18 => &[0],
        _ => &[],
    };
    bytes.extend(clock);
    bytes
}

/// How a stream is made.
#[derive(Clone, Copy)]
struct Style {
    /// So many packets of a hundred are damaged.
    faults: u64,
    /// After so many packets of a hundred there is noise.
    noise: u64,
    /// Packets come in the order of pages.
    pages: bool,
}

/// The packets of a page, sometimes with too many bands.
fn page(rng: &mut Rng) -> Vec<Packet> {
    let mut packets = vec![Packet::new(INITIALIZE, 0, Vec::new())];
    let bands = match rng.below(6) {
        0 => rng.between(9, 12),
        1 => rng.between(0, 9),
        _ => rng.between(0, 3),
    };
    for _ in 0..bands {
        packets.push(data(rng));
        if rng.one_in(8) {
            packets.push(Packet::new(INQUIRY, 0, Vec::new()));
        }
    }
    packets.push(Packet::new(DATA, 0, Vec::new()));
    for _ in 0..rng.pick(&[1, 1, 1, 2]) {
        packets.push(print(rng));
    }
    if rng.percent(20) {
        // No room is freed, so that the next page's bands wait with these.
        packets.remove(0);
    }
    packets
}

/// The bytes of a stream, and where its packets end.
fn stream(rng: &mut Rng) -> (Vec<u8>, Vec<usize>) {
    let style = Style {
        faults: rng.pick(&[0, 10, 10, 40]),
        noise: rng.pick(&[0, 10, 50]),
        pages: rng.percent(60),
    };
    let (mut bytes, mut ends) = (Vec::new(), Vec::new());
    let mut left = rng.between(1, 60);
    while left > 0 {
        let packets = if style.pages && !rng.one_in(5) {
            page(rng)
        } else {
            vec![packet(rng)]
        };
        for mut packet in packets {
            left = left.saturating_sub(1);
            let damaged = rng.percent(style.faults);
            if damaged && rng.percent(70) {
                fault(rng, &mut packet);
            }
            let mut all = packet.bytes();
            if damaged && rng.percent(40) {
                damage(rng, &mut all);
            }
            ends.push(bytes.len() + all.len());
            bytes.extend(clocked(rng, all));
            if rng.percent(style.noise) {
                let count = rng.index(12);
                bytes.extend((0..count).map(|_| noise_byte(rng)));
            }
        }
    }
    // The stream may end anywhere in its last packet.
    if rng.percent(40) {
        let length = bytes.len();
        let most = rng.pick(&[12, 700]);
        bytes.truncate(length - rng.index(length.min(most)));
    }
    (bytes, ends)
}

/// A place of a stream: often beside a packet's last byte.
fn place(rng: &mut Rng, length: usize, ends: &[usize]) -> usize {
    if rng.percent(60) && !ends.is_empty() {
        let near = (rng.pick(ends) + rng.index(4)).saturating_sub(1);
        near.min(length)
    } else {
        rng.index(length + 1)
    }
}

/// The operations of a call, or of some, that have too short a buffer or a record that somebody
/// wrote; `byte` is the stream's next.
fn odd_calls(rng: &mut Rng, byte: u8) -> Vec<StripOp> {
    let byte = if rng.percent(70) { byte } else { rng.byte() };
    let count = rng.pick(&[1, 1, 2, 5]);
    match rng.below(5) {
        0 => {
            let any = rng.between(10, 255) as u8;
            let bands = rng.pick(&[10, 11, 128, 255, any]);
            let bytes = StripOp::Bytes(vec![byte; count]);
            vec![StripOp::Bands(bands), bytes, StripOp::Undo]
        }
        1 => {
            let any = rng.between(649, 0xFFFF) as u16;
            let body = rng.pick(&[649, 650, 1024, 0xFFFF, any]);
            let bytes = StripOp::Bytes(vec![byte; count]);
            vec![StripOp::Body(body), bytes, StripOp::Undo]
        }
        _ => {
            let mut room = || match rng.below(4) {
                0 => rng.pick(&[0, 1, 640, 5_120, 5_758, 5_759]),
                1 => rng.index(ROOM),
                2 => ROOM,
                _ => ROOM + rng.index(3_000),
            };
            vec![StripOp::Lent {
                byte,
                bands: room(),
                dots: room(),
            }]
        }
    }
}

/// What a lent buffer holds: 5,760 bytes or more.
fn lent(rng: &mut Rng) -> Vec<u8> {
    let any = rng.index(700);
    let spare = rng.pick(&[0, 0, 1, 40, any]);
    if rng.percent(50) {
        rng.bytes(ROOM + spare)
    } else {
        vec![rng.byte(); ROOM + spare]
    }
}

/// Operations on a new record.
pub fn strip(rng: &mut Rng) -> Strip {
    let (bytes, ends) = stream(rng);
    let mut others = Vec::new();
    for _ in 0..rng.pick(&[0, 2, 10]) {
        let any = rng.byte();
        let status = rng.pick(&[0, 2, 0x80, 0x88, 0xFF, any]);
        others.push((
            place(rng, bytes.len(), &ends),
            vec![StripOp::Status(status)],
        ));
    }
    for _ in 0..rng.pick(&[0, 1, 6]) {
        let place = place(rng, bytes.len(), &ends);
        let byte = bytes.get(place).copied().unwrap_or(0x88);
        others.push((place, odd_calls(rng, byte)));
    }
    others.sort_by_key(|(place, _)| *place);
    let mut ops = Vec::new();
    let mut from = 0;
    for (place, other) in others {
        if from < place {
            ops.push(StripOp::Bytes(bytes[from..place].to_vec()));
        }
        ops.extend(other);
        from = place;
    }
    ops.push(StripOp::Bytes(bytes[from..].to_vec()));
    Strip {
        bands: lent(rng),
        dots: lent(rng),
        ops,
    }
}
