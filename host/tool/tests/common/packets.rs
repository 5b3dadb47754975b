//! Packets of a pocket gauge.

/// A packet, and two clock bytes.
pub fn packet(command: u8, indicator: u8, body: &[u8]) -> Vec<u8> {
    let header = header(command, indicator, body.len() as u16);
    let summed = header[2..].iter().chain(body);
    let sum = summed.map(|byte| u32::from(*byte)).sum::<u32>() as u16;
    [&header, body, &sum.to_le_bytes(), &[0, 0]].concat()
}

/// The mark and the header of a packet.
pub fn header(command: u8, indicator: u8, size: u16) -> Vec<u8> {
    let [low, high] = size.to_le_bytes();
    vec![0x88, 0x33, command, indicator, low, high]
}

pub fn initialize() -> Vec<u8> {
    packet(0x01, 0, &[])
}

/// A plain band of one byte.
pub fn plain(byte: u8) -> Vec<u8> {
    packet(0x04, 0, &[byte; 640])
}

/// A coded band of one byte.
pub fn coded(byte: u8) -> Vec<u8> {
    let whole = [0xFF, byte].repeat(4);
    packet(0x04, 1, &[&whole[..], &[0xFA, byte]].concat())
}

/// Data with no body.
pub fn page_end() -> Vec<u8> {
    packet(0x04, 0, &[])
}

/// Print, with margins 1 and 3, each index as its own shade, and density 64.
pub fn print() -> Vec<u8> {
    packet(0x02, 0, &[1, 0x13, 0x1B, 64])
}

pub fn inquiry() -> Vec<u8> {
    packet(0x0F, 0, &[])
}
