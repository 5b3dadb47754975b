//! What is wrong with a packet that was refused, in words: a line of `strip`.
//!
//! The number is the proved library's. What follows it is worked out here from the receiver's record,
//! and no proof covers it.

use printbox::strip::{Record, BAND_BYTES, BODY_BYTES};
use printbox::Refusal;

/// The words of a refused packet, as `refused 31, checksum 1A2B, and the sum is 1A2C`: by the record
/// after the byte that settled it, and that byte.
pub fn words(refusal: &Refusal, record: &Record, byte: u8) -> String {
    // The byte is the high one of the length or of the checksum.
    let number = u16::from_le_bytes([record.low, byte]);
    let command = record.command;
    let what = match refusal.number {
        31 => format!("checksum {number:04X}, and the sum is {:04X}", record.sum),
        32 => format!("there is no command {command:02X}"),
        33 => format!(
            "command {command:02X} with indicator {:02X} and length {number}, and {}",
            record.indicator,
            fitting(command)
        ),
        34 => "a tenth band".to_string(),
        35 => body(&record.body[..usize::from(record.size).min(BODY_BYTES)]),
        _ => "the byte is not taken".to_string(),
    };
    format!("refused {}, {what}", refusal.number)
}

/// The indicator and length that a command has.
fn fitting(command: u8) -> &'static str {
    match command {
        0x01 => "initialize has 00 and 0",
        0x02 => "print has 00 and 4",
        0x04 => "data has 00 and 0 or 640, or 01 and 1 to 648",
        0x0F => "inquiry has 00 and 0",
        _ => "no length is over 648",
    }
}

/// In which way a coded body does not expand to a band.
fn body(body: &[u8]) -> String {
    let mut rest = body;
    let mut bytes = 0;
    while let [lead, after @ ..] = rest {
        let count = usize::from(lead & 0x7F);
        let (written, expanded) = match lead {
            0x80.. => (1, count + 2),
            _ => (count + 1, count + 1),
        };
        match after.get(written..) {
            Some(after) => rest = after,
            None if bytes > BAND_BYTES => {
                return format!("the body expands to over {BAND_BYTES} bytes");
            }
            None => return "the body's last run is cut".to_string(),
        }
        bytes += expanded;
    }
    format!("the body expands to {bytes} bytes, and not {BAND_BYTES}")
}
