//! The fields of a stored case. It needs nothing of the library or of `reference`.

use std::str::FromStr;

/// Bytes in hexadecimal, `-` for none.
pub fn bytes(field: &str) -> Result<Vec<u8>, String> {
    if field == "-" {
        return Ok(Vec::new());
    }
    let digits = field.bytes().all(|c| c.is_ascii_hexdigit());
    if field.is_empty() || !digits || !field.len().is_multiple_of(2) {
        return Err(format!("{field:?} is not bytes in hexadecimal"));
    }
    let pairs = (0..field.len()).step_by(2).map(|i| &field[i..i + 2]);
    Ok(pairs
        .map(|pair| u8::from_str_radix(pair, 16).expect("two hexadecimal digits"))
        .collect())
}

/// A number in decimal.
pub fn number<T: FromStr>(field: &str) -> Result<T, String> {
    field
        .parse()
        .map_err(|_| format!("{field:?} is not a number of its range"))
}
