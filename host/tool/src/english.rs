//! Numbers in sentences.

/// A number with a comma between thousands.
pub fn thousands(number: u64) -> String {
    let digits = number.to_string();
    let mut text = String::new();
    for (at, digit) in digits.chars().enumerate() {
        if at > 0 && (digits.len() - at).is_multiple_of(3) {
            text.push(',');
        }
        text.push(digit);
    }
    text
}

/// `1 page`, `3 pages`.
pub fn count(number: usize, noun: &str) -> String {
    let ending = if number == 1 { "" } else { "s" };
    format!("{number} {noun}{ending}")
}

/// `3 pages of 40 bands`.
pub fn pages_of_bands(pages: usize, bands: usize) -> String {
    format!("{} of {}", count(pages, "page"), count(bands, "band"))
}

/// The ordinal of a thing counted from 0: `first` for 0, `21st` for 20.
pub fn ordinal(index: usize) -> String {
    const WORDS: [&str; 10] = [
        "first", "second", "third", "fourth", "fifth", "sixth", "seventh", "eighth", "ninth",
        "tenth",
    ];
    if let Some(word) = WORDS.get(index) {
        return (*word).to_string();
    }
    let number = index + 1;
    let ending = match (number % 100, number % 10) {
        (11..=13, _) => "th",
        (_, 1) => "st",
        (_, 2) => "nd",
        (_, 3) => "rd",
        _ => "th",
    };
    format!("{number}{ending}")
}

#[cfg(test)]
mod tests {
    use super::*;

    #[test]
    fn numbers() {
        let texts = [0, 999, 1000, 65_536, 16_777_216].map(thousands);
        assert_eq!(texts, ["0", "999", "1,000", "65,536", "16,777,216"]);
        assert_eq!(count(1, "band"), "1 band");
        assert_eq!(count(0, "band"), "0 bands");
    }

    #[test]
    fn ordinals() {
        let texts = [0, 9, 10, 11, 12, 20, 21, 22, 23, 110, 111, 120].map(ordinal);
        let expected = [
            "first", "tenth", "11th", "12th", "13th", "21st", "22nd", "23rd", "24th", "111th",
            "112th", "121st",
        ];
        assert_eq!(texts, expected);
    }
}
