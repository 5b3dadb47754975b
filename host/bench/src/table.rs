//! Markdown tables, and the numbers in them.

use std::fmt::{self, Write};

/// A table whose first `texts` columns are flush left and whose others are numbers.
pub struct Table {
    texts: usize,
    head: Vec<String>,
    rows: Vec<Vec<String>>,
}

impl Table {
    pub fn new(texts: usize, head: &[&str]) -> Table {
        Table {
            texts,
            head: head.iter().map(|cell| cell.to_string()).collect(),
            rows: Vec::new(),
        }
    }

    pub fn row(&mut self, cells: Vec<String>) {
        assert_eq!(cells.len(), self.head.len(), "a cell for each column");
        self.rows.push(cells);
    }

    /// A line of the table, its cells padded to the widths.
    fn line(&self, cells: &[String], widths: &[usize], f: &mut fmt::Formatter) -> fmt::Result {
        for (i, (cell, &width)) in cells.iter().zip(widths).enumerate() {
            if i < self.texts {
                write!(f, "| {cell:<width$} ")?;
            } else {
                write!(f, "| {cell:>width$} ")?;
            }
        }
        f.write_str("|\n")
    }
}

impl fmt::Display for Table {
    fn fmt(&self, f: &mut fmt::Formatter) -> fmt::Result {
        let lines = || self.rows.iter().chain([&self.head]);
        let width = |i: usize| lines().map(|line| line[i].chars().count()).max();
        let widths: Vec<usize> = (0..self.head.len()).filter_map(width).collect();
        self.line(&self.head, &widths, f)?;
        for (i, width) in widths.iter().enumerate() {
            let (end, rule) = (
                if i < self.texts { '-' } else { ':' },
                "-".repeat(width + 1),
            );
            write!(f, "|{rule}{end}")?;
        }
        f.write_str("|\n")?;
        self.rows
            .iter()
            .try_for_each(|row| self.line(row, &widths, f))
    }
}

/// A whole number in groups of three digits.
pub fn grouped(number: usize) -> String {
    let digits = number.to_string();
    let mut text = String::new();
    for (i, digit) in digits.chars().enumerate() {
        if i > 0 && (digits.len() - i).is_multiple_of(3) {
            text.push(',');
        }
        text.push(digit);
    }
    text
}

/// A number above 0 with three digits that count, or more where it is 1,000 and over.
pub fn three_digits(number: f64) -> String {
    if number >= 99.95 {
        return grouped(number.round() as usize);
    }
    // As many places as the leading zeros take, and the digits after the first.
    let mut places = 1;
    let mut limit = 9.995;
    while number < limit && places < 6 {
        places += 1;
        limit /= 10.0;
    }
    let mut text = String::new();
    write!(text, "{number:.places$}").expect("text takes all that is written");
    text
}

#[cfg(test)]
mod tests {
    use super::*;

    #[test]
    fn numbers() {
        for (number, text) in [
            (0, "0"),
            (999, "999"),
            (1000, "1,000"),
            (16_777_216, "16,777,216"),
        ] {
            assert_eq!(grouped(number), text);
        }
        for (number, text) in [
            (12_345.6, "12,346"),
            (123.4, "123"),
            (99.96, "100"),
            (99.94, "99.9"),
            (12.34, "12.3"),
            (9.996, "10.0"),
            (1.234, "1.23"),
            (0.9996, "1.00"),
            (0.1234, "0.123"),
            (0.01234, "0.0123"),
            (0.000001234, "0.000001"),
        ] {
            assert_eq!(three_digits(number), text, "{number}");
        }
    }

    #[test]
    fn tables() {
        let mut table = Table::new(1, &["who", "ms"]);
        table.row(vec!["–".into(), "1.00".into()]);
        table.row(vec!["filter".into(), "12".into()]);
        assert_eq!(
            table.to_string(),
            "\
| who    |   ms |
|--------|-----:|
| –      | 1.00 |
| filter |   12 |
"
        );
    }
}
