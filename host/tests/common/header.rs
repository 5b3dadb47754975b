//! What the C header says of the entries.

pub const HEADER: &str = include_str!("../../include/printbox.h");

/// The refusals that the header names for an entry, as in `Refusals: 1 to 9, 11, 12.`
pub fn refusals(entry: &str) -> Vec<usize> {
    let (comment, _) = HEADER
        .split_once(&format!(" {entry}("))
        .unwrap_or_else(|| panic!("the header does not declare {entry}"));
    let (_, listed) = comment
        .rsplit_once("Refusals: ")
        .expect("refusals before an entry");
    let (listed, _) = listed.split_once(['.', ';']).expect("an end of the list");
    let number = |text: &str| -> usize { text.parse().expect("a number") };
    listed
        .split(", ")
        .flat_map(|part| {
            let (first, last) = part.split_once(" to ").unwrap_or((part, part));
            number(first)..=number(last)
        })
        .collect()
}
