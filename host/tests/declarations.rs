//! The entries are declared three times: in the proved library, which decides, in the C header and
//! for Rust. Here the latter two are held against the first, so that none can differ in a type or
//! in the order of its parameters or fields; and the refusals that the header names for each entry
//! against those that are proved to be all.

mod common;

use common::header::{refusals, HEADER};
use std::collections::BTreeSet;

const PROVED: &str = include_str!("../../crates/printbox/src/lib.rt");
const PROVED_STRUCTS: &str = include_str!("../../crates/strip_numbers/src/lib.rt");
const PROVED_REFUSALS: &str = include_str!("../../crates/printbox_refusals/specs/Refusals.antt");
const RUST: &str = include_str!("../src/ffi.rs");

/// The entries that refuse nothing: the header names no refusals for them.
const NEVER_REFUSED: [&str; 2] = ["strip_new", "strip_set_status"];

/// What stands between two texts, wherever the first does.
fn between<'a>(text: &'a str, start: &'a str, end: &'a str) -> impl Iterator<Item = &'a str> {
    text.split(start)
        .skip(1)
        .map(move |rest| rest.split(end).next().expect("a first part"))
}

/// An entry as the proved library declares it.
struct Entry {
    name: String,
    /// The name and the type of each parameter.
    parameters: Vec<(String, String)>,
    result: Option<String>,
}

/// The entries of the proved library.
fn entries() -> Vec<Entry> {
    let entries: Vec<Entry> = between(PROVED, "pub extern \"C\" fn ", "\n    ensures")
        .map(|signature| {
            let signature = signature.replace("<'a>", "").replace("'a ", "");
            let (name, rest) = signature.split_once('(').expect("parameters");
            let (parameters, result) = rest.rsplit_once(')').expect("their end");
            Entry {
                name: name.to_string(),
                parameters: pairs(parameters),
                result: result.strip_prefix(" -> ").map(str::to_string),
            }
        })
        .collect();
    assert_eq!(entries.len(), 13);
    entries
}

/// Names and their types, as in `a: u8, b: u16`.
fn pairs(text: &str) -> Vec<(String, String)> {
    text.split(',')
        .filter_map(|pair| pair.trim().split_once(": "))
        .map(|(name, its_type)| (name.to_string(), its_type.to_string()))
        .collect()
}

/// The declarations that follow from the proved library: `declare` gives that of a parameter, and
/// `whole` that of an entry of its name, its parameters and its result.
fn expected(
    declare: impl Fn(&str, &str) -> String,
    whole: impl Fn(&str, &str, Option<&str>) -> String,
) -> Vec<String> {
    let mut declarations: Vec<String> = entries()
        .iter()
        .map(|entry| {
            let declared: Vec<String> = entry
                .parameters
                .iter()
                .map(|(name, its_type)| declare(name, its_type))
                .collect();
            whole(&entry.name, &declared.join(", "), entry.result.as_deref())
        })
        .collect();
    declarations.sort_unstable();
    declarations
}

/// The declarations in a text that begin in one of these ways, each in one line.
fn declared(text: &str, starts: &[&str]) -> Vec<String> {
    let mut declarations: Vec<String> = starts
        .iter()
        .flat_map(|start| {
            between(text, start, ";")
                .filter(|rest| rest.contains('(')) // and no struct
                .map(|rest| {
                    let words: Vec<&str> = rest.split_whitespace().collect();
                    let line = words.join(" ").replace("( ", "(").replace(", )", ")");
                    format!("{}{line};", start.trim_start())
                })
                .collect::<Vec<_>>()
        })
        .collect();
    declarations.sort_unstable();
    declarations
}

/// A type of numbers in C.
fn in_c(its_type: &str) -> &str {
    match its_type {
        "usize" => "size_t",
        "u8" => "uint8_t",
        "u16" => "uint16_t",
        "u32" => "uint32_t",
        "StripRecord" => "struct strip_record",
        "StripAnswer" => "struct strip_answer",
        _ => panic!("no type of C is known for {its_type}"),
    }
}

#[test]
fn header_declares_what_is_proved() {
    let expected = expected(
        |name, its_type| match its_type {
            "&[u8]" => format!("const uint8_t *{name}, size_t {name}_length"),
            "&mut [u8]" => format!("uint8_t *{name}, size_t {name}_length"),
            "&mut [u64; 3]" => format!("uint64_t {name}[3]"),
            "&mut StripRecord" => format!("struct strip_record *{name}"),
            _ => format!("{} {name}", in_c(its_type)),
        },
        |name, parameters, result| {
            let parameters = if parameters.is_empty() {
                "void"
            } else {
                parameters
            };
            format!("{} {name}({parameters});", result.map_or("void", in_c))
        },
    );
    let starts = [
        "\nvoid ",
        "\nstruct strip_record ",
        "\nstruct strip_answer ",
    ];
    assert_eq!(declared(HEADER, &starts), expected);
}

#[test]
fn rust_declares_what_is_proved() {
    let expected = expected(
        |name, its_type| match its_type {
            "&[u8]" => format!("{name}: *const u8, {name}_len: usize"),
            "&mut [u8]" => format!("{name}: *mut u8, {name}_len: usize"),
            "&mut [u64; 3]" => format!("{name}: *mut [u64; 3]"),
            "&mut StripRecord" => format!("{name}: *mut super::StripRecord"),
            _ => format!("{name}: {its_type}"),
        },
        |name, parameters, result| match result {
            Some(result) => format!("pub fn {name}({parameters}) -> super::{result};"),
            None => format!("pub fn {name}({parameters});"),
        },
    );
    let block = between(RUST, "extern \"C\" {", "\n}").next();
    let block = block.expect("the block of the entries");
    // In it `[u64; 3]` has the only other semicolons.
    let block = block.replace("[u64; 3]", "[u64 by 3]");
    let declared: Vec<String> = declared(&block, &["pub fn "])
        .iter()
        .map(|line| line.replace("[u64 by 3]", "[u64; 3]"))
        .collect();
    assert_eq!(declared, expected);
}

/// The fields of a struct in a text, each in one line and without its comment.
fn fields(text: &str, start: &str) -> Vec<String> {
    let body = between(text, start, "\n}").next().expect("the struct");
    let mut body = body.to_string();
    while let Some((before, rest)) = body.split_once("/*") {
        let (_, after) = rest.split_once("*/").expect("a comment's end");
        body = format!("{before}{after}");
    }
    body.lines()
        .map(|line| line.trim().trim_end_matches([',', ';']).to_string())
        .filter(|line| !line.is_empty() && !line.starts_with("//"))
        .collect()
}

#[test]
fn structs_are_those_that_are_proved() {
    for (name, c_name) in [
        ("StripRecord", "strip_record"),
        ("StripAnswer", "strip_answer"),
    ] {
        let start = format!("#[repr(C)]\n#[derive(Clone, Copy)]\npub struct {name} {{");
        let proved = fields(PROVED_STRUCTS, &start);
        assert!(proved.len() > 7, "{proved:?}");

        let start = format!("pub struct {name} {{");
        assert_eq!(fields(RUST, &start), proved);

        let expected: Vec<String> = proved
            .iter()
            .map(|field| {
                let field = field.strip_prefix("pub ").expect("a public field");
                match field.split_once(": ").expect("its type") {
                    (name, "[u8; 648]") => {
                        format!("uint8_t {name}[PRINTBOX_STRIP_BODY_BYTES]")
                    }
                    (name, its_type) => format!("{} {name}", in_c(its_type)),
                }
            })
            .collect();
        let start = format!("\nstruct {c_name} {{");
        assert_eq!(fields(HEADER, &start), expected);
    }
}

/// The refusals of an entry in the proved statement: `gives` with the name of a list, which is
/// written as `1 ∷ 2 ∷ []`.
fn proved_refusals(entry: &str) -> Vec<usize> {
    let field = format!("\n  pub {entry} :");
    let field = between(PROVED_REFUSALS, &field, "≡ true").next();
    let list = between(field.expect("the entry"), "gives ", " ").next();
    let list = format!("\n{} = ", list.expect("the list's name"));
    let list = between(PROVED_REFUSALS, &list, "[]").next();
    list.expect("the list")
        .split_terminator(" ∷ ")
        .map(|number| number.parse().expect("a number"))
        .collect()
}

#[test]
fn header_names_the_proved_refusals() {
    for Entry { name, .. } in entries() {
        if NEVER_REFUSED.contains(&name.as_str()) {
            assert!(!PROVED_REFUSALS.contains(&name), "{name}");
        } else {
            assert_eq!(refusals(&name), proved_refusals(&name), "{name}");
        }
    }
}

/// The header's table has just the numbers that some entry gives, in their order.
#[test]
fn header_explains_the_proved_refusals() {
    let table = between(HEADER, "counted from 0.\n *\n", " */").next();
    let explained: Vec<usize> = table
        .expect("the table")
        .lines()
        .filter_map(|line| line[2..].split_whitespace().next()?.parse().ok())
        .collect();
    let given: BTreeSet<usize> = entries()
        .iter()
        .filter(|Entry { name, .. }| !NEVER_REFUSED.contains(&name.as_str()))
        .flat_map(|Entry { name, .. }| proved_refusals(name))
        .collect();
    assert_eq!(explained, Vec::from_iter(given));
}

/// The header's numbers of the strip printer are those of the Rust crate.
#[test]
fn header_has_the_sizes_of_the_crate() {
    use printbox::strip;
    let defined = |name: &str| -> usize {
        let start = format!("#define PRINTBOX_STRIP_{name} ");
        let value = between(HEADER, &start, "\n").next().expect("the name");
        value.parse().expect("a number")
    };
    assert_eq!(defined("WIDTH"), strip::WIDTH);
    assert_eq!(defined("ROW_BYTES"), strip::ROW_BYTES);
    assert_eq!(defined("BAND_ROWS"), strip::BAND_ROWS);
    assert_eq!(defined("BAND_BYTES"), strip::BAND_BYTES);
    assert_eq!(defined("BANDS"), strip::BANDS);
    assert_eq!(defined("BYTES"), strip::PAGE_BYTES);
    assert_eq!(defined("BODY_BYTES"), strip::BODY_BYTES);
}
