//! The stored cases, through the library and through `reference`: answers and buffers, byte for
//! byte. tests/common/cases.rs says how they are written.

mod common;

use common::cases::{case, Case, FILM, GDI, MODEL, P1, P5, P7};
use common::fenced::{FencedEnd, FencedStart};
use std::collections::BTreeMap;

/// What is wrong with a line's outcome: of the library in each kind of memory, or of `reference`.
fn faults(case: &Case) -> Vec<String> {
    let (call, expected) = (case.call(), &case.expected);
    let mut faults = Vec::new();
    for (name, outcome) in [
        ("library", call.library()),
        (
            "library, buffers fenced at their end",
            call.library_in::<FencedEnd>(),
        ),
        (
            "library, buffers fenced at their start",
            call.library_in::<FencedStart>(),
        ),
        ("reference", Ok(call.reference())),
    ] {
        match outcome {
            Err(fault) => faults.push(format!("{name}: {fault}")),
            Ok(outcome) if outcome != *expected => {
                faults.push(format!("{name}: {outcome}\nexpected: {expected}"))
            }
            Ok(_) => {}
        }
    }
    faults
}

/// Runs the lines of a file and holds the number of lines for each entry against `counts`.
fn run(file: &str, text: &str, counts: &[(&str, usize)]) {
    let mut run = BTreeMap::new();
    let mut found = Vec::new();
    for (index, line) in text.lines().enumerate() {
        let at = format!("{file}, line {}", index + 1);
        match case(line) {
            Err(fault) => found.push(format!("{at}: {fault}")),
            Ok(case) => {
                *run.entry(case.entry.name()).or_insert(0) += 1;
                found.extend(
                    faults(&case)
                        .into_iter()
                        .map(|fault| format!("{at}: {fault}")),
                );
            }
        }
    }
    assert!(
        found.is_empty(),
        "{} faults\n{}",
        found.len(),
        found.join("\n")
    );
    assert_eq!(run, counts.iter().copied().collect(), "lines run of {file}");
}

#[test]
fn film() {
    let counts = [("film_check", 390), ("film_draw", 560)];
    run("film.txt", FILM, &counts);
}

#[test]
fn gdi() {
    let counts = [
        ("gdi_check", 280),
        ("gdi_read_line", 320),
        ("gdi_write_row", 160),
        ("gdi_write_page_head", 200),
    ];
    run("gdi.txt", GDI, &counts);
}

#[test]
fn model() {
    let counts = [
        ("film_check", 152),
        ("film_draw", 360),
        ("gdi_check", 149),
        ("gdi_read_line", 191),
        ("gdi_write_row", 42),
        ("gdi_write_page_head", 31),
    ];
    run("model.txt", MODEL, &counts);
}

#[test]
fn p1() {
    let counts = [("film_check", 122), ("film_draw", 600)];
    run("p1.txt", P1, &counts);
}

#[test]
fn p7() {
    let counts = [("film_check", 122), ("film_draw", 600)];
    run("p7.txt", P7, &counts);
}

#[test]
fn p5() {
    let counts = [("film_check", 122), ("film_draw", 600)];
    run("p5.txt", P5, &counts);
}

/// A line that is damaged is a fault and never passes for a case.
#[test]
fn lines_that_cannot_be_read() {
    for line in [
        "",
        "job 00",
        "job 0 = pages 1",
        "job 0g = pages 1",
        "job  = pages 1",
        "job 00 = written 1 00",
        "job 00 = pages -1",
        "job 00 = pages 1 ",
        "check 00 = pages 1",
        "linefill 3 = written 1 -",
        "row 65536000000000000000000 00 00 = refused 27 0",
        "pagehead 0 1 1 256 0 0 0 - = refused 27 0",
    ] {
        assert!(case(line).is_err(), "{line:?} was taken for a case");
    }
}
