//! The memory that buffers are lent in sees what it is there to see.

mod common;

use common::fenced::{FencedEnd, FencedStart};
use common::guarded::{Guarded, Memory, GUARD};
use std::os::unix::process::ExitStatusExt;
use std::process::Command;

/// Writes another byte at a distance from the buffer's first byte, as a faulty library would.
fn damage(memory: &mut impl Memory, at: isize) {
    let start = memory.lent().as_mut_ptr();
    // SAFETY: the places that the tests name are within the memory, and nothing refers to it.
    unsafe {
        let byte = start.offset(at);
        byte.write(!byte.read());
    }
}

fn notices<M: Memory>(content: &[u8], at: isize) -> bool {
    let mut memory = M::new(content);
    damage(&mut memory, at);
    memory.content().is_err()
}

#[test]
fn known_bytes_show_a_write() {
    for length in [0, 1, 100] {
        let content = vec![7; length];
        let (length, guard) = (length as isize, GUARD as isize);
        for distance in 1..=guard {
            assert!(notices::<Guarded>(&content, -distance));
            assert!(notices::<Guarded>(&content, length + distance - 1));
            assert!(notices::<FencedEnd>(&content, -distance));
            assert!(notices::<FencedStart>(&content, length + distance - 1));
        }
        for at in 0..length {
            assert!(!notices::<Guarded>(&content, at));
            assert!(!notices::<FencedEnd>(&content, at));
            assert!(!notices::<FencedStart>(&content, at));
        }
    }
}

#[test]
fn content_is_what_was_written() {
    let mut memory = Guarded::new(&[1, 2, 3]);
    damage(&mut memory, 1);
    assert_eq!(memory.content(), Ok(&[1, !2, 3][..]));
}

/// Reads a byte outside of a fenced buffer; run by the test below, which expects it to be stopped.
#[test]
#[ignore = "is stopped by a fault"]
fn reads_past_a_fence() {
    let length = 100;
    let byte = match std::env::var("PRINTBOX_FENCE").as_deref() {
        Ok("end") => FencedEnd::new(&vec![7; length])
            .lent()
            .as_ptr()
            .wrapping_add(length),
        Ok("start") => FencedStart::new(&vec![7; length])
            .lent()
            .as_ptr()
            .wrapping_sub(1),
        _ => return,
    };
    // SAFETY: the page is mapped, and a read there stops the program before anything comes of it.
    println!("{}", unsafe { byte.read_volatile() });
}

#[test]
fn fences_stop_a_read() {
    const SEGMENTATION_FAULT: i32 = 11;
    let run = |fence: &str| {
        let mut command = Command::new(std::env::current_exe().expect("this test's own file"));
        command.args(["--exact", "reads_past_a_fence", "--ignored"]);
        command.env("PRINTBOX_FENCE", fence);
        command.output().expect("the test is run").status
    };
    assert_eq!(run("end").signal(), Some(SEGMENTATION_FAULT));
    assert_eq!(run("start").signal(), Some(SEGMENTATION_FAULT));
    assert!(run("none").success());
}
