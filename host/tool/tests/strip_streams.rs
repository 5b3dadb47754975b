//! `strip`: where packets begin, in streams that are cut, damaged or have other bytes between.

mod common;

use common::packets::{coded, header, initialize, inquiry, packet, page_end, plain, print};
use common::{file, folder, ran, run};
use generate::Rng;
use printbox::strip::{Event, Receiver};

/// Packets after other bytes, after an 88 that belongs to no mark, after clock bytes of any content,
/// and in what follows a refusal. What looks like a packet in a body is none.
#[test]
fn marks() {
    let folder = folder("strip_marks");
    let inside = packet(0x04, 0, &inquiry().repeat(64));
    let mut odd_clock = initialize();
    odd_clock[8..].fill(0x88);
    for (stream, lines) in [
        (
            [b"\x33\x00abc".to_vec(), inquiry()].concat(),
            "at 5: inquiry\n",
        ),
        ([vec![0x88], inquiry()].concat(), "at 1: inquiry\n"),
        ([vec![0x88; 3], inquiry()].concat(), "at 3: inquiry\n"),
        ([vec![0x88, 0], inquiry()].concat(), "at 2: inquiry\n"),
        (
            [inside, inquiry()].concat(),
            "at 0: data, band 1 of 9\nat 650: inquiry\n",
        ),
        (
            [odd_clock, inquiry()].concat(),
            "at 0: initialize\nat 10: inquiry\n",
        ),
        // The packet that stands where the clock bytes should is lost.
        (
            [&initialize()[..8], &print(), &inquiry()].concat(),
            "at 0: initialize\nat 22: inquiry\n",
        ),
    ] {
        let path = file(&folder, "stream", &stream);
        assert_eq!(run(&["strip", &path]), ran(0, lines, ""));
    }
    // The search goes on right after a refused length, and where the clock bytes would stand after a
    // refused checksum; the byte that settles it begins nothing.
    let after_length = [header(0x02, 0, 10), inquiry()].concat();
    let after_sum = [&[0x88, 0x33, 0x0F, 0, 0, 0, 0, 0x88][..], &inquiry()].concat();
    for (stream, words, next) in [
        (
            after_length,
            "33, command 02 with indicator 00 and length 10, and print has 00 and 4",
            6,
        ),
        (after_sum, "31, checksum 8800, and the sum is 000F", 8),
    ] {
        let path = file(&folder, "stream", &stream);
        let lines = format!("at 0: refused {words}\nat {next}: inquiry\n");
        assert_eq!(run(&["strip", &path]), ran(1, &lines, ""));
    }
    let told = [&[0x88, 0x33, 1, 0, 0, 0x88][..], &inquiry()[1..]].concat();
    let path = file(&folder, "stream", &told);
    let words = "33, command 01 with indicator 00 and length 34816, and initialize has 00 and 0";
    assert_eq!(
        run(&["strip", &path]),
        ran(1, &format!("at 0: refused {words}\n"), "")
    );
}

/// A stream cut after each of its bytes. Clock bytes are no part of a packet.
#[test]
fn cut_streams() {
    let folder = folder("strip_cut_streams");
    let packets = [
        (initialize(), "initialize"),
        (print(), "print, 0 bands, margins 1 and 3, density 64"),
        (
            packet(0x04, 1, &[0x80, 7]),
            "refused 35, the body expands to 2 bytes, and not 640",
        ),
        (inquiry(), "inquiry"),
    ];
    let stream: Vec<u8> = packets.iter().flat_map(|packet| packet.0.clone()).collect();
    for length in 0..=stream.len() {
        let mut expected = String::new();
        let mut start = 0;
        let mut status = 0;
        for (packet, words) in &packets {
            let came = length.saturating_sub(start);
            if came + 2 >= packet.len() {
                expected += &format!("at {start}: {words}\n");
                status |= i32::from(words.starts_with("refused"));
            } else if came > 0 {
                expected += &format!("ends inside a packet that begins at {start}\n");
            }
            start += packet.len();
        }
        if length == 0 {
            expected += "no packet\n";
        }
        let path = file(&folder, "stream", &stream[..length]);
        assert_eq!(
            run(&["strip", &path]),
            ran(status, &expected, ""),
            "{length}"
        );
    }
    // A mark that has begun, and one that has not.
    for (end, line) in [
        (0x88, "ends inside a packet that begins at 4\n"),
        (0x33, "no packet\n"),
    ] {
        let path = file(&folder, "stream", &[0x33, 0x88, 0x88, 0, end]);
        assert_eq!(run(&["strip", &path]), ran(0, line, ""));
    }
    let path = file(&folder, "stream", &[0; 100_000]);
    assert_eq!(run(&["strip", &path]), ran(0, "no packet\n", ""));
}

/// Random packets, many of them damaged: a line for each that the library ends, with the place that
/// its length gives.
#[test]
fn random_streams() {
    let folder = folder("strip_random_streams");
    let mut counts = [0; 40];
    for seed in 0..300 {
        let stream = random_stream(&mut Rng::new(seed));
        let mut receiver = Receiver::new();
        let mut expected = Vec::new();
        let mut status = 0;
        for (at, byte) in stream.iter().enumerate() {
            let pushed = receiver.push(*byte);
            let size = usize::from(receiver.record().size);
            if let Some(refusal) = pushed.refusal {
                let length = if refusal.number == 33 { 6 } else { 8 + size };
                let start = at + 1 - length;
                expected.push(format!("at {start}: refused {}, ", refusal.number));
                counts[usize::from(refusal.number)] += 1;
                status = 1;
            }
            if let Some(event) = pushed.event {
                let (kind, words) = match event {
                    Event::Initialize => (1, "initialize"),
                    Event::Band(_) => (2, "data, band "),
                    Event::PageEnd => (3, "data, end of page"),
                    Event::Inquiry => (4, "inquiry"),
                    Event::Print(_) => (5, "print, "),
                };
                expected.push(format!("at {}: {words}", at + 1 - (8 + size)));
                counts[kind] += 1;
            }
        }
        let path = file(&folder, "stream", &stream);
        let told = run(&["strip", &path]);
        assert_eq!((told.status, &*told.error), (status, ""), "seed {seed}");
        let lines = told.output.lines().filter(|line| line.starts_with("at "));
        let lines: Vec<&str> = lines.collect();
        assert_eq!(lines.len(), expected.len(), "seed {seed}");
        for (line, expected) in lines.iter().zip(expected) {
            assert!(
                line.starts_with(&expected),
                "seed {seed}: {line}, {expected}"
            );
        }
    }
    for kind in [1, 2, 3, 4, 5, 31, 32, 33, 34, 35] {
        assert!(counts[kind] >= 100, "{kind}: {counts:?}");
    }
}

fn random_stream(rng: &mut Rng) -> Vec<u8> {
    let mut stream = Vec::new();
    for _ in 0..rng.between(10, 60) {
        let mut packet = match rng.below(12) {
            0 if rng.one_in(3) => initialize(),
            1 => print(),
            2 => inquiry(),
            3 => page_end(),
            4 => packet(rng.byte() | 0x40, rng.byte(), &[0x88, 0x33, 0x0F]),
            5 => coded(rng.byte()),
            6 => {
                let count = rng.between(1, 9) as usize;
                packet(0x04, 1, &rng.bytes(count))
            }
            7 => header(rng.pick(&[1, 2, 4, 7, 15]), 3, rng.word()),
            _ => plain(rng.byte()),
        };
        if rng.one_in(5) {
            let at = rng.index(packet.len());
            let byte = rng.byte();
            packet[at] = rng.pick(&[0, 0x33, 0x88, byte]);
        }
        if rng.one_in(9) {
            packet.truncate(rng.index(packet.len()));
        }
        stream.extend(packet);
    }
    stream
}
