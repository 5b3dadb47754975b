//! The strip printer's line: the stored cases, and the points that are easily mistaken.

#[path = "../../../tests/common/fields.rs"]
mod fields;
#[allow(dead_code)]
#[path = "../../../tests/common/strip_cases.rs"]
mod strip_cases;

use crate::strip::{is_not_taken, read, Answer, Buffer, Event, Place, Reading};
use strip_cases::{case, not_plain, taken, Case, Outcome, STRIP};

/// What comes of a case, where the bytes that are taken say it.
fn outcome(case: &Case) -> Option<Outcome> {
    let taken = taken(&case.ops, case.bands.len(), case.dots.len(), is_not_taken)?;
    let reading = read(&taken.bytes, &taken.status);
    let (mut bands, mut dots) = (case.bands.clone(), case.dots.clone());
    for write in &reading.writes {
        write.put(&mut bands, &mut dots);
    }
    let waiting = reading.waiting.len();
    assert_eq!(bands[..waiting], reading.waiting);
    Some(Outcome {
        answers: not_plain(taken.answers(&reading.answers, Answer::Refused(36))),
        waiting: waiting / 640,
        bands,
        dots,
        place: reading.place.to_string(),
    })
}

#[test]
fn stored_cases() {
    let (mut read, mut left_out) = (0, 0);
    for (index, line) in STRIP.lines().enumerate() {
        let case = case(line).unwrap_or_else(|fault| panic!("line {}: {fault}", index + 1));
        match outcome(&case) {
            Some(outcome) => {
                assert_eq!(outcome, case.expected, "line {}", index + 1);
                read += 1;
            }
            None => left_out += 1,
        }
    }
    // In three cases somebody writes the count of bands and a byte is taken after that.
    assert_eq!((read, left_out), (507, 3));
}

/// The reading of a stream with the status 5A.
fn reading(stream: &[u8]) -> Reading {
    read(stream, &vec![0x5A; stream.len()])
}

/// The answers that are not a plain 0, as text, and where the stream ends.
fn told(parts: &[&[u8]]) -> (String, Place) {
    let reading = reading(&parts.concat());
    let answers = not_plain(&reading.answers);
    let texts: Vec<String> = answers
        .iter()
        .map(|(byte, what)| format!("{byte}:{what}"))
        .collect();
    (texts.join(" "), reading.place)
}

fn is_told(parts: &[&[u8]], answers: &str) {
    assert_eq!(told(parts), (answers.to_string(), Place::Searching));
}

/// A packet with its right checksum.
fn packet(command: u8, indicator: u8, body: &[u8]) -> Vec<u8> {
    let [low, high] = (body.len() as u16).to_le_bytes();
    let bytes = [&[command, indicator, low, high], body].concat();
    let sum = bytes
        .iter()
        .fold(0, |sum: u16, byte| sum.wrapping_add(u16::from(*byte)));
    [&[0x88, 0x33], &bytes[..], &sum.to_le_bytes()].concat()
}

/// An Inquiry packet, and two clock bytes.
const INQUIRY: [u8; 10] = [0x88, 0x33, 0x0F, 0, 0, 0, 0x0F, 0, 0, 0];

#[test]
fn marks() {
    is_told(&[&INQUIRY], "7:einquiry 8:r81 9:r5a");
    is_told(&[&[0x88], &INQUIRY], "8:einquiry 9:r81 10:r5a");
    is_told(&[&[0x88, 0x88, 0], &INQUIRY], "10:einquiry 11:r81 12:r5a");
    is_told(&[&[0x88, 0], &INQUIRY[1..]], "");
    is_told(&[&[0x83], &INQUIRY[1..]], "");
    assert_eq!(told(&[&[0, 0x88]]).1, Place::Marking);
    assert_eq!(told(&[&[0x88, 0x88]]).1, Place::Marking);
    assert_eq!(told(&[&[0x88, 0x33]]).1, Place::Header(0));
}

/// A packet that is refused has no clock bytes, and its last byte begins no mark.
#[test]
fn after_a_refusal() {
    let mut wrong = packet(1, 0, &[]);
    wrong[6] ^= 1;
    is_told(&[&wrong, &INQUIRY], "7:f31 15:einquiry 16:r81 17:r5a");
    wrong[7] = 0x88;
    is_told(&[&wrong, &INQUIRY[1..]], "7:f31");
    // Told at the length, and what follows is searched.
    is_told(&[&[0x88, 0x33, 1, 0, 0, 0x88], &INQUIRY[1..]], "5:f33");
    let five = packet(2, 0, &INQUIRY[..5]);
    is_told(&[&five[..6], &INQUIRY], "5:f33 13:einquiry 14:r81 15:r5a");
}

/// Any bytes are clock bytes, and the status is the one at the second.
#[test]
fn clock() {
    let stream = [&INQUIRY[..8], &[0x88, 0x33, 0x0F]].concat();
    is_told(&[&stream], "7:einquiry 8:r81 9:r5a");
    let status: Vec<u8> = (0..11).collect();
    assert_eq!(read(&stream, &status).answers[9], Answer::Reply(9));
    assert_eq!(told(&[&stream[..8]]).1, Place::Clock(0));
    assert_eq!(told(&[&stream[..9]]).1, Place::Clock(1));
}

#[test]
fn headers() {
    let told_at_length = |command, indicator, length: u16| {
        let [low, high] = length.to_le_bytes();
        let stream = [0x88, 0x33, command, indicator, low, high];
        match reading(&stream).answers[5] {
            Answer::Reply(0) => true,
            Answer::Refused(33) => false,
            answer => panic!("{answer:?} at a length"),
        }
    };
    let lengths = |command, indicator| -> Vec<u16> {
        let fits = |length: &u16| told_at_length(command, indicator, *length);
        (0..=u16::MAX).filter(fits).collect()
    };
    assert_eq!(lengths(0x01, 0), [0]);
    assert_eq!(lengths(0x0F, 0), [0]);
    assert_eq!(lengths(0x02, 0), [4]);
    assert_eq!(lengths(0x04, 0), [0, 640]);
    assert_eq!(lengths(0x04, 1), Vec::from_iter(1..=648));
    for command in [0x01, 0x02, 0x0F] {
        assert_eq!(lengths(command, 1), []);
    }
    for command in [0x01, 0x02, 0x04, 0x0F] {
        assert_eq!(lengths(command, 2), []);
        assert_eq!(lengths(command, 0xFF), []);
    }
    for command in [0x00, 0x03, 0x11, 0x14, 0xFF] {
        assert_eq!(lengths(command, 0), Vec::from_iter(0..=648));
        assert_eq!(lengths(command, 0xFF), Vec::from_iter(0..=648));
    }
}

#[test]
fn places() {
    let stream = packet(4, 0, &[7; 640]);
    for (end, place) in [
        (2, Place::Header(0)),
        (5, Place::Header(3)),
        (6, Place::Body(0)),
        (645, Place::Body(639)),
        (646, Place::Checksum(0)),
        (647, Place::Checksum(1)),
        (648, Place::Clock(0)),
    ] {
        let reading = reading(&stream[..end]);
        assert_eq!(reading.place, place);
        let open = if end < 648 { &stream[2..end] } else { &[] };
        assert_eq!(reading.open, open);
    }
    assert_eq!(told(&[&INQUIRY[..6]]).1, Place::Checksum(0));
}

/// The order of the refusals at the second checksum byte.
#[test]
fn order() {
    let init = packet(1, 0, &[]);
    let band = [packet(4, 0, &[0xFF; 640]), vec![0; 2]].concat();
    let nine = [init, vec![0; 2], band.repeat(9)].concat();
    let last = |after: &[u8]| {
        let reading = reading(&[&nine, after].concat());
        assert_eq!(reading.waiting, vec![0xFF; 5_760]);
        *reading.answers.last().expect("a byte")
    };
    let broken = |mut packet: Vec<u8>| {
        *packet.last_mut().expect("a checksum") ^= 0x80;
        packet
    };
    assert_eq!(last(&packet(4, 0, &[])), Answer::Acted(Event::PageEnd));
    assert_eq!(last(&packet(4, 0, &[1; 640])), Answer::Refused(34));
    assert_eq!(last(&packet(4, 1, &[0x80])), Answer::Refused(34));
    assert_eq!(last(&broken(packet(4, 1, &[0x80]))), Answer::Refused(31));
    assert_eq!(last(&packet(0x14, 9, &[0; 648])), Answer::Refused(32));
    assert_eq!(last(&broken(packet(0x14, 9, &[]))), Answer::Refused(31));
}

#[test]
fn coded_bodies() {
    let answer = |body: &[u8]| {
        let reading = reading(&packet(4, 1, body));
        *reading.answers.last().expect("a byte")
    };
    let acted = Answer::Acted(Event::Band(1));
    let run = |length: usize| [0x80 + (length - 2) as u8, 7];
    let runs = |lengths: &[usize]| -> Vec<u8> { lengths.iter().flat_map(|&n| run(n)).collect() };
    let most = runs(&[129, 129, 129, 129]);
    assert_eq!(answer(&[&most[..], &run(124)].concat()), acted);
    assert_eq!(
        answer(&[&most[..], &run(123)].concat()),
        Answer::Refused(35)
    );
    assert_eq!(
        answer(&[&most[..], &run(125)].concat()),
        Answer::Refused(35)
    );
    assert_eq!(answer(&[&most[..], &run(123), &[0, 5]].concat()), acted);
    // Bytes after the 640, of a run that is cut or is whole.
    for rest in [&[0x80][..], &[0], &[0x80, 7], &[0, 7], &[5, 7]] {
        let body = [&most[..], &run(124), rest].concat();
        assert_eq!(answer(&body), Answer::Refused(35));
    }
    // The last run is cut.
    assert_eq!(answer(&[&most[..], &[0xFA]].concat()), Answer::Refused(35));
    let cut = [&most[..], &[123], &[1; 123]].concat();
    assert_eq!(answer(&cut), Answer::Refused(35));
    assert_eq!(answer(&[&cut[..], &[1]].concat()), acted);
    // The source's example.
    let example = [
        0x82, 0, 6, 0xFF, 0, 0xFF, 0, 0, 0xFF, 0, 0x83, 0xFF, 0xFF, 9, 0xFF, 9, 0xFF, 9, 0xFF, 9,
        0xEA, 9,
    ];
    let mut expanded = vec![0, 0, 0, 0, 0xFF, 0, 0xFF, 0, 0, 0xFF, 0];
    expanded.extend([0xFF; 5]);
    expanded.resize(640, 9);
    assert_eq!(reading(&packet(4, 1, &example)).waiting, expanded);
    // Literal runs of 128, and eight of 80: 648 bytes.
    let literals = |count: usize, length: usize| {
        let literal = [vec![length as u8 - 1], vec![3; length]].concat();
        literal.repeat(count)
    };
    assert_eq!(answer(&literals(5, 128)), acted);
    assert_eq!(answer(&literals(8, 80)), acted);
}

/// A band of bytes FF passes 65,535 twice.
#[test]
fn checksum() {
    let band = packet(4, 0, &[0xFF; 640]);
    assert_eq!(band[646..], [0x06, 0x7E]);
    assert_eq!(
        reading(&band).answers.last(),
        Some(&Answer::Acted(Event::Band(1)))
    );
    let saturated = [&band[..646], &[0xFF, 0xFF]].concat();
    assert_eq!(
        reading(&saturated).answers.last(),
        Some(&Answer::Refused(31))
    );
}

fn page(stream: &[u8]) -> Vec<u8> {
    let reading = reading(stream);
    let last = reading.writes.last().expect("a page was printed");
    assert_eq!(
        (last.buffer, last.from, last.at),
        (Buffer::Dots, 0, stream.len() - 1)
    );
    last.bytes.clone()
}

#[test]
fn rows() {
    // Of the first band: the upper left tile has all four indices in its first row, the tile at the
    // right of the second tile row is all index 2. The second band is all index 1.
    let mut first = [0; 640];
    first[..2].copy_from_slice(&[0b0101_0011, 0b0011_0001]);
    for row in first[16 * 39..].chunks_mut(2) {
        row[1] = 0xFF;
    }
    let second = [0xFF, 0].repeat(320);
    let bands = [
        packet(4, 0, &first),
        vec![0; 2],
        packet(4, 0, &second),
        vec![0; 2],
    ]
    .concat();
    let printed = |palette| {
        let print = packet(2, 0, &[0x55, 0x13, palette, 0x7F]);
        let stream = [&bands[..], &print].concat();
        let event = Event::Print {
            bands: 2,
            margins: 0x13,
            density: 0x7F,
        };
        assert_eq!(reading(&stream).answers.last(), Some(&Answer::Acted(event)));
        page(&stream)
    };
    // 00 is white, index 0 in the highest bits: E4 turns the indices round, 1B keeps them.
    let kept = printed(0x1B);
    assert_eq!(kept.len(), 2 * 640);
    // Indices 0 1 2 3 0 0 1 3.
    assert_eq!(kept[..3], [0b00_01_10_11, 0b00_00_01_11, 0]);
    assert_eq!(kept[40 * 7..40 * 8], [0; 40]);
    for y in 8..16 {
        assert_eq!(kept[40 * y..40 * y + 38], [0; 38]);
        assert_eq!(kept[40 * y + 38..40 * (y + 1)], [0b10_10_10_10; 2]);
    }
    assert_eq!(kept[640..], [0b01_01_01_01; 640]);
    let turned: Vec<u8> = kept.iter().map(|byte| !byte).collect();
    assert_eq!(printed(0xE4), turned);
    assert_eq!(printed(0x00), [0; 1280]);
    assert_eq!(printed(0xFF), [0xFF; 1280]);
}

/// Print frees no room; Initialize does.
#[test]
fn room() {
    let clocked = |packet: Vec<u8>| [packet, vec![0; 2]].concat();
    let band = clocked(packet(
        4,
        1,
        &[0xFF, 1]
            .repeat(4)
            .into_iter()
            .chain([0xFA, 1])
            .collect::<Vec<u8>>(),
    ));
    let print = clocked(packet(2, 0, &[1, 0, 0xE4, 0]));
    let prints = |stream: &[u8]| -> Vec<u8> {
        let answers = reading(stream).answers;
        let bands = answers.iter().filter_map(|answer| match answer {
            Answer::Acted(Event::Print { bands, .. }) => Some(*bands),
            _ => None,
        });
        bands.collect()
    };
    let init = clocked(packet(1, 0, &[]));
    let stream = [
        &print[..],
        &band,
        &print,
        &print,
        &band,
        &print,
        &init,
        &print,
    ]
    .concat();
    assert_eq!(prints(&stream), [0, 1, 1, 2, 0]);
    let stream = [&band.repeat(9), &print[..], &band, &init, &band, &print].concat();
    assert_eq!(prints(&stream), [9, 1]);
    assert_eq!(page(&print[..12]), []);
}

#[test]
fn rule_of_36() {
    assert!(!is_not_taken(5_760, 5_760, 9, 648));
    assert!(is_not_taken(5_759, usize::MAX, 0, 0));
    assert!(is_not_taken(usize::MAX, 5_759, 0, 0));
    assert!(is_not_taken(5_760, 5_760, 10, 0));
    assert!(is_not_taken(5_760, 5_760, 0, 649));
}
