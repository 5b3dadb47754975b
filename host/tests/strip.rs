//! The strip printer's receiver: the stored cases, the library against `reference` on random
//! streams, records with any numbers in them, and the receiver that owns its buffers.
//! tests/common/rounds.rs says how to give another seed and length.

mod common;

use common::fenced::{FencedEnd, FencedStart};
use common::guarded::{Guarded, Memory};
use common::rounds::{rounds, wanted};
use common::strip::{call, phase, told, Session, PLAIN};
use common::strip_cases::{case, not_plain, Case, Op, Outcome, STRIP};
use generate::{Rng, StripOp};
use printbox::strip::{
    receive, set_status, Pushed, Receiver, Record, BANDS, BAND_BYTES, BODY_BYTES, PAGE_BYTES,
};
use reference::strip::{Answer, Event};
use std::collections::BTreeMap;

const ROUNDS: u64 = 8_000;

/// The names of the phases in the stored cases, by their numbers.
const PHASES: [&str; 11] = [
    "hunt",
    "mark",
    "command",
    "indicator",
    "len0",
    "len1",
    "body",
    "sum0",
    "sum1",
    "clock1",
    "clock2",
];

impl Case {
    fn session(&self) -> Session<'_> {
        Session {
            bands: &self.bands,
            dots: &self.dots,
            ops: &self.ops,
        }
    }

    /// What comes of the case in the library, with buffers in memory of this kind.
    fn library<M: Memory>(&self) -> Result<Outcome, String> {
        let mut answers = Vec::new();
        let line = self.session().play::<M>(|answer, _| {
            answers.push(answer);
            Ok(())
        })?;
        let record = line.record;
        let place = match PHASES.get(usize::from(record.phase)) {
            Some(&"body") => format!("body/{}", record.have),
            Some(name) => name.to_string(),
            None => format!("phase {}", record.phase),
        };
        Ok(Outcome {
            answers: not_plain(answers),
            waiting: record.bands.into(),
            bands: line.bands.content()?.to_vec(),
            dots: line.dots.content()?.to_vec(),
            place,
        })
    }

    /// What comes of the case in `reference`, where the bytes that are taken say it.
    fn reference(&self) -> Option<Outcome> {
        let (taken, reading) = self.session().reading()?;
        let (mut bands, mut dots) = (self.bands.clone(), self.dots.clone());
        for write in &reading.writes {
            write.put(&mut bands, &mut dots);
        }
        Some(Outcome {
            answers: not_plain(taken.answers(&reading.answers, Answer::Refused(36))),
            waiting: reading.waiting.len() / BAND_BYTES,
            bands,
            dots,
            place: reading.place.to_string(),
        })
    }
}

#[test]
fn stored_cases() {
    let (mut lines, mut read) = (0, 0);
    for (index, line) in STRIP.lines().enumerate() {
        let at = format!("strip.txt, line {}", index + 1);
        let case = case(line).unwrap_or_else(|fault| panic!("{at}: {fault}"));
        for (memory, outcome) in [
            ("known bytes beside buffers", case.library::<Guarded>()),
            ("a fence after buffers", case.library::<FencedEnd>()),
            ("a fence before buffers", case.library::<FencedStart>()),
        ] {
            let outcome = outcome.unwrap_or_else(|fault| panic!("{at}, {memory}: {fault}"));
            assert_eq!(outcome, case.expected, "{at}, library, {memory}");
        }
        lines += 1;
        if let Some(outcome) = case.reference() {
            assert_eq!(outcome, case.expected, "{at}, reference");
            let agreed = case.session().agreed_in::<Guarded>();
            agreed.unwrap_or_else(|difference| panic!("{at}: {difference}"));
            read += 1;
        }
    }
    // In three cases somebody writes the count of bands and a byte is taken after that.
    assert_eq!((lines, read), (510, 507));
}

/// A line that is damaged is a fault and never passes for a case.
#[test]
fn lines_that_cannot_be_read() {
    let good = "strip 2 bb 1 dd b:00 = - 0 01 - hunt";
    assert!(case(good).is_ok());
    for (part, other) in [
        ("strip", "stripe"),
        (" 2", " -2"),
        ("bb", "bbb"),
        ("dd", "dddd"),
        ("b:00", "b:0"),
        ("b:00", "b"),
        ("b:00", "n:256"),
        ("b:00", "m:65536"),
        ("b:00", "u:1"),
        ("b:00", "x:00:5760"),
        ("b:00", "b:00,"),
        (" = ", " "),
        ("= -", "= 0"),
        ("= -", "= a:r81"),
        (" 01 ", " 010203 "),
        (" hunt", ""),
        ("hunt", "hunt "),
    ] {
        let line = good.replacen(part, other, 1);
        assert_ne!(line, good);
        assert!(case(&line).is_err(), "{line:?} was taken for a case");
    }
}

fn op(op: StripOp) -> Op {
    match op {
        StripOp::Bytes(bytes) => Op::Bytes(bytes),
        StripOp::Status(status) => Op::Status(status),
        StripOp::Lent { byte, bands, dots } => Op::Lent { byte, bands, dots },
        StripOp::Bands(count) => Op::Bands(count),
        StripOp::Body(count) => Op::Body(count),
        StripOp::Undo => Op::Undo,
    }
}

/// What an answer is counted as.
fn name(answer: Answer) -> &'static str {
    match answer {
        PLAIN => "reply 0",
        Answer::Reply(0x81) => "reply 81",
        Answer::Reply(_) => "another reply",
        Answer::Acted(Event::Initialize) => "Initialize",
        Answer::Acted(Event::Band(_)) => "Data, a band",
        Answer::Acted(Event::PageEnd) => "Data, empty",
        Answer::Acted(Event::Inquiry) => "Inquiry",
        Answer::Acted(Event::Print { bands: 0, .. }) => "Print, no band",
        Answer::Acted(Event::Print { .. }) => "Print",
        Answer::Refused(31) => "refused 31",
        Answer::Refused(32) => "refused 32",
        Answer::Refused(33) => "refused 33",
        Answer::Refused(34) => "refused 34",
        Answer::Refused(35) => "refused 35",
        Answer::Refused(36) => "refused 36",
        Answer::Refused(_) => "another refusal",
    }
}

/// How often each answer was given.
type Counts = BTreeMap<&'static str, u64>;

/// Prints the counts. Each refusal and each event has to be there at least a hundred times, and
/// nothing that is no answer.
fn show(counts: &Counts, is_whole: bool) {
    for (name, count) in counts {
        println!("{name:16} {count:>10}");
    }
    assert_eq!(counts.get("another refusal"), None);
    let acted = [
        "Initialize",
        "Data, a band",
        "Data, empty",
        "Inquiry",
        "Print",
        "Print, no band",
    ];
    let refused = (31..=36).map(|number| name(Answer::Refused(number)));
    for name in acted.into_iter().chain(refused).filter(|_| is_whole) {
        let count = counts.get(name).copied().unwrap_or(0);
        assert!(count >= 100, "{name}: {count}");
    }
}

#[test]
fn library_against_reference() {
    let mut counts = Counts::new();
    let mut places: BTreeMap<u8, u64> = BTreeMap::new();
    // The packets are those that were read to their checksum.
    let (mut calls, mut packets) = (0, 0);
    rounds(ROUNDS, |seed| {
        let rng = &mut Rng::new(seed);
        let strip = generate::strip(rng);
        let ops: Vec<Op> = strip.ops.into_iter().map(op).collect();
        let session = Session {
            bands: &strip.bands,
            dots: &strip.dots,
            ops: &ops,
        };
        let (answers, place) = match rng.below(4) {
            0 => session.agreed_in::<FencedEnd>()?,
            1 => session.agreed_in::<FencedStart>()?,
            _ => session.agreed_in::<Guarded>()?,
        };
        calls += answers.len();
        for answer in answers.into_iter().filter(|answer| *answer != PLAIN) {
            *counts.entry(name(answer)).or_default() += 1;
            packets += u64::from(matches!(
                answer,
                Answer::Acted(_) | Answer::Refused(31 | 32 | 34 | 35)
            ));
        }
        *places.entry(phase(place)).or_default() += 1;
        Ok(())
    });
    println!("{calls} calls, {packets} packets read to their checksum");
    let is_whole = wanted(ROUNDS) >= ROUNDS;
    show(&counts, is_whole);
    println!("where the streams end:");
    for (phase, count) in &places {
        println!("{:16} {count:>10}", PHASES[usize::from(*phase)]);
    }
    if is_whole {
        assert!(packets >= 300_000, "{packets} packets");
        let seen: Vec<u8> = places.into_keys().collect();
        assert_eq!(seen, Vec::from_iter(0..PHASES.len() as u8));
    }
}

/// A number that is often at a limit.
fn number(rng: &mut Rng, limits: &[u16]) -> u16 {
    match rng.below(16) {
        0 => rng.word(),
        1 => rng.below(1_000) as u16,
        _ => rng.pick(limits),
    }
}

/// A record with any numbers in it.
fn odd_record(rng: &mut Rng) -> Record {
    let known = rng.pick(&[0x01, 0x02, 0x04, 0x04, 0x0F]);
    Record {
        phase: if rng.percent(85) {
            rng.below(11) as u8
        } else {
            rng.byte()
        },
        command: if rng.percent(80) { known } else { rng.byte() },
        indicator: if rng.percent(80) {
            rng.below(2) as u8
        } else {
            rng.byte()
        },
        size: number(rng, &[0, 1, 3, 4, 5, 639, 640, 641, 647, 648, 649, 0xFFFF]),
        have: number(
            rng,
            &[0, 1, 3, 4, 5, 639, 640, 640, 640, 641, 646, 647, 648, 649],
        ),
        sum: rng.word(),
        low: rng.byte(),
        status: rng.byte(),
        bands: number(rng, &[0, 0, 1, 2, 5, 7, 8, 9, 9, 10]) as u8,
        body: if rng.percent(30) {
            // Runs of 128 and of 129: many bodies of these expand to 640.
            [rng.pick(&[0xFE, 0xFF]); BODY_BYTES]
        } else {
            std::array::from_fn(|_| rng.byte())
        },
    }
}

/// A byte for a record: where a checksum is awaited mostly the right one.
fn next_byte(rng: &mut Rng, record: &mut Record) -> u8 {
    let [low, high] = record.sum.to_le_bytes();
    match record.phase {
        0 | 11.. => rng.pick(&[0x88, 0x88, 0x33, 0]),
        1 => rng.pick(&[0x33, 0x33, 0x88, 0]),
        7 if rng.percent(80) => low,
        8 if rng.percent(80) => {
            record.low = low;
            high
        }
        _ => rng.byte(),
    }
}

/// Whether a record may give the answer where it stands, whatever else is in it.
fn may_answer(before: &Record, byte: u8, answer: Answer) -> bool {
    let right = u16::from_le_bytes([before.low, byte]) == before.sum;
    match before.phase {
        5 => matches!(answer, Answer::Reply(0) | Answer::Refused(33)),
        8 if !right => answer == Answer::Refused(31),
        8 => match answer {
            Answer::Acted(Event::Band(waiting)) => waiting == before.bands + 1,
            Answer::Acted(Event::Print { bands, .. }) => bands == before.bands,
            _ => matches!(answer, Answer::Acted(_) | Answer::Refused(32 | 34 | 35)),
        },
        9 => answer == Answer::Reply(0x81),
        10 => answer == Answer::Reply(before.status),
        _ => answer == Answer::Reply(0),
    }
}

/// One call with any record: refused with 36 as stated, and then nothing changes; no other byte of
/// a buffer is written than those of a band or of a page's rows.
fn odd_call<M: Memory>(
    record: &mut Record,
    byte: u8,
    bands: &mut M,
    dots: &mut M,
) -> Result<Answer, String> {
    let before = *record;
    let [bands_before, dots_before] = [bands.content()?.to_vec(), dots.content()?.to_vec()];
    let answer = call(record, byte, bands.lent(), dots.lent())?;
    let (bands_written, dots_written) = match answer {
        Answer::Acted(Event::Band(waiting)) => {
            let end = BAND_BYTES * usize::from(waiting);
            (end - BAND_BYTES..end, 0..0)
        }
        Answer::Acted(Event::Print { bands, .. }) => (0..0, 0..BAND_BYTES * usize::from(bands)),
        _ => (0..0, 0..0),
    };
    for (after, before, written) in [
        (bands.content()?, &bands_before[..], bands_written),
        (dots.content()?, &dots_before[..], dots_written),
    ] {
        if written.end > PAGE_BYTES {
            return Err(format!("{answer:?}, and only nine bands wait"));
        }
        if after[..written.start] != before[..written.start]
            || after[written.end..] != before[written.end..]
        {
            return Err(format!(
                "{answer:?}, and other bytes of a buffer were written"
            ));
        }
    }
    if answer != Answer::Refused(36) && !may_answer(&before, byte, answer) {
        return Err(format!("{answer:?} in phase {}", before.phase));
    }
    Ok(answer)
}

fn odd_calls<M: Memory>(rng: &mut Rng, counts: &mut Counts) -> Result<(), String> {
    let mut room = || match rng.below(30) {
        0 => rng.pick(&[0, 5_759]),
        1 => rng.index(PAGE_BYTES),
        2 => PAGE_BYTES + rng.index(1_000),
        _ => PAGE_BYTES,
    };
    let (bands_room, dots_room) = (room(), room());
    let fill = rng.byte();
    let content = |room: usize| -> Vec<u8> { (0..room).map(|at| at as u8 ^ fill).collect() };
    let mut bands = M::new(&content(bands_room));
    let mut dots = M::new(&content(dots_room));
    let mut record = odd_record(rng);
    for _ in 0..rng.pick(&[1, 3, 12]) {
        let byte = next_byte(rng, &mut record);
        let before = record;
        let answer = odd_call(&mut record, byte, &mut bands, &mut dots).map_err(|fault| {
            format!(
                "{fault}\nbyte {byte:02x}, buffers of {bands_room} and {dots_room} bytes, \
                 {before:?}"
            )
        })?;
        *counts.entry(name(answer)).or_default() += 1;
    }
    Ok(())
}

#[test]
fn odd_records() {
    const ROUNDS: u64 = 100_000;
    let mut counts = Counts::new();
    rounds(ROUNDS, |seed| {
        let rng = &mut Rng::new(seed);
        match rng.below(3) {
            0 => odd_calls::<FencedEnd>(rng, &mut counts),
            1 => odd_calls::<FencedStart>(rng, &mut counts),
            _ => odd_calls::<Guarded>(rng, &mut counts),
        }
    });
    show(&counts, wanted(ROUNDS) >= ROUNDS);
}

/// The rule of 36 at its limits, in every phase.
#[test]
fn limits_of_36() {
    let mut refused = 0;
    let room = [0, 1, PAGE_BYTES - 1, PAGE_BYTES, PAGE_BYTES + 1];
    let rooms = room
        .iter()
        .flat_map(|&bands| room.map(|dots| (bands, dots)));
    for (bands_room, dots_room) in rooms {
        let mut bands = Guarded::new(&vec![0xBB; bands_room]);
        let mut dots = Guarded::new(&vec![0xDD; dots_room]);
        for phase in [Vec::from_iter(0..=12), vec![255]].concat() {
            for waiting in [0, BANDS as u8, BANDS as u8 + 1, u8::MAX] {
                for have in [0, BODY_BYTES as u16, BODY_BYTES as u16 + 1, u16::MAX] {
                    for byte in [0x00, 0x88] {
                        let mut record = Record {
                            phase,
                            bands: waiting,
                            have,
                            size: u16::MAX,
                            ..Record::new()
                        };
                        let answer = odd_call(&mut record, byte, &mut bands, &mut dots)
                            .unwrap_or_else(|fault| panic!("{fault}: {phase} {waiting} {have}"));
                        refused += usize::from(answer == Answer::Refused(36));
                    }
                }
            }
        }
    }
    // Of 25 pairs of rooms 4 are enough, and with these 4 of 16 pairs of counts.
    assert_eq!(refused, (25 * 16 - 4 * 4) * 14 * 2);
}

/// A number that is no phase is the search for a mark.
#[test]
fn other_phases() {
    for phase in 11..=255 {
        for byte in 0..=255 {
            let mut record = Record {
                phase,
                ..Record::new()
            };
            let (mut bands, mut dots) = ([0xBB; PAGE_BYTES], [0xDD; PAGE_BYTES]);
            let mut push = |byte| told(receive(&mut record, byte, &mut bands, &mut dots));
            assert_eq!(push(byte), Ok(Answer::Reply(0)));
            assert_eq!(push(0x33), Ok(Answer::Reply(0)));
            let marked = record.phase == 2;
            assert_eq!(marked, byte == 0x88, "phase {phase}, byte {byte:02x}");
        }
    }
}

#[test]
fn new_record() {
    let new = Record::new();
    assert_eq!(new, Record::default());
    assert_eq!((new.phase, new.bands, new.have, new.status), (0, 0, 0, 0));
    let inquiry = [0x88, 0x33, 0x0F, 0, 0, 0, 0x0F, 0, 0, 0];
    let mut receiver = Receiver::default();
    let replies = inquiry.map(|byte| receiver.push(byte).reply);
    assert_eq!(replies, [0, 0, 0, 0, 0, 0, 0, 0, 0x81, 0]);
}

/// After 31 the record tells the sum that the checksum is not.
#[test]
fn sum_of_a_wrong_checksum() {
    let mut receiver = Receiver::new();
    let body = [0xFF; BAND_BYTES];
    let packet = [&[0x88, 0x33, 4, 0, 0x80, 2], &body[..], &[0x07, 0x7E]].concat();
    let last = packet.iter().map(|&byte| receiver.push(byte)).last();
    let refusal = last.and_then(|pushed| pushed.refusal);
    assert_eq!(refusal.map(|refusal| refusal.number), Some(31));
    assert_eq!(receiver.record().sum, 0x7E06);
}

/// The receiver that owns its buffers does what `receive` does with lent ones.
#[test]
fn receiver_against_receive() {
    const ROUNDS: u64 = 1_000;
    let (mut packets, mut pages) = (0, 0);
    rounds(ROUNDS, |seed| {
        let rng = &mut Rng::new(seed);
        let mut receiver = Receiver::new();
        let (mut record, mut bands, mut dots) =
            (Record::new(), vec![0; PAGE_BYTES], vec![0; PAGE_BYTES]);
        for op in generate::strip(rng).ops {
            let bytes = match op {
                StripOp::Bytes(bytes) => bytes,
                StripOp::Status(status) => {
                    receiver.set_status(status);
                    set_status(&mut record, status);
                    continue;
                }
                _ => continue,
            };
            for byte in bytes {
                let pushed = receiver.push(byte);
                let answer = receive(&mut record, byte, &mut bands, &mut dots);
                let (reply, event, refusal) = match answer {
                    Ok(printbox::strip::Answer::Reply(reply)) => (reply, None, None),
                    Ok(printbox::strip::Answer::Acted(event)) => (0, Some(event), None),
                    Err(refusal) => (0, None, Some(refusal)),
                };
                let expected = Pushed {
                    reply,
                    event,
                    refusal,
                };
                if pushed != expected {
                    return Err(format!("{pushed:?}, receive {answer:?}"));
                }
                if event.is_none() && refusal.is_none() {
                    continue;
                }
                packets += 1;
                let waiting = usize::from(record.bands) * BAND_BYTES;
                if *receiver.record() != record || receiver.waiting() != &bands[..waiting] {
                    return Err(format!("{pushed:?}: other bands wait"));
                }
                if let Some(printbox::strip::Event::Print(print)) = event {
                    pages += 1;
                    let rows = usize::from(print.bands) * BAND_BYTES;
                    if receiver.rows(print.bands) != &dots[..rows] {
                        return Err(format!("{pushed:?}: other rows"));
                    }
                }
                // More rows than a page has are those of nine bands.
                if receiver.rows(10) != dots || receiver.rows(u8::MAX) != dots {
                    return Err(format!("{pushed:?}: other rows of nine bands"));
                }
            }
        }
        Ok(())
    });
    println!("{packets} packets, {pages} pages");
    if wanted(ROUNDS) >= ROUNDS {
        assert!(packets >= 10_000, "{packets} packets");
        assert!(pages >= 1_000, "{pages} pages");
    }
}
