//! The library against `reference` on random inputs, many of them damaged: answers and buffers,
//! byte for byte. tests/common/rounds.rs says how to give another seed and length.

mod common;

use common::header::refusals;
use common::rounds::{rounds, wanted};
use common::rows::row_of;
use common::table::Table;
use common::{Answer, Call, Entry, Outcome};
use generate::{Film, Rng};
use printbox::gdi::{row_bytes, row_room, PageHead, WIDTH_MAX};

const ROUNDS: u64 = 80_000;

/// Makes a call and counts its answer.
fn made(
    table: &mut Table,
    entry: Entry,
    inputs: [&[u8]; 2],
    buffer: &[u8],
) -> Result<Outcome, String> {
    let outcome = Call {
        entry,
        inputs,
        buffer,
    }
    .agreed()?;
    table.count(entry, outcome.answer);
    Ok(outcome)
}

fn films(rng: &mut Rng, table: &mut Table, drawn: &mut u64) -> Result<(), String> {
    let film = generate::film(rng);
    let inputs = [&film.sheet[..], &film.load[..]];
    let check = made(table, Entry::FilmCheck, inputs, &[])?;
    for _ in 0..3 {
        let generate::Call { page, band, buffer } = generate::call(rng, &film);
        made(table, Entry::FilmDraw { page, band }, inputs, &buffer)?;
    }
    if let Answer::Done(pages, 0) = check.answer {
        *drawn += draw_whole(rng, &film, pages as usize)?;
    }
    Ok(())
}

/// Draws every band of a film that passes the check, in some order and in one buffer. None may be
/// refused, rows and dots are counted, and what one drawing leaves in the buffer is what the next
/// one finds there. Answers the bands drawn.
fn draw_whole(rng: &mut Rng, film: &Film, pages: usize) -> Result<u64, String> {
    let field = |word: usize| {
        usize::from(u16::from_be_bytes([
            film.sheet[2 * word],
            film.sheet[2 * word + 1],
        ]))
    };
    let (image_s, image_f, band_s) = (field(5), field(6), field(7));
    let row_bytes = image_f.div_ceil(16) * 2;
    let bands = image_s.div_ceil(band_s);
    let mut order: Vec<(usize, usize)> = (0..pages)
        .flat_map(|page| (0..bands).map(move |band| (page, band)))
        .collect();
    for last in (1..order.len()).rev() {
        order.swap(last, rng.index(last + 1));
    }
    let spare = rng.index(4);
    let mut buffer = rng.bytes(band_s * row_bytes + spare);
    let mut rows_drawn = 0;
    for &(page, band) in &order {
        let call = Call {
            entry: Entry::FilmDraw { page, band },
            inputs: [&film.sheet, &film.load],
            buffer: &buffer,
        };
        let outcome = call.agreed()?;
        let Answer::Done(rows, dots) = outcome.answer else {
            return Err(format!(
                "{call}\n{outcome}\na film that passes the check was refused a band"
            ));
        };
        let own_rows = band_s.min(image_s - band_s * band);
        let ones: u32 = outcome.buffer[..own_rows * row_bytes]
            .iter()
            .map(|byte| byte.count_ones())
            .sum();
        if (rows, dots) != (own_rows as u64, ones.into()) {
            return Err(format!(
                "{call}\n{outcome}\nthe band has {own_rows} rows and {ones} dots"
            ));
        }
        rows_drawn += own_rows;
        buffer = outcome.buffer;
    }
    assert_eq!(rows_drawn, pages * image_s);
    Ok(order.len() as u64)
}

fn jobs(rng: &mut Rng, table: &mut Table, read: &mut u64) -> Result<(), String> {
    let job = generate::job(rng);
    let inputs = [&job[..], &[]];
    let check = made(table, Entry::GdiCheck, inputs, &[])?;
    if let Answer::Done(pages, 0) = check.answer {
        let pages = read_through(&job, pages)?;
        *read += pages.iter().map(Vec::len).sum::<usize>() as u64;
    }
    for _ in 0..3 {
        let generate::Line {
            offset,
            left,
            width,
            row,
        } = generate::line(rng, &job);
        made(
            table,
            Entry::GdiReadLine {
                offset,
                left,
                width,
            },
            inputs,
            &row,
        )?;
    }
    Ok(())
}

/// The rows of each page of a job that passes the check. None may be refused, each page has as many
/// lines as its head says, and the document end stands after the last.
fn read_through(job: &[u8], pages: u64) -> Result<Vec<Vec<Vec<u8>>>, String> {
    let mut page = 86;
    let mut read = Vec::new();
    for _ in 0..pages {
        let number =
            |at: usize| usize::from(u16::from_le_bytes([job[page + at], job[page + at + 1]]));
        let (width, height) = (number(12), number(14));
        let (mut offset, mut left) = (page + 21, 0);
        let untouched = vec![0xEE; row_bytes(width)];
        let mut rows = Vec::new();
        loop {
            let entry = Entry::GdiReadLine {
                offset,
                left,
                width,
            };
            let call = Call {
                entry,
                inputs: [job, &[]],
                buffer: &untouched,
            };
            let outcome = call.agreed()?;
            let lines = rows.len();
            match outcome.answer {
                Answer::Done(next, rest) if lines < height => {
                    (offset, left) = (next as usize, rest as usize);
                    rows.push(outcome.buffer);
                }
                Answer::PageEnd(next, 0) if lines == height && outcome.buffer == untouched => {
                    page = next as usize;
                    break;
                }
                _ => {
                    return Err(format!(
                        "{call}\n{outcome}\nafter {lines} of {height} lines"
                    ))
                }
            }
        }
        read.push(rows);
    }
    if job[page..] != [0x14, 0, 0, 0, 0, 0] {
        return Err(format!("no document end at {page} of {job:02x?}"));
    }
    Ok(read)
}

fn writers(rng: &mut Rng, table: &mut Table, read_back: &mut u64) -> Result<(), String> {
    for _ in 0..2 {
        let generate::Row { width, row, output } = generate::row(rng);
        let wrote = made(table, Entry::GdiWriteRow { width }, [&row, &[]], &output)?;
        if let Answer::Done(length, 0) = wrote.answer {
            reads_back(rng, width, &row, &wrote.buffer[..length as usize])?;
            *read_back += 1;
        }
    }
    let head = generate::page_head(rng);
    let entry = Entry::GdiWritePageHead(PageHead {
        tray: head.tray,
        width: head.width,
        height: head.height,
        format: head.format,
        paper_type: head.paper_type,
        copies: head.copies,
        toner: head.toner,
    });
    made(table, entry, [&[], &[]], &head.output)?;

    // The entries that take a length or a width and nothing else: a few calls for each round go
    // over all of them.
    let entry = rng.pick(&[
        Entry::GdiWriteHead,
        Entry::GdiWritePageEnd,
        Entry::GdiWriteDocumentEnd,
    ]);
    let room = rng.index(if matches!(entry, Entry::GdiWriteHead) {
        100
    } else {
        10
    });
    made(table, entry, [&[], &[]], &rng.bytes(room))?;
    let width = rng.index(WIDTH_MAX + WIDTH_MAX / 16);
    made(table, Entry::GdiLinefill { width }, [&[], &[]], &[])?;
    Ok(())
}

/// A row that was written as a line is read back as that row.
fn reads_back(rng: &mut Rng, width: usize, row: &[u8], line: &[u8]) -> Result<(), String> {
    let call = Call {
        entry: Entry::GdiReadLine {
            offset: 0,
            left: 0,
            width,
        },
        inputs: [line, &[]],
        buffer: &rng.bytes(row.len()),
    };
    let read = call.agreed()?;
    if read.answer != Answer::Done(line.len() as u64, 0) || read.buffer != row {
        return Err(format!(
            "{call}\n{read}\na row that was written is not read back"
        ));
    }
    Ok(())
}

#[test]
fn library_against_reference() {
    let mut table = Table::default();
    let (mut drawn, mut read, mut read_back) = (0, 0, 0);
    rounds(ROUNDS, |seed| {
        let rng = &mut Rng::new(seed);
        films(rng, &mut table, &mut drawn)?;
        jobs(rng, &mut table, &mut read)?;
        writers(rng, &mut table, &mut read_back)
    });
    println!("{table}");
    println!("{drawn} bands drawn of films and {read} lines read of jobs that pass the check");
    println!("{read_back} rows read back");
    if wanted(ROUNDS) < ROUNDS {
        return;
    }
    assert!(table.total() >= 1_000_000, "{} inputs", table.total());
    for number in (1..=13).chain([15]).chain(21..=27) {
        assert!(
            table.refused(number) >= 100,
            "number {number}: {}",
            table.refused(number)
        );
    }
    // Each entry gave just the refusals that the header names for it; but no job here is too long.
    for (name, given) in table.refusals() {
        let mut named = refusals(name);
        named.retain(|&number| number != 1 || name.starts_with("film"));
        assert_eq!(given, named, "{name}");
    }
    for (name, done) in table.done() {
        assert!(done >= 100, "{name} done: {done}");
    }
    assert!(table.page_ends() >= 100, "page ends: {}", table.page_ends());
}

/// Writes a row of one colour but for the dots at `others`, each an end of it, and reads it back.
/// Answers whether it was written: it is, where the width is admitted and the output long enough.
fn widest_row(rng: &mut Rng, width: usize, colour: u8, others: &[usize]) -> Result<bool, String> {
    let mut row = row_of(width, colour);
    for other in others {
        row[other / 8] ^= 0x80 >> (other % 8);
    }
    // A head, two bytes for the long run, and a byte for each dot of the other colour.
    let line = 6 + 2 + others.len();
    let room = match rng.below(6) {
        0 => line - 1,
        1 => rng.index(line),
        2 => line,
        3 => line + rng.index(row_room(width)),
        4 => row_room(width) - 1,
        _ => row_room(width),
    };
    let call = Call {
        entry: Entry::GdiWriteRow { width },
        inputs: [&row, &[]],
        buffer: &rng.bytes(room),
    };
    let wrote = call.agreed()?;
    let expected = if width > WIDTH_MAX || room < line {
        Answer::Refused(27, 0)
    } else {
        Answer::Done(line as u64, 0)
    };
    if wrote.answer != expected {
        return Err(format!("{call}\n{wrote}\nand not {expected:?}"));
    }
    if !wrote.is_refused() {
        reads_back(rng, width, &row, &wrote.buffer[..line])?;
    }
    Ok(!wrote.is_refused())
}

/// The longest runs there are: rows as wide as a row may be, a dot less and a dot more, all black
/// and all white, and with a dot of the other colour at either end or at both.
#[test]
fn widest_rows() {
    let (mut written, mut refused) = (0, 0);
    rounds(400, |seed| {
        let rng = &mut Rng::new(seed);
        for width in [WIDTH_MAX - 1, WIDTH_MAX, WIDTH_MAX + 1] {
            let last = width - 1;
            for others in [&[][..], &[0], &[last], &[0, last]] {
                for colour in [0x00, 0xFF] {
                    if widest_row(rng, width, colour, others)? {
                        written += 1;
                    } else {
                        refused += 1;
                    }
                }
            }
        }
        Ok(())
    });
    println!("{written} of the widest rows written and read back, {refused} refused");
}

/// A row of a width: noise, or runs of some length.
fn row(rng: &mut Rng, width: usize) -> Vec<u8> {
    let bytes = row_bytes(width);
    let mut row = vec![0; bytes];
    if rng.one_in(3) {
        row = rng.bytes(bytes);
    } else {
        let longest = rng.pick(&[2, 20, 70, 600, 20_000]);
        let (mut from, mut black) = (0, rng.one_in(2));
        while from < width {
            let to = width.min(from + 1 + rng.index(longest));
            for f in (from..to).filter(|_| black) {
                row[f / 8] |= 0x80 >> (f % 8);
            }
            (from, black) = (to, !black);
        }
    }
    row[bytes - 1] &= 0xFF << (8 * bytes - width);
    row
}

/// Appends what an entry writes, which is not refused.
fn append(job: &mut Vec<u8>, entry: Entry, row: &[u8], room: usize) -> Result<(), String> {
    let call = Call {
        entry,
        inputs: [row, &[]],
        buffer: &vec![0xEE; room],
    };
    let outcome = call.agreed()?;
    match outcome.answer {
        Answer::Done(length, 0) => job.extend_from_slice(&outcome.buffer[..length as usize]),
        _ => return Err(format!("{call}\n{outcome}\na writer refused")),
    }
    Ok(())
}

/// Whole jobs: written, checked, and read back line by line.
#[test]
fn written_jobs_read_back() {
    let (mut jobs, mut lines) = (0, 0);
    rounds(2_000, |seed| {
        let rng = &mut Rng::new(seed);
        let mut pages = Vec::new();
        let mut job = Vec::new();
        append(&mut job, Entry::GdiWriteHead, &[], 86)?;
        for _ in 0..rng.index(4) {
            let greatest = rng.pick(&[9, 70, 300, 5_000, WIDTH_MAX]);
            let width = 1 + rng.index(greatest);
            let rows: Vec<Vec<u8>> = (0..1 + rng.index(6)).map(|_| row(rng, width)).collect();
            let head = PageHead {
                tray: rng.bits() as u32,
                width: width as u16,
                height: rows.len() as u16,
                format: rng.byte(),
                paper_type: rng.byte(),
                copies: rng.byte(),
                toner: rng.index(2) as u8,
            };
            append(&mut job, Entry::GdiWritePageHead(head), &[], 21)?;
            for row in &rows {
                append(&mut job, Entry::GdiWriteRow { width }, row, row_room(width))?;
            }
            append(&mut job, Entry::GdiWritePageEnd, &[], 6)?;
            lines += rows.len();
            pages.push(rows);
        }
        append(&mut job, Entry::GdiWriteDocumentEnd, &[], 6)?;

        let check = Call {
            entry: Entry::GdiCheck,
            inputs: [&job, &[]],
            buffer: &[],
        };
        let outcome = check.agreed()?;
        if outcome.answer != Answer::Done(pages.len() as u64, 0) {
            return Err(format!(
                "{check}\n{outcome}\na job that was written does not pass"
            ));
        }
        if read_through(&job, pages.len() as u64)? != pages {
            return Err(format!(
                "{check}\na job that was written is not read back: {pages:02x?}"
            ));
        }
        jobs += 1;
        Ok(())
    });
    println!("{jobs} jobs of {lines} lines written and read back");
}
