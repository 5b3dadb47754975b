//! The inputs depend on the seed alone, and no seed stops a generator.

use crate::strip::coded;
use crate::{call, film, job, line, page_head, row, strip, Rng, StripOp};

/// FNV-1a over some inputs of every kind.
fn print_of(seed: u64, count: usize) -> u64 {
    let mut rng = Rng::new(seed);
    let mut sum: u64 = 0xCBF2_9CE4_8422_2325;
    let mut add = |bytes: &[u8]| {
        for byte in bytes {
            sum = (sum ^ u64::from(*byte)).wrapping_mul(0x0100_0000_01B3);
        }
    };
    for _ in 0..count {
        let film = film(&mut rng);
        add(&film.sheet);
        add(&film.load);
        add(&call(&mut rng, &film).buffer);
        let job = job(&mut rng);
        add(&job);
        add(&line(&mut rng, &job).row);
        add(&row(&mut rng).output);
        add(&page_head(&mut rng).output);
        for op in strip(&mut rng).ops {
            match op {
                StripOp::Bytes(bytes) => add(&bytes),
                StripOp::Status(status) => add(&[status]),
                op => add(format!("{op:?}").as_bytes()),
            }
        }
    }
    sum
}

#[test]
fn splitmix64() {
    let mut rng = Rng::new(0);
    assert_eq!(rng.bits(), 0xE220_A839_7B1D_CDAF);
    assert_eq!(rng.bits(), 0x6E78_9E6A_A1B9_65F4);
}

#[test]
fn same_seed_same_inputs() {
    assert_eq!(print_of(5, 300), print_of(5, 300));
    assert_ne!(print_of(5, 300), print_of(6, 300));
}

#[test]
fn many_seeds() {
    for seed in 0..300 {
        print_of(seed, 20);
    }
}

/// The coded bodies of a strip expand to 640 bytes, and every run that can be is in some.
#[test]
fn coded_runs() {
    let (mut heads, mut longest) = ([0; 256], 0);
    for seed in 0..3_000 {
        let body = coded(&mut Rng::new(seed), 640);
        longest = longest.max(body.len());
        let (mut place, mut total) = (0, 0);
        while place < body.len() {
            let head = usize::from(body[place]);
            heads[head] += 1;
            let (bytes, stands_for) = match head {
                0..128 => (head + 2, head + 1),
                _ => (2, head - 126),
            };
            place += bytes;
            total += stands_for;
        }
        assert_eq!((place, total), (body.len(), 640));
    }
    assert_eq!(longest, 648);
    assert!(heads.iter().all(|count| *count > 0), "{heads:?}");
}
