//! Rounds of random inputs.
//!
//! PRINTBOX_SEED and PRINTBOX_ROUNDS in the environment give another seed and another number of
//! rounds. Each round has a seed of its own, the first one's and its index added, so a round that
//! shows a difference can be run alone.

const SEED: u64 = 20_260_101;

fn from_environment(name: &str, otherwise: u64) -> u64 {
    match std::env::var(name) {
        Ok(text) => text
            .parse()
            .unwrap_or_else(|_| panic!("{name} is {text:?}, and no number")),
        Err(_) => otherwise,
    }
}

/// How many rounds are run.
pub fn wanted(default: u64) -> u64 {
    from_environment("PRINTBOX_ROUNDS", default)
}

/// Calls `round` with each seed; what it answers as a difference is told with the seed.
pub fn rounds(default: u64, mut round: impl FnMut(u64) -> Result<(), String>) {
    let first = from_environment("PRINTBOX_SEED", SEED);
    for index in 0..wanted(default) {
        let seed = first.wrapping_add(index);
        if let Err(difference) = round(seed) {
            panic!(
                "round {index} of seed {first}, again with PRINTBOX_SEED={seed} PRINTBOX_ROUNDS=1\n\
                 {difference}"
            );
        }
    }
}
