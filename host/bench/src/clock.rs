//! Competitors timed in turn, round by round.

use crate::ffi::processor_time;
use std::time::{Duration, Instant};

/// A moment to count from: in processor time, so that other programs of the machine take no part; in
/// time as it passes where the system does not tell it.
enum Start {
    Processor(Duration),
    Clock(Instant),
}

impl Start {
    fn now() -> Start {
        match processor_time() {
            Some(time) => Start::Processor(time),
            None => Start::Clock(Instant::now()),
        }
    }

    fn elapsed(&self) -> Duration {
        match self {
            Start::Processor(start) => processor_time().map_or(Duration::ZERO, |now| now - *start),
            Start::Clock(start) => start.elapsed(),
        }
    }
}

/// What the times are of.
pub fn kind() -> &'static str {
    match Start::now() {
        Start::Processor(_) => "processor time",
        Start::Clock(_) => "time as it passes",
    }
}

/// A shorter run is repeated within its round until the round takes this long. Tests look at no time.
const ROUND_TIME: Duration = Duration::from_millis(if cfg!(test) { 1 } else { 40 });

/// A competitor whose run takes longer has at most [`SLOW_ROUNDS`] rounds; the library has all.
pub const SLOW: Duration = Duration::from_millis(200);
pub const SLOW_ROUNDS: usize = 3;

/// Who is timed.
#[derive(Clone, Copy, Debug, PartialEq, Eq)]
pub enum Who {
    Library,
    Reference,
    Memory,
    Pixman,
    Libtiff,
    Filter,
    /// The filter on a raster of 15 rows: mostly the start of its process.
    FilterStart,
}

/// What is timed: it writes into its output and answers a number, so that both can be compared.
type Run = Box<dyn FnMut(&mut Vec<u8>) -> usize>;

pub struct Competitor {
    pub who: Who,
    pub output: Vec<u8>,
    run: Run,
    /// How long the run took that [`Competitor::once`] made.
    first: Option<Duration>,
}

/// The milliseconds of one run in each round; None where the competitor took no part.
#[derive(Clone, Debug, PartialEq)]
pub struct Times {
    pub who: Who,
    pub rounds: Vec<Option<f64>>,
}

impl Competitor {
    pub fn new(
        who: Who,
        output: Vec<u8>,
        run: impl FnMut(&mut Vec<u8>) -> usize + 'static,
    ) -> Competitor {
        Competitor {
            who,
            output,
            run: Box::new(run),
            first: None,
        }
    }

    /// Runs once and answers what the run answers.
    pub fn once(&mut self) -> usize {
        let start = Start::now();
        let answer = (self.run)(&mut self.output);
        self.first = Some(start.elapsed());
        answer
    }

    fn time(&mut self, repeats: u32) -> Duration {
        let start = Start::now();
        for _ in 0..repeats {
            std::hint::black_box((self.run)(&mut self.output));
        }
        start.elapsed()
    }

    /// How many runs make a round, and how many rounds there are of at most `rounds`.
    fn plan(&mut self, rounds: usize) -> (u32, usize) {
        let mut repeats = 1;
        // A first run is slower than others by the pages of its output, which a slow one hides.
        let mut taken = match self.first {
            Some(first) if first > SLOW => first,
            _ => self.time(repeats),
        };
        while taken < ROUND_TIME {
            // Halfway there is near enough to aim; else double.
            repeats = if taken * 2 > ROUND_TIME {
                let aim = ROUND_TIME.as_secs_f64() / taken.as_secs_f64() * 1.1;
                (f64::from(repeats) * aim).ceil() as u32
            } else {
                repeats * 2
            };
            taken = self.time(repeats);
        }
        if self.who != Who::Library && taken / repeats > SLOW {
            (repeats, rounds.min(SLOW_ROUNDS))
        } else {
            (repeats, rounds)
        }
    }
}

/// Whether a competitor of `few` among `all` rounds runs in this one. They are spread over all.
fn takes_part(round: usize, few: usize, all: usize) -> bool {
    (round + 1) * few / all > round * few / all
}

/// Times the competitors in turn: each once in the first round, each once in the second, and so on.
/// Within a round the slow ones come last, so that the others stand close together.
pub fn race<'a>(
    competitors: impl IntoIterator<Item = &'a mut Competitor>,
    rounds: usize,
) -> Vec<Times> {
    let mut racing: Vec<(&mut Competitor, u32, usize, Times)> = competitors
        .into_iter()
        .map(|competitor| {
            let (repeats, own) = competitor.plan(rounds);
            let times = Times {
                who: competitor.who,
                rounds: vec![None; rounds],
            };
            (competitor, repeats, own, times)
        })
        .collect();
    for round in 0..rounds {
        for slow in [false, true] {
            for (competitor, repeats, own, times) in &mut racing {
                if (*own < rounds) == slow && takes_part(round, *own, rounds) {
                    let taken = competitor.time(*repeats).as_secs_f64();
                    times.rounds[round] = Some(taken * 1000.0 / f64::from(*repeats));
                }
            }
        }
    }
    racing.into_iter().map(|(_, _, _, times)| times).collect()
}

/// The middle number, or the mean of the middle two.
fn median(mut numbers: Vec<f64>) -> f64 {
    numbers.sort_by(f64::total_cmp);
    let middle = numbers.len() / 2;
    if numbers.len() % 2 == 1 {
        numbers[middle]
    } else {
        (numbers[middle - 1] + numbers[middle]) / 2.0
    }
}

impl Times {
    fn taken(&self) -> impl Iterator<Item = f64> + '_ {
        self.rounds.iter().flatten().copied()
    }

    pub fn median(&self) -> f64 {
        median(self.taken().collect())
    }

    /// The median of the ratios of single rounds, where both took part: what slows a whole round
    /// slows both.
    pub fn over(&self, other: &Times) -> f64 {
        let pairs = self.rounds.iter().zip(&other.rounds);
        let ratios = pairs.filter_map(|(a, b)| Some((*a)? / (*b)?));
        median(ratios.collect())
    }

    /// The least and the greatest round in percent of the median.
    pub fn spread(&self) -> (f64, f64) {
        let least = self.taken().fold(f64::INFINITY, f64::min);
        let greatest = self.taken().fold(0.0, f64::max);
        let median = self.median();
        (least / median * 100.0, greatest / median * 100.0)
    }
}

#[cfg(test)]
mod tests {
    use super::*;
    use std::cell::RefCell;
    use std::rc::Rc;

    fn times(rounds: &[f64]) -> Times {
        Times {
            who: Who::Library,
            rounds: rounds.iter().map(|&time| Some(time)).collect(),
        }
    }

    #[test]
    fn medians() {
        assert_eq!(times(&[3.0]).median(), 3.0);
        assert_eq!(times(&[9.0, 1.0, 2.0]).median(), 2.0);
        assert_eq!(times(&[4.0, 1.0, 2.0, 9.0]).median(), 3.0);
        let mut few = times(&[4.0, 1.0, 2.0, 9.0]);
        few.rounds[3] = None;
        assert_eq!(few.median(), 2.0);
    }

    #[test]
    fn ratios() {
        let (one, mut other) = (times(&[8.0, 4.0, 6.0]), times(&[2.0, 2.0, 2.0]));
        assert_eq!(one.over(&one), 1.0);
        assert_eq!(one.over(&other), 3.0);
        other.rounds[2] = None;
        assert_eq!(one.over(&other), 3.0);
        other.rounds[1] = None;
        assert_eq!(one.over(&other), 4.0);
        assert_eq!(other.over(&one), 0.25);
    }

    #[test]
    fn spreads() {
        assert_eq!(times(&[2.0]).spread(), (100.0, 100.0));
        assert_eq!(times(&[5.0, 4.0, 3.0]).spread(), (75.0, 125.0));
    }

    #[test]
    fn rounds_interleave() {
        let order = Rc::new(RefCell::new(Vec::new()));
        let slow = |name: usize| {
            let order = Rc::clone(&order);
            move |_: &mut Vec<u8>| {
                order.borrow_mut().push(name);
                let start = Start::now();
                while start.elapsed() < ROUND_TIME {}
                name
            }
        };
        let mut competitors = [
            Competitor::new(Who::Library, Vec::new(), slow(1)),
            Competitor::new(Who::Memory, Vec::new(), slow(2)),
        ];
        let all = race(&mut competitors, 2);
        assert_eq!(all.len(), 2);
        assert!(all.iter().all(|times| times.taken().count() == 2));
        // Each once to plan, then the rounds.
        assert_eq!(*order.borrow(), [1, 2, 1, 2, 1, 2]);
    }

    #[test]
    fn few_rounds_are_spread() {
        let rounds = |few, all| {
            (0..all)
                .filter(|&round| takes_part(round, few, all))
                .collect()
        };
        let spread: Vec<usize> = rounds(3, 7);
        assert_eq!(spread, [2, 4, 6]);
        for all in 1..20 {
            for few in 1..=all {
                let spread: Vec<usize> = rounds(few, all);
                assert_eq!(spread.len(), few);
            }
        }
    }
}
