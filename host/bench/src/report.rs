//! The outcomes as text.

use crate::clock::{self, Times, Who, SLOW, SLOW_ROUNDS};
use crate::peers;
use crate::subjects::{Outcome, Scale, Subject};
use crate::table::{grouped, three_digits, Table};

/// What stands in place of a peer's number or version.
const ABSENT: &str = "not installed";

/// The competitors of the library, with the headings of their columns.
const OTHERS: [(Who, &str); 6] = [
    (Who::Reference, "reference"),
    (Who::Memory, "memory pass"),
    (Who::Pixman, "pixman"),
    (Who::Libtiff, "libtiff"),
    (Who::Filter, "filter"),
    (Who::FilterStart, "filter, 15 rows"),
];

/// Everything that is printed of the outcomes.
pub fn report(outcomes: &[Outcome], rounds: usize) -> String {
    let limit = SLOW.as_millis();
    let mut parts = vec![
        format!(
            "Medians of {rounds} rounds, in {}; a competitor that takes over {limit} ms has at \
             most {SLOW_ROUNDS}, and its milliseconds are marked `*`. A ratio is the median of the \
             rounds' ratios.\n",
            clock::kind()
        ),
        "## The library's time over another's\n\nUnder 1 the library is faster. Spread: its least \
         and greatest round in percent of the median.\n"
            .to_string(),
        ratios(outcomes).to_string(),
        "## Milliseconds\n".to_string(),
        milliseconds(outcomes).to_string(),
        "## Growth of the library's time\n\n*Per size* divides by how many times more dots, or bytes \
         of a checked sheet, there are: 1.00 is linear.\n"
            .to_string(),
        growth(outcomes).to_string(),
        "## Inputs\n".to_string(),
        inputs(outcomes).to_string(),
    ];
    let peer = |name, version: Option<&str>| format!("{name} {}", version.unwrap_or(ABSENT));
    let linked = [
        peer("pixman", peers::PIXMAN),
        peer("libtiff", peers::LIBTIFF),
    ];
    parts.push("## Seen in this run\n".to_string());
    let mut seen = format!("- Peers: {}.\n", linked.join(", "));
    for line in outcomes.iter().flat_map(|outcome| &outcome.seen) {
        seen.push_str(&format!("- {line}\n"));
    }
    parts.push(seen);
    parts.push(
        "docs/BENCHMARKS.md says what is timed and what each competitor does otherwise.\n".into(),
    );
    parts.join("\n")
}

impl Outcome {
    fn times(&self, who: Who) -> Option<&Times> {
        self.times.iter().find(|times| times.who == who)
    }

    fn library(&self) -> &Times {
        self.times(Who::Library).expect("the library is timed")
    }

    fn names(&self) -> Vec<String> {
        vec![self.subject.title().into(), self.scale.name().into()]
    }

    /// What a competitor's cell has, where the competitor was timed; else why it was not.
    fn cell(&self, who: Who, text: impl Fn(&Times) -> String) -> String {
        match self.times(who) {
            Some(times) => text(times),
            None if self.subject.peers().contains(&who) => ABSENT.into(),
            None => "–".into(),
        }
    }
}

fn ratios(outcomes: &[Outcome]) -> Table {
    let others = &OTHERS[..OTHERS.len() - 1];
    let headings: Vec<String> = others.iter().map(|(_, name)| format!("/ {name}")).collect();
    let mut head = vec!["subject", "size", "library, ms", "spread, %"];
    head.extend(headings.iter().map(String::as_str));
    let mut table = Table::new(2, &head);
    for outcome in outcomes {
        let library = outcome.library();
        let (least, greatest) = library.spread();
        let mut cells = outcome.names();
        cells.push(three_digits(library.median()));
        cells.push(format!("{least:.0}–{greatest:.0}"));
        for &(who, _) in others {
            cells.push(outcome.cell(who, |times| three_digits(library.over(times))));
        }
        table.row(cells);
    }
    table
}

fn milliseconds(outcomes: &[Outcome]) -> Table {
    let mut head = vec!["subject", "size", "library"];
    head.extend(OTHERS.map(|(_, name)| name));
    let mut table = Table::new(2, &head);
    for outcome in outcomes {
        let mut cells = outcome.names();
        cells.push(three_digits(outcome.library().median()));
        for (who, _) in OTHERS {
            cells.push(outcome.cell(who, |times| {
                let mark = if times.rounds.contains(&None) {
                    "*"
                } else {
                    ""
                };
                three_digits(times.median()) + mark
            }));
        }
        table.row(cells);
    }
    table
}

/// How the library's time grows from the sixteenth on.
fn growth(outcomes: &[Outcome]) -> Table {
    let mut table = Table::new(
        1,
        &[
            "subject",
            "1x, ms",
            "4x over 1x",
            "per size",
            "16x over 1x",
            "per size",
        ],
    );
    for subject in Subject::ALL {
        let at = |scale: Scale| {
            let mut found = outcomes.iter();
            found.find(|x| x.subject == subject && x.scale == scale)
        };
        let [Some(one), Some(four), Some(sixteen)] =
            [Scale::Sixteenth, Scale::Quarter, Scale::Full].map(at)
        else {
            continue;
        };
        let mut cells = vec![
            subject.title().to_string(),
            three_digits(one.library().median()),
        ];
        for larger in [four, sixteen] {
            let times = larger.library().over(one.library());
            let sizes = larger.input.units() as f64 / one.input.units() as f64;
            cells.push(format!("{times:.2}"));
            cells.push(format!("{:.2}", times / sizes));
        }
        table.row(cells);
    }
    table
}

fn inputs(outcomes: &[Outcome]) -> Table {
    let mut table = Table::new(
        2,
        &["subject", "size", "bytes", "commands", "dots", "ink, %"],
    );
    let dash = || "–".to_string();
    for outcome in outcomes {
        let input = outcome.input;
        let mut cells = outcome.names();
        cells.push(grouped(input.bytes));
        cells.push(input.commands.map_or_else(dash, grouped));
        match input.dots {
            Some((dots, ink)) => {
                cells.push(grouped(dots));
                cells.push(format!("{:.1}", ink as f64 / dots as f64 * 100.0));
            }
            None => cells.extend([dash(), dash()]),
        }
        table.row(cells);
    }
    table
}

#[cfg(test)]
mod tests {
    use super::*;
    use crate::subjects::Input;

    fn outcome(subject: Subject, scale: Scale, units: usize, times: &[(Who, f64)]) -> Outcome {
        let times = times.iter().map(|&(who, time)| {
            let mut rounds = vec![Some(time); 5];
            if time > 200.0 {
                rounds[..2].fill(None);
            }
            Times { who, rounds }
        });
        Outcome {
            subject,
            scale,
            input: Input {
                bytes: 1234,
                commands: Some(56),
                dots: Some((units, units / 4)),
            },
            times: times.collect(),
            seen: vec![format!("{} was seen", scale.name())],
        }
    }

    fn outcomes() -> [Outcome; 3] {
        let at = |scale, units, time| {
            let times = [
                (Who::Library, time),
                (Who::Reference, time * 50.0),
                (Who::Memory, time / 8.0),
            ];
            outcome(Subject::Rectangles, scale, units, &times)
        };
        [
            at(Scale::Full, 16_000, 20.0),
            at(Scale::Quarter, 4_000, 4.0),
            at(Scale::Sixteenth, 1_000, 1.0),
        ]
    }

    #[test]
    fn rows() {
        let text = ratios(&outcomes()).to_string();
        let row = text.lines().nth(2).expect("a row after the heading");
        let cells: Vec<&str> = row.split('|').map(str::trim).collect();
        let wanted = [
            "",
            "draw rectangles",
            "full",
            "20.0",
            "100–100",
            "0.0200",
            "8.00",
            "not installed",
            "–",
            "–",
            "",
        ];
        assert_eq!(cells, wanted);

        let text = milliseconds(&outcomes()).to_string();
        let row = text.lines().nth(2).expect("a row after the heading");
        assert!(row.contains(" 1,000* |"), "{row}");

        let text = growth(&outcomes()).to_string();
        assert_eq!(
            text.lines().nth(2),
            Some("| draw rectangles |   1.00 |       4.00 |     1.00 |       20.00 |     1.25 |")
        );
        assert_eq!(text.lines().count(), 3);

        let text = inputs(&outcomes()).to_string();
        let row = "| draw rectangles | full      | 1,234 |       56 | 16,000 |   25.0 |";
        assert_eq!(text.lines().nth(2), Some(row));
    }

    #[test]
    fn whole() {
        let text = report(&outcomes(), 5);
        assert!(text.contains("Medians of 5 rounds"));
        assert!(text.contains("- quarter was seen\n"));
        assert!(text.contains("docs/BENCHMARKS.md"));
    }
}
