//! Tables of figures, as Markdown.

use crate::cases::{Aim, Case, Group};
use crate::sides::SIDES;
use crate::timing::{measured, median, Measured};

/// The columns: a name, three times, two ratios, the aim.
const COLUMNS: usize = 7;

/// How many cases of a call reach their aim.
struct Tally {
    call: &'static str,
    reached: usize,
    cases: usize,
}

/// What a case took in each run.
struct Runs(Vec<Measured<3>>);

/// Measures everything so many times, and hands out the tables line by line as the last run goes on,
/// and how many aims are reached.
pub fn tables(groups: &[Group], runs: usize, mut line: impl FnMut(&str)) {
    let all = || groups.iter().flat_map(|group| &group.cases);
    let earlier: Vec<Vec<Measured<3>>> = (1..runs)
        .map(|run| {
            eprintln!("bench: run {run} of {runs}");
            all().map(figures).collect()
        })
        .collect();
    let mut earlier: Vec<_> = earlier.into_iter().map(Vec::into_iter).collect();
    let mut tallies = Vec::new();
    for Group { call, unit, cases } in groups {
        line(&head(&format!("{call}, ns a {unit}"), runs));
        line(&rule(runs));
        let mut reached = 0;
        for case in cases {
            let before = earlier.iter_mut().filter_map(Iterator::next);
            let figures = Runs(before.chain([figures(case)]).collect());
            reached += usize::from(case.aim.is_reached(figures.ratios()));
            line(&row(case, &figures));
        }
        line("");
        tallies.push(Tally { call, reached, cases: cases.len() });
    }
    let text = |Tally { call, reached, cases }: &Tally| format!("{call} {reached} of {cases}");
    let texts: Vec<String> = tallies.iter().map(text).collect();
    line(&format!("Aims reached: {}.", texts.join(", ")));
}

/// All sides answer and leave the same.
pub fn agree(case: &Case) {
    let [model, idiomatic, hand] = &SIDES;
    let right = case.subject.outcome(model);
    assert_eq!(right.0, case.subject.verdict(), "{}", case.name);
    for side in [idiomatic, hand] {
        let same = case.subject.outcome(side) == right;
        assert!(same, "{}: {} differs", case.name, side.name);
    }
}

/// Measures the sides.
fn figures(case: &Case) -> Measured<3> {
    agree(case);
    let [model, idiomatic, hand] = &SIDES;
    let calls = [model, idiomatic, hand].map(|side| case.subject.repeated(side));
    measured(calls)
}

impl Runs {
    /// Nanoseconds a call: the median of the runs.
    fn times(&self) -> [f64; 3] {
        [0, 1, 2].map(|side| median(self.0.iter().map(|run| run.times[side])))
    }

    /// The model's time to each one's: the median of the runs.
    fn ratios(&self) -> [f64; 3] {
        [0, 1, 2].map(|side| median(self.0.iter().map(|run| run.ratios[side])))
    }

    /// A ratio, with the lowest and the highest where there are several runs.
    fn ratio(&self, side: usize) -> String {
        let ratios = || self.0.iter().map(|run| run.ratios[side]);
        let (lowest, highest) = (ratios().fold(f64::MAX, f64::min), ratios().fold(0.0, f64::max));
        match self.0.len() {
            1 => format!("{lowest:.2}"),
            _ => format!("{:.2} ({lowest:.2}-{highest:.2})", self.ratios()[side]),
        }
    }

    /// Whether an aim is reached by the medians, and by how many of several runs.
    fn reached(&self, aim: &Aim) -> String {
        let by_medians = if aim.is_reached(self.ratios()) { "yes" } else { "no" };
        let count = self.0.iter().filter(|run| aim.is_reached(run.ratios)).count();
        match self.0.len() {
            1 => format!("{}: {by_medians}", aim.text()),
            runs => format!("{}: {by_medians}, {count} of {runs}", aim.text()),
        }
    }
}

impl Aim {
    fn is_reached(&self, [_, to_idiomatic, to_hand]: [f64; 3]) -> bool {
        to_idiomatic <= self.idiomatic && self.hand.map_or(true, |hand| to_hand <= hand)
    }

    fn text(&self) -> String {
        match self.hand {
            Some(hand) => format!("hand {hand}"),
            None => format!("idiomatic {}", self.idiomatic),
        }
    }
}

/// The columns' widths.
fn widths(runs: usize) -> [usize; COLUMNS] {
    match runs {
        1 => [44, 8, 10, 8, 11, 6, 18],
        _ => [44, 8, 10, 8, 16, 16, 24],
    }
}

fn head(name: &str, runs: usize) -> String {
    let [model, idiomatic, hand] = SIDES.map(|side| side.name.to_string());
    let ratios = [&idiomatic, &hand].map(|other| format!("/ {other}"));
    let [to_idiomatic, to_hand] = ratios;
    let aim = "aim".to_string();
    line(&[name.to_string(), model, idiomatic, hand, to_idiomatic, to_hand, aim], runs)
}

fn rule(runs: usize) -> String {
    let cells = widths(runs).map(|width| "-".repeat(width + 2));
    format!("|{}|", cells.join("|"))
}

fn row(case: &Case, figures: &Runs) -> String {
    let units = case.subject.units() as f64;
    let [model, idiomatic, hand] = figures.times().map(|time| format!("{:.1}", time / units));
    let (to_idiomatic, to_hand) = (figures.ratio(1), figures.ratio(2));
    let (name, aim) = (case.name.clone(), figures.reached(&case.aim));
    line(&[name, model, idiomatic, hand, to_idiomatic, to_hand, aim], figures.0.len())
}

/// A line of a table: names to the left, figures to the right.
fn line(cells: &[String; COLUMNS], runs: usize) -> String {
    let mut line = "|".to_string();
    for (number, (cell, width)) in cells.iter().zip(widths(runs)).enumerate() {
        let left = number == 0 || number == COLUMNS - 1;
        let cell = if left { format!("{cell:width$}") } else { format!("{cell:>width$}") };
        line += &format!(" {cell} |");
    }
    line
}

#[cfg(test)]
mod tests {
    use super::*;
    use crate::cases::groups;

    #[test]
    fn aims() {
        let hand = Aim { idiomatic: 1.0, hand: Some(1.5) };
        assert!(hand.is_reached([1.0, 0.75, 1.5]));
        assert!(!hand.is_reached([1.0, 0.75, 1.6]));
        assert!(!hand.is_reached([1.0, 1.1, 1.5]));
        let idiomatic = Aim { idiomatic: 0.2, hand: None };
        assert!(idiomatic.is_reached([1.0, 0.2, 20.0]));
        assert!(!idiomatic.is_reached([1.0, 0.21, 1.0]));
        assert_eq!([hand.text(), idiomatic.text()], ["hand 1.5", "idiomatic 0.2"]);
    }

    fn run(ratio: f64) -> Measured<3> {
        Measured { times: [30.0 * ratio, 100.0, 30.0], ratios: [1.0, 0.3 * ratio, ratio] }
    }

    #[test]
    fn spreads() {
        let aim = Aim { idiomatic: 1.0, hand: Some(1.2) };
        let several = Runs([1.25, 0.95, 1.1].map(run).into_iter().collect());
        assert_eq!(several.ratio(2), "1.10 (0.95-1.25)");
        assert_eq!(several.reached(&aim), "hand 1.2: yes, 2 of 3");
        let one = Runs(vec![run(1.25)]);
        assert_eq!(one.ratio(2), "1.25");
        assert_eq!(one.reached(&aim), "hand 1.2: no");
    }

    #[test]
    fn lines_are_as_long_as_each_other() {
        for runs in [1, 3] {
            let figures = || Runs([1.25, 0.95, 1.1].map(run).into_iter().take(runs).collect());
            assert_eq!(head("store, ns a call", runs).len(), rule(runs).len());
            for case in groups().iter().flat_map(|group| &group.cases) {
                assert_eq!(row(case, &figures()).len(), rule(runs).len(), "{}", case.name);
            }
        }
    }
}
