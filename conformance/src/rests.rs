//! Positions of rest: what a chart and a call show of them.

use crate::blanks::BLANK;
use crate::capi::{Refusal, Run, NONE};
use crate::chart::{held, Chart, Owner, Position};
use crate::model::Subject;

/// The bytes of a chart's line.
const LINE: usize = 12;

/// What an answer to a chart may show: positions of rest of many kinds in a chart that is taken, and refusals that could be
/// mistaken for one another.
pub const CHARTS: [&str; 11] = [
    "taken with R",
    "taken with R only",
    "an R without a move",
    "an unsafe R",
    "an R of a value above 0",
    "an R that is disturbed and ever",
    "a blank mark at R",
    "17 on a line that does not rise",
    "6 on a meant move of R",
    "8 on a disturbance of R",
    "9 with an R before it",
];

/// Which of these an answer to a chart shows.
pub fn charts(subject: &Subject) -> [bool; CHARTS.len()] {
    let mut sights = [false; CHARTS.len()];
    match subject.chart() {
        Ok(chart) => sights[..7].copy_from_slice(&taken(subject, chart)),
        Err(refusal) => sights[7..].copy_from_slice(&refused(subject.text, refusal)),
    }
    sights
}

fn taken(subject: &Subject, chart: &Chart) -> [bool; 7] {
    let values = &subject.valuation(chart).values;
    let at_rest = || (0..chart.len()).filter(|&v| chart.positions[v].owner == Owner::Nobody);
    let disturbed = |v: usize| !chart.positions[v].disturbances.is_empty();
    [
        at_rest().next().is_some(),
        at_rest().count() == chart.len(),
        at_rest().any(|v| !disturbed(v)),
        at_rest().any(|v| !chart.positions[v].safe),
        at_rest().any(|v| (1..NONE).contains(&values[v])),
        at_rest().any(|v| disturbed(v) && values[v] == NONE),
        at_rest().any(|v| subject.text[LINE * (1 + v) + 6..LINE * (1 + v) + 11] == *BLANK),
    ]
}

fn refused(text: &[u8], refusal: Refusal) -> [bool; 4] {
    let (number, line) = (refusal.number, refusal.line);
    let letter = |line: usize| text[LINE * line];
    // A position that is not on the chart has no line, or one that is no position's.
    let leaves_rest = || {
        let from = held(&text[LINE * line + 1..LINE * line + 6]);
        from.is_some_and(|v| text.get(LINE * (1 + v)) == Some(&b'R') && 1 + v < line)
    };
    [
        number == 17 && matches!(letter(line - 1), b'M' | b'D') && rank(text, line) <= rank(text, line - 1),
        number == 6 && letter(line) == b'M' && leaves_rest(),
        number == 8 && leaves_rest(),
        number == 9 && (1..line).any(|line| letter(line) == b'R'),
    ]
}

/// What a move's line rises by.
fn rank(text: &[u8], line: usize) -> (Option<usize>, bool, Option<usize>) {
    let bytes = &text[LINE * line..LINE * (line + 1)];
    (held(&bytes[1..6]), bytes[0] == b'D', held(&bytes[6..11]))
}

/// What a call may show at a position of rest.
pub const CALLS: [&str; 7] = [
    "condition 3",
    "condition 4",
    "condition 5",
    "refusal 12 for no other position",
    "a report taken",
    "refusal 15",
    "refusal 16",
];

/// Which of these a check shows.
pub fn checked(subject: &Subject, refusal: Refusal) -> Option<usize> {
    let faulted = subject.chart().ok()?.positions.get(refusal.position)?;
    let of_rest = refusal.number == 14 && faulted.owner == Owner::Nobody;
    (of_rest && (3..6).contains(&refusal.condition)).then(|| usize::from(refusal.condition) - 3)
}

/// Which of these a weighing shows.
pub fn weighed(subject: &Subject, choices: &[u16], refusal: Refusal) -> Option<usize> {
    let elsewhere = |(position, choice): (&Position, &u16)| match position.owner {
        Owner::Console => position.meant.contains(choice),
        Owner::Lane => *choice == NONE,
        Owner::Nobody => true,
    };
    let legal = refusal.number == 12 && subject.chart().ok()?.positions.iter().zip(choices).all(elsewhere);
    legal.then_some(3)
}

/// Which of these a report of a run shows.
pub fn reported(subject: &Subject, run: Run, refusal: Refusal) -> Option<usize> {
    let left = subject.chart().ok()?.positions.get(run.position)?;
    match refusal.number {
        _ if left.owner != Owner::Nobody => None,
        0 => Some(4),
        15 => Some(5),
        16 => Some(6),
        _ => None,
    }
}
