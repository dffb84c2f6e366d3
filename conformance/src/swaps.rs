//! Runs with changing texts: what holds of a run after every report, and what a report shows that is lent other texts than
//! the last step.

use crate::capi::{Run, Step, NONE};
use crate::chart::POSITIONS;
use crate::model::{Rows, Subject};

/// Present value plus disturbances seen is at least the starting value, and "ever" is above each number.
pub fn promise_kept(run: Run) -> bool {
    at_least(run.value, run.seen, run.initial, 0)
}

/// What holds of every run, whoever made it: a report leaves no smaller sum of value and disturbances seen.
pub fn sum_kept(before: Run, after: Run) -> bool {
    at_least(after.value, after.seen, before.value, before.seen)
}

fn at_least(value: u16, seen: u32, least: u16, beside: u32) -> bool {
    match (value, least) {
        (NONE, _) => true,
        (_, NONE) => false,
        _ => u64::from(value) + u64::from(seen) >= u64::from(least) + u64::from(beside),
    }
}

/// A chart and a plate that are lent together.
pub struct Card<'a> {
    pub subject: Subject<'a>,
    pub plate: &'a [u8],
    /// What Checking answers.
    pub checked: u32,
    /// What Reading gives, empty where it refuses.
    rows: Rows,
}

impl<'a> Card<'a> {
    pub fn new(chart: &'a [u8], plate: &'a [u8]) -> Card<'a> {
        let subject = Subject::new(chart);
        let (checked, rows) = (subject.check(plate).number, subject.read(plate, [POSITIONS; 3]).1);
        Card { subject, plate, checked, rows }
    }

    /// The plate's value at a position, if it is of the form and has one.
    pub fn value(&self, position: usize) -> Option<u16> {
        self.rows[0].get(position).copied()
    }

    /// The plate's choice at a position, if it is of the form and has one.
    pub fn choice(&self, position: usize) -> Option<u16> {
        self.rows[1].get(position).copied().filter(|&choice| choice != NONE)
    }

    /// The count of positions, 0 for a text that is no chart.
    pub fn positions(&self) -> usize {
        self.subject.chart().map_or(0, |chart| chart.len())
    }

    pub fn same_texts(&self, other: &Card) -> bool {
        (self.subject.text, self.plate) == (other.subject.text, other.plate)
    }
}

/// What a report may show that is lent other texts than the last step that was taken.
pub const SIGHTS: [&str; 21] = [
    "taken with another plate of the chart",
    "taken with another chart",
    "taken with a smaller chart",
    "taken with a larger chart",
    "taken with the texts of the start again",
    "taken where ever is held",
    "taken where a number above 0 is held",
    "taken as a disturbance",
    "13 for the run's own position",
    "13 on a faulted plate",
    "14 on a plate with the held value",
    "14 on a plate with another value",
    "18 for a smaller value",
    "18 for a greater value",
    "18 where the move could follow",
    "18 where it can't",
    "18 where the count is full",
    "15",
    "16",
    "11",
    "a refusal of the chart",
];

/// The texts of the start, those of the last step that was taken, and those that a report is lent.
pub struct Swap<'a, 'b> {
    pub first: &'a Card<'b>,
    pub last: &'a Card<'b>,
    pub lent: &'a Card<'b>,
}

impl Swap<'_, '_> {
    /// Which of these a report shows, by the run before it and its answer.
    pub fn sights(&self, run: Run, to: usize, answer: &Step) -> [bool; SIGHTS.len()] {
        let mut sights = [false; SIGHTS.len()];
        if !self.lent.same_texts(self.last) {
            sights[..8].copy_from_slice(&self.taken(run, answer));
            sights[8..].copy_from_slice(&self.refused(run, to, answer.refusal.number));
        }
        sights
    }

    fn taken(&self, run: Run, answer: &Step) -> [bool; 8] {
        let taken = answer.refusal.number == 0;
        let (before, now) = (self.last.positions(), self.lent.positions());
        let same_chart = self.last.subject.chart() == self.lent.subject.chart();
        [
            taken && same_chart && self.lent.plate != self.last.plate,
            taken && !same_chart && now == before,
            taken && now < before,
            taken && now > before,
            taken && self.lent.same_texts(self.first),
            taken && run.value == NONE,
            taken && (1..NONE).contains(&run.value),
            taken && answer.run.seen > run.seen,
        ]
    }

    fn refused(&self, run: Run, to: usize, number: u32) -> [bool; 13] {
        let lent = self.lent;
        let value = lent.value(run.position);
        // What would be answered if the run held the plate's value.
        let fitting = |value| lent.subject.report(Run { value, ..run }, lent.plate, to).refusal.number;
        let otherwise = value.filter(|_| number == 18).map(fitting);
        [
            number == 13 && run.position >= lent.positions(),
            number == 13 && lent.checked == 14,
            number == 14 && value == Some(run.value),
            number == 14 && value != Some(run.value),
            number == 18 && value < Some(run.value),
            number == 18 && value > Some(run.value),
            otherwise == Some(0),
            otherwise == Some(15),
            otherwise == Some(16),
            number == 15,
            number == 16,
            number == 11,
            matches!(number, 1..=9 | 17),
        ]
    }
}
