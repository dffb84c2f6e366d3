//! Houses of lanes: what a call shows of who moves and who stays, of which refusal is answered, and of the order of them.

use crate::capi::{House, Run, NONE};
use crate::model::{Subject, LANES};
use crate::swaps::Card;

/// What a call may show. A program that moves others than those that report, that moves some before another is refused, that
/// answers another lane or that tests in another order errs where one of these is seen.
pub const SIGHTS: [&str; 32] = [
    "one lane moves",
    "64 lanes move",
    "no lane reports",
    "the first lane alone moves",
    "the last lane alone moves",
    "a lane stays by its report",
    "meant moves and disturbances",
    "a silent lane off the chart",
    "a silent lane that holds another value",
    "a silent lane with a full count",
    "refused at the first lane",
    "refused at the last lane after one that could move",
    "refused after a silent lane",
    "refused before a lane that could move",
    "a higher lane has a smaller number",
    "a higher lane has a greater number",
    "13 for the record",
    "13 for the report",
    "18 where the move could follow",
    "18 where it can't",
    "20 with no lanes and no reports",
    "20 with reports but no lanes",
    "20 with lanes but no reports",
    "20 with fewer reports",
    "20 with more reports",
    "20 with too many of both",
    "20 where the chart is refused",
    "20 where the plate is",
    "a refusal of the chart where no lane reports",
    "11 where no lane reports",
    "14 where no lane reports",
    "14 where a single report has 13",
];

/// How many of the sights are about lanes that move or stay, about a refused lane, and about the rows.
const MOVING: usize = 10;
const LANE: usize = 10;
const ROWS: usize = 8;

/// What a call is given.
#[derive(Clone, Copy, Debug)]
pub struct Rows<'a> {
    pub runs: &'a [Run],
    pub reports: &'a [u16],
}

impl Rows<'_> {
    /// The lanes that report.
    pub fn reporting(&self) -> impl Iterator<Item = usize> + '_ {
        (0..self.reports.len()).filter(|&lane| self.reports[lane] != NONE)
    }

    /// What a single report of a lane gets.
    fn single(&self, subject: &Subject, plate: &[u8], lane: usize) -> u32 {
        subject.report(self.runs[lane], plate, usize::from(self.reports[lane])).refusal.number
    }

    /// Which of the sights a call shows, by its answer and the records after it.
    pub fn sights(&self, subject: &Subject, plate: &[u8], answer: &House, after: &[Run]) -> [bool; SIGHTS.len()] {
        let mut sights = [false; SIGHTS.len()];
        match answer.refusal.number {
            0 => sights[..MOVING].copy_from_slice(&self.moving(&Card::new(subject.text, plate), answer.moved, after)),
            13 | 15 | 16 | 18 => {
                sights[MOVING..MOVING + LANE].copy_from_slice(&self.refused(subject, plate, answer));
            }
            20 => sights[MOVING + LANE..MOVING + LANE + ROWS].copy_from_slice(&self.unequal(subject, plate)),
            number => sights[MOVING + LANE + ROWS..].copy_from_slice(&self.untried(subject, plate, number)),
        }
        sights
    }

    /// Of a call that was taken.
    fn moving(&self, card: &Card, moved: usize, after: &[Run]) -> [bool; MOVING] {
        let (lanes, runs) = (self.runs.len(), self.runs);
        let reporting: Vec<usize> = self.reporting().collect();
        let disturbed = |lane: usize| after[lane].seen > runs[lane].seen;
        let silent = |test: &dyn Fn(Run) -> bool| {
            moved > 0 && (0..lanes).any(|lane| self.reports[lane] == NONE && test(runs[lane]))
        };
        [
            lanes == 1 && moved == 1,
            moved == LANES,
            moved == 0,
            lanes > 1 && reporting == [0],
            lanes > 1 && reporting == [lanes - 1],
            reporting.iter().any(|&lane| after[lane].position == runs[lane].position),
            reporting.iter().any(|&lane| disturbed(lane)) && reporting.iter().any(|&lane| !disturbed(lane)),
            silent(&|run| run.position >= card.positions()),
            silent(&|run| card.value(run.position).is_some_and(|value| value != run.value)),
            silent(&|run| run.seen >= 99_999),
        ]
    }

    /// Of a call that was refused at a lane.
    fn refused(&self, subject: &Subject, plate: &[u8], answer: &House) -> [bool; LANE] {
        let (lane, number, run) = (answer.lane, answer.refusal.number, self.runs[answer.lane]);
        let positions = subject.chart().map_or(0, |chart| chart.len());
        let later: Vec<u32> =
            self.reporting().filter(|&other| other > lane).map(|other| self.single(subject, plate, other)).collect();
        // What would be answered if the run held the plate's value.
        let fitting = || {
            let value = Card::new(subject.text, plate).value(run.position).expect("its position is on the chart");
            subject.report(Run { value, ..run }, plate, usize::from(self.reports[lane])).refusal.number
        };
        let lower = self.reporting().filter(|&other| other < lane).count();
        [
            lane == 0,
            lane + 1 == self.runs.len() && lower > 0,
            lower < lane,
            later.contains(&0),
            later.iter().any(|&other| (1..number).contains(&other)),
            later.iter().any(|&other| other > number),
            number == 13 && run.position >= positions,
            number == 13 && run.position < positions,
            number == 18 && fitting() == 0,
            number == 18 && fitting() == 15,
        ]
    }

    /// Of a call that was refused by its rows.
    fn unequal(&self, subject: &Subject, plate: &[u8]) -> [bool; ROWS] {
        let (lanes, reports) = (self.runs.len(), self.reports.len());
        [
            lanes == 0 && reports == 0,
            lanes == 0 && reports > 0,
            lanes > 0 && reports == 0,
            0 < reports && reports < lanes,
            0 < lanes && lanes < reports,
            lanes > LANES && reports == lanes,
            subject.chart().is_err(),
            matches!(subject.check(plate).number, 11 | 14),
        ]
    }

    /// Of a call that was refused by its texts.
    fn untried(&self, subject: &Subject, plate: &[u8], number: u32) -> [bool; SIGHTS.len() - MOVING - LANE - ROWS] {
        let silent = self.reporting().next().is_none();
        let off_chart = || self.reporting().any(|lane| self.single(subject, plate, lane) == 13);
        [
            silent && matches!(number, 1..=9 | 17),
            silent && number == 11,
            silent && number == 14,
            number == 14 && off_chart(),
        ]
    }
}
