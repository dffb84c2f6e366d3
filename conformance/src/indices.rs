//! Small charts and their indices: what a call shows of the room for a chart, of numbers that are not a small chart's, of charts
//! of another sort, and of the order of refusals.

use crate::blanks::filled_in;
use crate::capi::Refusal;
use crate::chart::{held, Chart, Owner};
use crate::model::{Subject, COUNTS};

/// The bytes of a chart's line.
const LINE: usize = 12;

/// What a call for a small chart may show. A program that errs in the room, that looks at some bits of a number only, or that
/// tests the room first errs where one of these is seen.
pub const CHARTS: [&str; 11] = [
    "room for the chart and no more",
    "room for all but one byte",
    "room for more",
    "no positions",
    "four positions",
    "the index after the last",
    "an index of more positions",
    "an index whose low half is good",
    "the largest index",
    "positions whose low bits are good",
    "21 with no room",
];

/// How many of these are about the room.
const ROOM: usize = 3;

/// What a call asks for: the count of positions, the index, and the chart's text, if there is such a chart.
#[derive(Clone, Copy, Debug)]
pub struct Wanted<'a> {
    pub positions: usize,
    pub index: usize,
    pub text: Option<&'a [u8]>,
}

impl Wanted<'_> {
    /// Which of the sights a call shows that is lent so many bytes.
    pub fn sights(&self, length: usize) -> [bool; CHARTS.len()] {
        let mut sights = [false; CHARTS.len()];
        match self.text {
            Some(text) => {
                let room = text.len();
                sights[..ROOM].copy_from_slice(&[length == room, length + 1 == room, length > room]);
            }
            None => sights[ROOM..].copy_from_slice(&self.refused(length)),
        }
        sights
    }

    fn refused(&self, length: usize) -> [bool; CHARTS.len() - ROOM] {
        let (n, index) = (self.positions, self.index);
        let small = (1..=COUNTS.len()).contains(&n);
        let low_bits = [n & 0xff, n & 0xffff, n & 0xffff_ffff];
        [
            n == 0,
            n == 4,
            small && index == COUNTS[n - 1],
            small && index > COUNTS[n - 1] && index < COUNTS[COUNTS.len() - 1],
            small && index & 0xffff_ffff < COUNTS[n - 1],
            small && index == usize::MAX,
            n > 4 && low_bits.iter().any(|low| (1..=COUNTS.len()).contains(low)),
            length == 0,
        ]
    }
}

/// What a call for an index may show. A program that reads a blank otherwise, that takes a chart of another sort, or that sees
/// its sort before a fault errs where one of these is seen.
pub const INDICES: [&str; 10] = [
    "taken with a blank mark",
    "21 for four positions",
    "21 for more",
    "21 for an R among one to three",
    "21 for an R among more",
    "21 with a blank mark",
    "misdrawn with more than three positions",
    "misdrawn after an R",
    "9 with more than three positions",
    "9 with an R",
];

/// How many of these are about charts that are well drawn.
const DRAWN: usize = 6;

/// Which of these a call shows.
pub fn sights(subject: &Subject) -> [bool; INDICES.len()] {
    let mut sights = [false; INDICES.len()];
    match subject.chart() {
        Ok(chart) => sights[..DRAWN].copy_from_slice(&drawn(subject.text, chart)),
        Err(refusal) => sights[DRAWN..].copy_from_slice(&misdrawn(subject.text, refusal)),
    }
    sights
}

fn drawn(text: &[u8], chart: &Chart) -> [bool; DRAWN] {
    let (n, blank) = (chart.len(), filled_in(text) != text);
    let resting = chart.positions.iter().any(|position| position.owner == Owner::Nobody);
    let small = n <= COUNTS.len();
    [
        small && !resting && blank,
        n == 4 && !resting,
        n > 4 && !resting,
        small && resting,
        !small && resting,
        blank && (!small || resting),
    ]
}

/// The first line is good where a later one is at fault.
fn misdrawn(text: &[u8], refusal: Refusal) -> [bool; INDICES.len() - DRAWN] {
    let Refusal { number, line, .. } = refusal;
    let n = text.get(1..6).and_then(held).unwrap_or(0);
    let (later, many) = (line > 0, n > COUNTS.len());
    let resting = |before: usize| (1..before).any(|line| text[LINE * line] == b'R');
    [later && many, later && resting(line.min(n + 1)), number == 9 && many, number == 9 && resting(n + 1)]
}
