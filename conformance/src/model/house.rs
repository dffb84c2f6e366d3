//! A house of lanes: a single report of each lane that reports, and then all of them together or none.

use super::{refused, Subject};
use crate::capi::{Refusal, Run, NONE};

/// The most lanes of a house.
pub const LANES: usize = 64;

/// How many lanes moved and the records then, or the refusal with its lane, 0 where it is no lane's.
pub type Moved = Result<(usize, Vec<Run>), (usize, Refusal)>;

pub fn report(subject: &Subject, runs: &[Run], reports: &[u16], plate: &[u8]) -> Moved {
    if !(1..=LANES).contains(&runs.len()) || runs.len() != reports.len() {
        return Err((0, refused(20)));
    }
    let checked = subject.check(plate);
    if checked.number != 0 {
        return Err((0, checked));
    }
    let mut after = runs.to_vec();
    let reporting: Vec<usize> = (0..runs.len()).filter(|&lane| reports[lane] != NONE).collect();
    for &lane in &reporting {
        let step = subject.report(runs[lane], plate, usize::from(reports[lane]));
        if step.refusal.number != 0 {
            return Err((lane, step.refusal));
        }
        after[lane] = step.run;
    }
    Ok((reporting.len(), after))
}
