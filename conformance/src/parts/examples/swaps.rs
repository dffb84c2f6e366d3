//! What document 02 says of reports with other texts than those of the start (order 5).

use super::{text, CHART, PLATE};
use crate::capi::{Refusal, Run, NONE};
use crate::model::Subject;
use crate::swaps::{promise_kept, sum_kept};
use crate::trial::Trial;

/// The printed chart with another disturbance at 0: it reads 1 at 0 and 1, and from 2 on as the printed one.
const RIGHT: &[&str] = &[
    "H    5    8",
    "O    0    0",
    "L    1    0",
    "O    2    0",
    "L    3    1",
    "O    4    0",
    "M    0    1",
    "D    0    3",
    "M    1    0",
    "M    2    0",
    "M    2    2",
    "D    2    3",
    "M    3    3",
    "M    4    4",
];

const RIGHT_PLATE: &[&str] = &[
    "P    5    3    1    1",
    "V    0    1    1    0",
    "V    1    1    -    1",
    "V    2    1    0    0",
    "V    3    0    -    0",
    "V    4 ever    4    -",
];

/// A smaller chart, edge e.
const SMALL: &[&str] = &["H    2    3", "O    0    0", "L    1    1", "M    0    0", "D    0    1", "M    1    1"];
const SMALL_PLATE: &[&str] = &["P    2    2    1    0", "V    0    1    0    0", "V    1    0    -    0"];

/// A larger one, which reads 2 at 0 and 1 as the printed one does, and 2 at 2 to 4.
#[rustfmt::skip]
const LARGE: &[&str] = &[
    "H    7    9", "L    0    0", "O    1    0", "L    2    0", "L    3    0", "L    4    0", "O    5    0", "L    6    1",
    "M    0    1", "M    1    2", "D    1    5", "M    2    3", "M    3    4", "M    4    0", "M    5    4", "D    5    6",
    "M    6    6",
];

#[rustfmt::skip]
const LARGE_PLATE: &[&str] = &[
    "P    7    7    2    0", "V    0    2    -    1", "V    1    2    2    0", "V    2    2    -    4", "V    3    2    -    3",
    "V    4    2    -    2", "V    5    1    4    0", "V    6    0    -    0",
];

/// The texts: a chart's lines, and a plate's with one of them replaced by another.
type Texts = (&'static [&'static str], &'static [&'static str], (&'static str, &'static str));

const SAME: (&str, &str) = ("", "");
pub const OWN: usize = 0;
pub const OTHER_CHOICE: usize = 1;
pub const OTHER_CHART: usize = 2;
pub const SMALLER: usize = 3;
const LARGER: usize = 4;
pub const FAULT_AT_0: usize = 5;
pub const FAULT_AT_2: usize = 6;
const SMALL_FAULT: usize = 7;
pub const NO_PLATE: usize = 8;
pub const MISDRAWN: usize = 9;
pub const FAULT_ABOVE: usize = 10;

const TEXTS: [Texts; 11] = [
    (CHART, PLATE, SAME),
    (CHART, PLATE, ("V    2    1    0    0", "V    2    1    2    0")),
    (RIGHT, RIGHT_PLATE, SAME),
    (SMALL, SMALL_PLATE, SAME),
    (LARGE, LARGE_PLATE, SAME),
    (CHART, PLATE, ("V    0    2    1    0", "V    0    3    1    0")),
    (CHART, PLATE, ("V    2    1    0    0", "V    2    1    3    0")),
    (SMALL, SMALL_PLATE, ("V    0    1    0    0", "V    0    2    0    0")),
    (CHART, &[], SAME),
    (&["H    1    1", "O    0    0", "D    0    0"], &[], SAME),
    (CHART, PLATE, ("P    5    4    2    1", "P    5    3    2    1")),
];

/// A report: the texts that are lent, where the machine went, the refusal, and then the run's position, disturbances seen and
/// held value.
type Report = (usize, usize, Refusal, (usize, u32, u16));

const TAKEN: Refusal = refused(0);

pub const fn refused(number: u32) -> Refusal {
    Refusal { number, line: 0, position: 0, condition: 0 }
}

/// Runs that begin with the printed texts: where, and their reports.
#[rustfmt::skip]
const RUNS: [(usize, &[Report]); 8] = [
    // Another optimal plate, by whose choice the run may stay at 2.
    (0, &[(OWN, 2, TAKEN, (2, 1, 1)), (OWN, 2, refused(15), (2, 1, 1)), (OTHER_CHOICE, 2, TAKEN, (2, 1, 1)),
          (OTHER_CHOICE, 0, refused(15), (2, 1, 1)), (OWN, 0, TAKEN, (0, 1, 2))]),
    // Another chart with the same value there, whose disturbance from 0 is the other's from 2; and back.
    (0, &[(OTHER_CHART, 1, refused(18), (0, 0, 2)), (OWN, 2, TAKEN, (2, 1, 1)), (OTHER_CHART, 0, TAKEN, (0, 1, 1)),
          (OWN, 1, refused(18), (0, 1, 1)), (OTHER_CHART, 3, TAKEN, (3, 2, 0)), (OWN, 3, TAKEN, (3, 2, 0))]),
    // "ever" is held, and is in both.
    (4, &[(OTHER_CHART, 4, TAKEN, (4, 0, NONE)), (LARGER, 0, refused(18), (4, 0, NONE)), (OWN, 4, TAKEN, (4, 0, NONE))]),
    // A larger chart, on which the run leaves the first.
    (0, &[(LARGER, 1, TAKEN, (1, 0, 2)), (LARGER, 5, TAKEN, (5, 1, 1)), (OWN, 0, refused(13), (5, 1, 1)),
          (LARGER, 4, TAKEN, (4, 1, 2)), (OWN, 4, refused(18), (4, 1, 2)), (LARGER, 0, TAKEN, (0, 1, 2)),
          (OWN, 2, TAKEN, (2, 2, 1)), (OWN, 3, TAKEN, (3, 3, 0))]),
    // A smaller chart that has not the run's position, or not the reported one; 13 before 14 and 18.
    (4, &[(SMALLER, 0, refused(13), (4, 0, NONE)), (SMALL_FAULT, 0, refused(13), (4, 0, NONE))]),
    (0, &[(SMALLER, 4, refused(13), (0, 0, 2)), (SMALL_FAULT, 4, refused(13), (0, 0, 2)),
          (SMALLER, 1, refused(18), (0, 0, 2)), (FAULT_AT_0, 5, refused(13), (0, 0, 2))]),
    // 14 with the value that is held, before 18 with another, and before 15; 18 before 15.
    (0, &[(FAULT_AT_2, 1, fault(2, 3), (0, 0, 2)), (FAULT_AT_0, 1, fault(0, 4), (0, 0, 2)), (FAULT_AT_0, 4, fault(0, 4), (0, 0, 2)),
          (OTHER_CHART, 4, refused(18), (0, 0, 2)), (OWN, 4, refused(15), (0, 0, 2)),
          (SMALL_FAULT, 1, fault(0, 4), (0, 0, 2)), (FAULT_ABOVE, 1, fault(5, 6), (0, 0, 2))]),
    // 11 and the chart's refusals before all of these.
    (0, &[(NO_PLATE, 1, refused(11), (0, 0, 2)), (NO_PLATE, 9, refused(11), (0, 0, 2)),
          (MISDRAWN, 9, Refusal { number: 9, line: 1, position: 0, condition: 0 }, (0, 0, 2)), (OWN, 1, TAKEN, (1, 0, 2))]),
];

pub const fn fault(position: usize, condition: u8) -> Refusal {
    Refusal { number: 14, line: 0, position, condition }
}

/// Held values that somebody made up, with the printed texts: the position, the disturbances seen, where the machine went,
/// the held value and the number.
#[rustfmt::skip]
const MADE_UP: [(usize, u32, usize, u16, u32); 18] = [
    (0, 0, 1, 2, 0), (0, 0, 1, 0, 18), (0, 0, 1, 1, 18), (0, 0, 1, 3, 18), (0, 0, 1, NONE, 18), (0, 0, 1, 60_000, 18),
    (4, 0, 4, NONE, 0), (4, 0, 4, NONE - 1, 18), (4, 0, 4, 0, 18), (4, 0, 4, 511, 18), (3, 5, 3, 0, 0), (3, 5, 3, NONE, 18),
    (0, 99_999, 2, 2, 16), (0, 99_999, 2, 1, 18), (0, u32::MAX, 1, 2, 0), (0, u32::MAX, 1, 3, 18), (0, 0, 4, 1, 18),
    (0, 0, 5, 1, 13),
];

/// The texts by their places.
pub fn texts() -> [(Vec<u8>, Vec<u8>); TEXTS.len()] {
    TEXTS.map(|(chart, plate, (old, new))| {
        let lines: Vec<&str> = plate.iter().map(|line| if *line == old { new } else { line }).collect();
        (text(chart), text(&lines))
    })
}

pub fn part(trial: &mut Trial) {
    let texts = texts();
    for (place, (chart, plate)) in texts.iter().enumerate() {
        let subject = Subject::new(chart);
        trial.input(&subject);
        let number = [0, 0, 0, 0, 0, 14, 14, 14, 11, 9, 14][place];
        assert_eq!(subject.check(plate).number, number, "the texts {place}");
        trial.check(&subject, plate);
    }
    for (position, reports) in RUNS {
        run(trial, &texts, position, reports);
    }
    made_up(trial, &texts[OWN]);
}

fn run(trial: &mut Trial, texts: &[(Vec<u8>, Vec<u8>)], position: usize, reports: &[Report]) {
    let (chart, plate) = &texts[OWN];
    let mut run = trial.start(&Subject::new(chart), plate, position).run;
    assert_eq!((run.value, run.seen), (run.initial, 0), "a start holds its value");
    for &(lent, to, refusal, (position, seen, value)) in reports {
        let (chart, plate) = &texts[lent];
        let answer = trial.report(&Subject::new(chart), run, plate, to);
        let expected = Run { position, seen, value, initial: run.initial };
        assert_eq!((answer.refusal, answer.run), (refusal, expected), "{run:?} to {to} with {lent}");
        assert!(sum_kept(run, answer.run) && promise_kept(answer.run), "the sums: {run:?} to {to} with {lent}");
        run = answer.run;
    }
}

fn made_up(trial: &mut Trial, (chart, plate): &(Vec<u8>, Vec<u8>)) {
    let subject = Subject::new(chart);
    for (position, seen, to, value, number) in MADE_UP {
        let run = Run { position, seen, initial: 7, value };
        let answer = trial.report(&subject, run, plate, to);
        assert_eq!(answer.refusal, refused(number), "{run:?} to {to}");
        assert!(number == 0 || answer.run == run, "a refused report leaves the run: {run:?} to {to}");
        assert!(sum_kept(run, answer.run) && answer.run.initial == 7, "{run:?} to {to}");
    }
}
