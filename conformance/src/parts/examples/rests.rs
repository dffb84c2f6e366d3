//! What document 02 says of positions of rest (order 4).

use super::{text, Edge, Refused};
use crate::capi::{Refusal, Run, NONE};
use crate::model::Subject;
use crate::trial::Trial;

#[rustfmt::skip]
pub const EDGES: [Edge; 11] = [
    ("R disturbed into itself", &["H    1    1", "R    0    0", "D    0    0"], &[[NONE, NONE, NONE]], &[]),
    ("an unsafe R", &["H    1    1", "R    0    1", "D    0    0"], &[[0, NONE, 0]], &[]),
    ("R without a move beside an unsafe one: no round takes it",
        &["H    2    1", "R    0    0", "R    1    1", "D    1    1"], &[[NONE, NONE, NONE], [0, NONE, 0]], &[]),
    ("O moves into R without a move", &["H    2    1", "O    0    0", "R    1    0", "M    0    1"],
        &[[NONE, 1, NONE], [NONE, NONE, NONE]], &["G    0    1"]),
    ("O moves into an unsafe R without a move", &["H    2    1", "O    0    0", "R    1    1", "M    0    1"],
        &[[0, 1, 1], [0, NONE, 0]], &["G    0    1"]),
    ("e with R: it wants no meant move", &["H    2    2", "R    0    0", "L    1    1", "D    0    1", "M    1    1"],
        &[[1, NONE, 0], [0, NONE, 0]], &[]),
    ("the same, its safe mark blank", &["H    2    2", "R    0     ", "L    1    1", "D    0    1", "M    1    1"],
        &[[1, NONE, 0], [0, NONE, 0]], &[]),
    ("R held down by one of its disturbances", &["H    3    3", "R    0    0", "R    1    0", "R    2    1", "D    0    0",
          "D    0    1", "D    0    2"],
        &[[1, NONE, 0], [NONE, NONE, NONE], [0, NONE, 0]], &[]),
    ("L and O run into R of value 1, step by step",
        &["H    4    4", "L    0    0", "O    1    0", "R    2    0", "L    3    1", "M    0    2", "M    1    0",
          "D    2    3", "M    3    3"],
        &[[1, NONE, 1], [1, 0, 2], [1, NONE, 0], [0, NONE, 0]], &["G    1    0"]),
    ("by disturbances through R and O: 3, 2, 1",
        &["H    4    4", "R    0    0", "O    1    0", "R    2    0", "R    3    1", "D    0    1", "M    1    1",
          "D    1    2", "D    2    3"],
        &[[3, NONE, 0], [2, 1, 0], [1, NONE, 0], [0, NONE, 0]], &["G    1    1"]),
    ("O chooses the R that reads ever", CHART,
        &[[NONE, 2, NONE], [1, NONE, 0], [NONE, NONE, NONE], [0, NONE, 0]], &["G    0    2"]),
];

/// Refusal 17 and those that stand around it: 2, 3 and 5 on lines of R; 6 before 17 and 17 before 8 on one line; of two lines the
/// first; 17 before 9, and 9 for O and L only.
#[rustfmt::skip]
pub const REFUSED: [Refused; 20] = [
    (&["H    1    1", "R    0    0", "M    0    0"], 17, 2),
    (&["H    1    1", "R    0    1", "M    0    0"], 17, 2),
    (&["H    1    1", "R    0     ", "M    0    0"], 17, 2),
    (&["H    1    0", "R    0    0"], 3, 0),
    (&["H    1    1", "r    0    0", "D    0    0"], 2, 1),
    (&["H    1    1", "R          ", "D    0    0"], 2, 1),
    (&["H    1    1", "R    0    0", "R    0    0"], 2, 2),
    (&["R    1    1", "R    0    0", "D    0    0"], 2, 0),
    (&["H    1    1", "R    0    2", "M    0    0"], 5, 1),
    (&["H    1    1", "R    1    0", "M    0    0"], 5, 1),
    (&["H    1    1", "R    0    0", "M    0    1"], 6, 2),
    (&["H    1    1", "R    0    0", "M    0     "], 2, 2),
    (&["H    1    2", "R    0    0", "D    0    0", "M    0    0"], 17, 3),
    (&["H    1    3", "R    0    0", "D    0    0", "D    0    0", "M    0    0"], 8, 3),
    (&["H    1    3", "R    0    0", "M    0    0", "D    0    0", "D    0    0"], 17, 2),
    (&["H    2    2", "R    0    0", "L    1    0", "M    0    0", "D    1    0"], 17, 3),
    (&["H    2    2", "L    0    0", "R    1    0", "D    0    0", "M    1    0"], 7, 3),
    (&["H    2    1", "O    0    0", "R    1    0", "M    1    0"], 17, 3),
    (&["H    2    1", "R    0    0", "O    1    0", "D    0    0"], 9, 2),
    (&["H    3    1", "R    0    0", "L    1    0", "O    2    0", "D    0    0"], 9, 2),
];

/// One R may be disturbed, back to O or into ruin, the other not.
const CHART: &[&str] = &[
    "H    4    5",
    "O    0    0",
    "R    1    0",
    "R    2    0",
    "L    3    1",
    "M    0    1",
    "M    0    2",
    "D    1    0",
    "D    1    3",
    "M    3    3",
];

const PLATE: &[&str] = &[
    "P    4    2    1    2",
    "V    0 ever    2    -",
    "V    1    1    -    0",
    "V    2 ever    -    -",
    "V    3    0    -    0",
];

const VALUES: [u16; 4] = [NONE, 1, NONE, 0];

/// Other lines for position 1, and the condition that they break: the target of a disturbance is no choice, the value is too
/// high, and it is too low, for no meant move makes up for a disturbance.
const FAULTS: [(&str, u8); 5] = [
    ("V    1    1    0    0", 3),
    ("V    1    1    1    0", 3),
    ("V    1    2    -    0", 4),
    ("V    1 ever    -    -", 4),
    ("V    1    0    -    1", 5),
];

/// Choices, and the worths there. None where they are refused with 12.
const CHOICES: [([u16; 4], Option<[u16; 4]>); 5] = [
    ([2, NONE, NONE, NONE], Some([NONE, 1, NONE, 0])),
    ([1, NONE, NONE, NONE], Some([1, 1, NONE, 0])),
    ([2, 0, NONE, NONE], None),
    ([2, 1, NONE, NONE], None),
    ([2, NONE, 2, NONE], None),
];

/// Where a run stands, the disturbances seen, where it went, and the refusal: only a disturbance can follow R.
const REPORTS: [(usize, u32, usize, u32); 9] = [
    (1, 0, 0, 0),
    (1, 7, 3, 0),
    (1, 0, 1, 15),
    (1, 0, 2, 15),
    (1, 0, 4, 13),
    (1, 99_998, 0, 0),
    (1, 99_999, 0, 16),
    (1, 99_999, 2, 15),
    (2, 0, 2, 15),
];

pub fn part(trial: &mut Trial) {
    let (chart, plate) = (text(CHART), text(PLATE));
    let subject = Subject::new(&chart);
    trial.input(&subject);
    assert_eq!(subject.write(110).1, plate, "the plate with positions of rest");
    for (line, condition) in FAULTS {
        let lines: Vec<&str> = PLATE.iter().map(|old| if old.starts_with("V    1") { line } else { old }).collect();
        let faulted = text(&lines);
        let fault = Refusal { number: 14, line: 0, position: 1, condition };
        assert_eq!(subject.check(&faulted), fault, "{line}");
        trial.check(&subject, &faulted);
        trial.start(&subject, &faulted, 1);
        trial.solver(&subject, &faulted, &[2, NONE, NONE, NONE]);
        reports(trial, &subject, &faulted, fault);
    }
    for (choices, worths) in CHOICES {
        let (refusal, row) = subject.weigh(&choices, 4);
        assert_eq!((refusal.number == 0).then_some(row.as_slice()), worths.as_ref().map(<[u16; 4]>::as_slice));
        assert!(refusal.number == 0 || refusal.number == 12, "{choices:?}");
        trial.weigh(&subject, &choices, 4);
        trial.compare(&subject, &plate, &choices);
        trial.solver(&subject, &plate, &choices);
    }
    reports(trial, &subject, &plate, Refusal::default());
}

/// The reports with a plate that Checking answers so. A fault is answered where 13 is not.
fn reports(trial: &mut Trial, subject: &Subject, plate: &[u8], checked: Refusal) {
    for (position, seen, to, number) in REPORTS {
        let run = Run { position, seen, initial: 1, value: VALUES[position] };
        let step = subject.report(run, plate, to);
        let refusal =
            if number == 13 || checked.number == 0 { Refusal { number, ..Refusal::default() } } else { checked };
        assert_eq!(step.refusal, refusal, "{run:?} to {to}");
        let moved = || Run { position: to, seen: seen + 1, value: VALUES[to], ..run };
        assert_eq!(step.run, if refusal.number == 0 { moved() } else { run }, "{run:?} to {to}");
        trial.report(subject, run, plate, to);
    }
}
