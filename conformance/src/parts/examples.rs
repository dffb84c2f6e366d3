//! Part 0: the model itself gives what document 01 says of its example, of the charts at the edges, and of the refusals'
//! examples, and what document 02 says of blanks (order 1), of good moves (order 2), of positions of rest (order 4), of
//! reports with other texts (order 5), of ways to ruin (order 6) and of houses of lanes (order 7).

mod houses;
mod rests;
mod swaps;
mod ways;

use crate::blanks::leave_out;
use crate::capi::{Refusal, Run, NONE};
use crate::chart::{MOVES, POSITIONS};
use crate::model::Subject;
use crate::shapes::{all_good, blocks, console_chain, lane_chain, rest_chain};
use crate::tally::Tally;
use crate::trial::Trial;

const CHART: &[&str] = &[
    "H    5    8",
    "O    0    0",
    "L    1    0",
    "O    2    0",
    "L    3    1",
    "O    4    0",
    "M    0    1",
    "D    0    2",
    "M    1    0",
    "M    2    0",
    "M    2    2",
    "D    2    3",
    "M    3    3",
    "M    4    4",
];

const PLATE: &[&str] = &[
    "P    5    4    2    1",
    "V    0    2    1    0",
    "V    1    2    -    1",
    "V    2    1    0    0",
    "V    3    0    -    0",
    "V    4 ever    4    -",
];

/// The printed chart's good moves, by the printed values. Position 2, which reads 1, may stay or go to 0, which reads 2.
const SHEET: &[&str] = &["G    0    1", "G    2    0", "G    2    2", "G    4    4"];

/// A chart at the edge: its name, its lines, the value, choice and step of its first positions, and its good moves. The last
/// three are charts at the edges of what a good move is.
type Edge = (&'static str, &'static [&'static str], &'static [[u16; 3]], &'static [&'static str]);

#[rustfmt::skip]
const EDGES: [Edge; 17] = [
    ("a", CHART, &[[2, 1, 0], [2, NONE, 1], [1, 0, 0], [0, NONE, 0], [NONE, 4, NONE]], SHEET),
    ("b", &["H    1    1", "L    0    1", "M    0    0"], &[[0, NONE, 0]], &[]),
    ("c", &["H    1    1", "O    0    0", "M    0    0"], &[[NONE, 0, NONE]], &["G    0    0"]),
    ("d", &["H    1    2", "O    0    0", "M    0    0", "D    0    0"], &[[NONE, 0, NONE]], &["G    0    0"]),
    ("e", &["H    2    3", "O    0    0", "L    1    1", "M    0    0", "D    0    1", "M    1    1"],
        &[[1, 0, 0], [0, NONE, 0]], &["G    0    0"]),
    ("f", &["H    2    3", "O    0    0", "L    1    0", "M    0    1", "D    0    1", "M    1    1"],
        &[[NONE, 1, NONE], [NONE, NONE, NONE]], &["G    0    1"]),
    ("f with 1 unsafe", &["H    2    3", "O    0    0", "L    1    1", "M    0    1", "D    0    1", "M    1    1"],
        &[[0, 1, 1], [0, NONE, 0]], &["G    0    1"]),
    ("g", &["H    2    3", "L    0    0", "L    1    1", "M    0    0", "M    0    1", "M    1    1"],
        &[[0, NONE, 1], [0, NONE, 0]], &[]),
    ("h", &["H    2    2", "O    0    0", "L    1    1", "M    0    1", "M    1    1"], &[[0, 1, 1], [0, NONE, 0]],
        &["G    0    1"]),
    ("i", &["H    2    2", "O    0    1", "L    1    0", "M    0    1", "M    1    1"],
        &[[0, 1, 0], [NONE, NONE, NONE]], &["G    0    1"]),
    ("j", &["H    2    2", "L    0    0", "L    1    0", "M    0    1", "M    1    0"],
        &[[NONE, NONE, NONE], [NONE, NONE, NONE]], &[]),
    ("c, all marks blank", &["H    1    1", "O    0     ", "M    0    0"], &[[NONE, 0, NONE]], &["G    0    0"]),
    ("e, its safe mark blank", &["H    2    3", "O    0     ", "L    1    1", "M    0    0", "D    0    1", "M    1    1"],
        &[[1, 0, 0], [0, NONE, 0]], &["G    0    0"]),
    ("j, all marks blank", &["H    2    2", "L    0     ", "L    1     ", "M    0    1", "M    1    0"],
        &[[NONE, NONE, NONE], [NONE, NONE, NONE]], &[]),
    ("held down by a disturbance: targets of values 1, ever and 2 are good, of value 0 not",
        &["H    4    9", "O    0    0", "L    1    0", "O    2    0", "L    3    1", "M    0    0", "M    0    1",
          "M    0    2", "M    0    3", "D    0    3", "M    1    1", "M    2    2", "D    2    0", "M    3    3"],
        &[[1, 1, 0], [NONE, NONE, NONE], [2, 2, 0], [0, NONE, 0]],
        &["G    0    0", "G    0    1", "G    0    2", "G    2    2"]),
    ("an unsafe O: all meant moves are good",
        &["H    3    6", "O    0    1", "L    1    0", "L    2    1", "M    0    0", "M    0    1", "M    0    2",
          "D    0    1", "M    1    1", "M    2    2"],
        &[[0, 1, 0], [NONE, NONE, NONE], [0, NONE, 0]], &["G    0    0", "G    0    1", "G    0    2"]),
    ("ever, with moves into 1 and 0 that are not good",
        &["H    3    7", "O    0    0", "O    1    0", "L    2    1", "M    0    0", "M    0    1", "M    0    2",
          "M    1    0", "M    1    1", "D    1    2", "M    2    2"],
        &[[NONE, 0, NONE], [1, 0, 0], [0, NONE, 0]], &["G    0    0", "G    1    0", "G    1    1"]),
];

/// Positions of the printed chart whose marks are left out: the first, one in the middle, the last, all that are safe.
const LEFT_OUT: [&[usize]; 4] = [&[0], &[2], &[4], &[0, 1, 2, 4]];

/// A chart that is refused: its lines, the number and the line.
type Refused = (&'static [&'static str], u32, usize);

/// The table's examples of refusals 1 to 9. Edges k and l are 9 and 8.
#[rustfmt::skip]
const REFUSED: [Refused; 9] = [
    (&[], 1, 0),
    (&["H   05    8"], 2, 0),
    (&["H    0    1"], 3, 0),
    (&["H    1    1"], 4, 0),
    (&["H    1    1", "O    0    2", "M    0    0"], 5, 1),
    (&["H    1    1", "O    0    0", "M    0    1"], 6, 2),
    (&["H    1    1", "L    0    0", "D    0    0"], 7, 2),
    (&["H    1    2", "O    0    0", "M    0    0", "M    0    0"], 8, 3),
    (&["H    1    1", "O    0    0", "D    0    0"], 9, 1),
];

/// Blanks in each column that is no mark; marks that are nearly blank; and every refusal that a chart with a blank mark may
/// still get, on its line or later.
#[rustfmt::skip]
const BLANKS: [Refused; 24] = [
    (&["H         1", "O    0    0", "M    0    0"], 2, 0),
    (&["H    1     ", "O    0    0", "M    0    0"], 2, 0),
    (&["H          ", "O    0    0", "M    0    0"], 2, 0),
    (&["H    1    1", "O         0", "M    0    0"], 2, 1),
    (&["H    1    1", "O          ", "M    0    0"], 2, 1),
    (&["H    1    1", "L         1", "M    0    0"], 2, 1),
    (&["H    1    1", "O    0    0", "M         0"], 2, 2),
    (&["H    1    1", "O    0    0", "M    0     "], 2, 2),
    (&["H    1    1", "O    0    0", "M          "], 2, 2),
    (&["H    1    2", "O    0    0", "M    0    0", "D         0"], 2, 3),
    (&["H    1    2", "O    0    0", "M    0    0", "D    0     "], 2, 3),
    (&["H    1    1", "O    0    \t", "M    0    0"], 2, 1),
    (&["H    1    1", "O    0\t\t\t\t\t", "M    0    0"], 2, 1),
    (&["H    1    1", "O    0   0 ", "M    0    0"], 2, 1),
    (&["H    1    1", "O    00    ", "M    0    0"], 2, 1),
    (&["H    1    2", "O    0     ", "M    0    0"], 4, 0),
    (&["H    1    1", "M    0     ", "M    0    0"], 2, 1),
    (&["H    1    1", "O   00     ", "M    0    0"], 2, 1),
    (&["H    1    1", "O    1     ", "M    0    0"], 5, 1),
    (&["H    2    2", "O    0     ", "O    1    2", "M    0    0", "M    1    1"], 5, 2),
    (&["H    1    1", "O    0     ", "M    0    1"], 6, 2),
    (&["H    1    1", "L    0     ", "D    0    0"], 7, 2),
    (&["H    1    2", "O    0     ", "M    0    0", "M    0    0"], 8, 3),
    (&["H    1    1", "O    0     ", "D    0    0"], 9, 1),
];

pub fn part() -> Tally {
    let mut trial = Trial::default();
    for (name, lines, expected, sheet) in EDGES.into_iter().chain(rests::EDGES) {
        edge(&mut trial, name, &text(lines), expected);
        good_moves(&mut trial, name, &text(lines), &text(sheet));
    }
    for (lines, number, line) in REFUSED.into_iter().chain(BLANKS).chain(rests::REFUSED) {
        let chart = text(lines);
        let subject = Subject::new(&chart);
        let refusal = Refusal { number, line, ..Refusal::default() };
        assert_eq!(subject.value([9; 3]).0.refusal, refusal, "{lines:?}");
        trial.input(&subject);
        trial.value(&subject, [9; 3]);
        trial.write(&subject, 99);
        trial.good_moves(&subject, 99);
        trial.good_moves(&subject, 0);
        trial.solver(&subject, &[], &[0; 9]);
    }
    printed(&mut trial, &text(CHART));
    for positions in LEFT_OUT {
        let mut chart = text(CHART);
        leave_out(&mut chart, |v| positions.contains(&v));
        printed(&mut trial, &chart);
    }
    later_refusals(&mut trial);
    rests::part(&mut trial);
    longest(&mut trial);
    swaps::part(&mut trial);
    ways::part(&mut trial);
    houses::part(&mut trial);
    trial.tally
}

pub(super) fn text(lines: &[&str]) -> Vec<u8> {
    lines.iter().flat_map(|line| [line.as_bytes(), b"\n"].concat()).collect()
}

fn edge(trial: &mut Trial, name: &str, chart: &[u8], expected: &[[u16; 3]]) {
    let subject = Subject::new(chart);
    let n = expected.len();
    let (_, rows) = subject.value([n; 3]);
    for (v, entries) in expected.iter().enumerate() {
        assert_eq!(&[rows[0][v], rows[1][v], rows[2][v]], entries, "edge {name}, position {v}");
    }
    let (_, plate) = subject.write(22 * (n + 1));
    trial.input(&subject);
    trial.value(&subject, [n; 3]);
    trial.write(&subject, plate.len());
    trial.read(&subject, &plate, [n; 3]);
    trial.check(&subject, &plate);
    trial.weigh(&subject, &rows[1], n);
    trial.compare(&subject, &plate, &rows[1]);
    trial.solver(&subject, &plate, &rows[1]);
}

/// A chart's sheet of good moves, with refusal 10 exactly where its lines don't fit.
fn good_moves(trial: &mut Trial, name: &str, chart: &[u8], expected: &[u8]) {
    let subject = Subject::new(chart);
    let (listed, sheet) = subject.good_moves(expected.len());
    assert_eq!((listed.lines, sheet.as_slice()), (expected.len() / 12, expected), "edge {name}, good moves");
    if !expected.is_empty() {
        assert_eq!(subject.good_moves(expected.len() - 1).0.refusal.number, 10, "edge {name}, no room");
    }
    trial.good_moves_by_room(&subject, 25);
}

/// The plate that the document prints beside its chart, which this is, perhaps with blank marks.
fn printed(trial: &mut Trial, chart: &[u8]) {
    let plate = text(PLATE);
    let subject = Subject::new(chart);
    let (written, bytes) = subject.write(132);
    assert_eq!((written.length, &bytes), (132, &plate), "the printed plate");
    assert_eq!(subject.check(&plate), Refusal::default(), "the printed plate is accepted");
    assert_eq!(subject.compare(&plate, &[1, NONE, 0, NONE, 4]).agree, 1, "the plate's own choices");
    trial.input(&subject);
    trial.write(&subject, 132);
    trial.check(&subject, &plate);
    trial.compare(&subject, &plate, &[1, NONE, 0, NONE, 4]);
    trial.solver(&subject, &plate, &[1, NONE, 0, NONE, 4]);
    good_moves(trial, "printed", chart, &text(SHEET));
}

/// The table's examples of refusals 10 to 16, all on the printed chart.
fn later_refusals(trial: &mut Trial) {
    let (chart, plate) = (text(CHART), text(PLATE));
    let subject = Subject::new(&chart);
    let number = |number| Refusal { number, ..Refusal::default() };
    let wrong = String::from_utf8(plate.clone()).expect("ASCII").replace("V    0    2", "V    0    3").into_bytes();
    let run = Run { position: 0, seen: 0, initial: 2, value: 2 };
    let long = Run { seen: 99_999, ..run };
    assert_eq!(subject.write(131).0.refusal, number(10));
    assert_eq!(subject.read(&[], [5; 3]).0.refusal, number(11));
    assert_eq!(subject.weigh(&[3, NONE, 0, NONE, 4], 5).0, number(12));
    assert_eq!(subject.start(&plate, 5).refusal, number(13));
    assert_eq!(subject.report(Run::NONE, &plate, 1).refusal, number(13));
    assert_eq!(subject.check(&wrong), Refusal { number: 14, line: 0, position: 0, condition: 4 });
    assert_eq!(subject.report(run, &plate, 4).refusal, number(15));
    assert_eq!(subject.report(long, &plate, 2).refusal, number(16));
    trial.tally.inputs += 8;
    trial.write(&subject, 131);
    trial.read(&subject, &[], [5; 3]);
    trial.weigh(&subject, &[3, NONE, 0, NONE, 4], 5);
    let none = trial.start(&subject, &plate, 5).run;
    trial.report(&subject, none, &plate, 1);
    trial.check(&subject, &wrong);
    trial.report(&subject, run, &plate, 4);
    trial.report(&subject, long, &plate, 2);
}

/// The long charts are as long as they claim: 512 positions, 4,096 moves, 512 rounds; and two have 512 values.
fn longest(trial: &mut Trial) {
    let (ladder, resting) = (blocks(POSITIONS, MOVES, 1), rest_chain(POSITIONS, MOVES));
    for chart in [lane_chain(POSITIONS, MOVES), console_chain(POSITIONS, MOVES), ladder.clone(), resting.clone()] {
        let text = chart.text();
        let subject = Subject::new(&text);
        assert_eq!((chart.len(), chart.moves()), (POSITIONS, MOVES));
        assert_eq!(usize::from(subject.valuation(&chart).first_line.rounds), POSITIONS);
        trial.tally.inputs += 1;
        trial.value(&subject, [POSITIONS; 3]);
        trial.write(&subject, 22 * (POSITIONS + 1));
    }
    for chart in [ladder, resting] {
        let text = chart.text();
        assert_eq!(Subject::new(&text).valuation(&chart).first_line.highest, 511);
    }
    longest_sheet(trial);
}

/// A line for each of 4,096 moves: 49,152 bytes.
fn longest_sheet(trial: &mut Trial) {
    let text = all_good(POSITIONS, MOVES).text();
    let subject = Subject::new(&text);
    let (listed, sheet) = subject.good_moves(49_152);
    assert_eq!((listed.lines, sheet.len()), (4096, 49_152), "the longest sheet");
    trial.tally.inputs += 1;
    trial.good_moves_by_room(&subject, 12);
}
