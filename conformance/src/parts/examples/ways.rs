//! What document 02 says of ways to ruin (order 6).

use super::{rests, text, Refused, BLANKS, CHART, REFUSED};
use crate::blanks::leave_out;
use crate::capi::{Refusal, NONE};
use crate::chart::{Chart, Owner, MOVES, POSITIONS};
use crate::model::{ruin, Subject};
use crate::shapes::{blocks, lane_chain, rest_chain};
use crate::trial::Trial;
use crate::ways::{Way, LINE};

/// A chart, choices, a position, and the way to ruin from there; an empty one where it is refused with 19.
type Example = (&'static str, &'static [&'static str], &'static [u16], usize, &'static [&'static str]);

/// The printed chart's two positional controllers: at 2 the console goes to 0 or stays.
const CONTROLLERS: [&[u16]; 2] = [&[1, NONE, 0, NONE, 4], &[1, NONE, 2, NONE, 4]];

/// Under both of them, from each position.
const PRINTED: [&[&str]; 5] = [
    &["W    0    0", "W    2    1", "W    3    1"],
    &["W    1    0", "W    0    0", "W    2    1", "W    3    1"],
    &["W    2    0", "W    3    1"],
    &["W    3    0"],
    &[],
];

/// At 0 the console may stay or go into ruin, by itself or disturbed.
const BOTH: &[&str] =
    &["H    2    4", "O    0    0", "L    1    1", "M    0    0", "M    0    1", "D    0    1", "M    1    1"];

/// Two positions of the lane's that may stay or change about before one of them ends it.
#[rustfmt::skip]
const DALLYING: &[&str] = &[
    "H    3    6", "L    0    0", "L    1    0", "L    2    1", "M    0    0", "M    0    1", "M    1    0", "M    1    1", "M    1    2",
    "M    2    2",
];

/// A disturbance leaves the R at 1 for 0 or for 2, none that at 4.
#[rustfmt::skip]
const RESTING: &[&str] = &[
    "H    5    5", "O    0    0", "R    1    0", "L    2    0", "R    3    1", "R    4    0", "M    0    1", "D    1    0", "D    1    2",
    "M    2    3", "D    3    4",
];

#[rustfmt::skip]
const EXAMPLES: [Example; 20] = [
    ("three meant moves before one disturbance",
        &["H    4    5", "O    0    0", "L    1    0", "L    2    0", "L    3    1", "M    0    1", "D    0    3", "M    1    2",
          "M    2    3", "M    3    3"],
        &[1, NONE, NONE, NONE], 0, &["W    0    0", "W    1    0", "W    2    0", "W    3    0"]),
    ("one disturbance and two meant moves before two disturbances",
        &["H    5    8", "O    0    0", "O    1    0", "L    2    0", "L    3    0", "L    4    1", "M    0    0", "D    0    1",
          "D    0    2", "M    1    1", "D    1    4", "M    2    3", "M    3    4", "M    4    4"],
        &[0, 1, NONE, NONE, NONE], 0, &["W    0    0", "W    2    1", "W    3    0", "W    4    0"]),
    ("two moves by the higher position before three by the lower",
        &["H    5    6", "L    0    0", "L    1    0", "L    2    0", "L    3    0", "L    4    1", "M    0    1", "M    0    3",
          "M    1    2", "M    2    4", "M    3    4", "M    4    4"],
        &[NONE; 5], 0, &["W    0    0", "W    3    0", "W    4    0"]),
    ("the same with a disturbance on both",
        &["H    5    7", "O    0    0", "L    1    0", "L    2    0", "L    3    0", "L    4    1", "M    0    0", "D    0    1",
          "D    0    3", "M    1    2", "M    2    4", "M    3    4", "M    4    4"],
        &[0, NONE, NONE, NONE, NONE], 0, &["W    0    0", "W    3    1", "W    4    0"]),
    ("the lower position at the first difference, though the way ends at the higher",
        &["H    5    6", "L    0    0", "L    1    0", "L    2    0", "L    3    1", "L    4    1", "M    0    1", "M    0    2",
          "M    1    4", "M    2    3", "M    3    3", "M    4    4"],
        &[NONE; 5], 0, &["W    0    0", "W    1    0", "W    4    0"]),
    ("the first difference after two positions that are the same",
        &["H    6    7", "L    0    0", "L    1    0", "L    2    0", "L    3    0", "L    4    1", "L    5    1", "M    0    1",
          "M    1    2", "M    1    3", "M    2    5", "M    3    4", "M    4    4", "M    5    5"],
        &[NONE; 6], 0, &["W    0    0", "W    1    0", "W    2    0", "W    5    0"]),
    ("as cheap and as short: the disturbance comes first by the lower position",
        &["H    4    6", "O    0    0", "L    1    0", "O    2    0", "L    3    1", "M    0    2", "D    0    1", "M    1    3",
          "M    2    2", "D    2    3", "M    3    3"],
        &[2, NONE, 2, NONE], 0, &["W    0    0", "W    1    1", "W    3    0"]),
    ("as cheap and as short: the meant move comes first by the lower position",
        &["H    4    6", "O    0    0", "O    1    0", "L    2    0", "L    3    1", "M    0    1", "D    0    2", "M    1    1",
          "D    1    3", "M    2    3", "M    3    3"],
        &[1, 1, NONE, NONE], 0, &["W    0    0", "W    1    0", "W    3    1"]),
    ("two disturbances as good: the lower", &["H    3    3", "R    0    0", "R    1    1", "R    2    1", "D    0    0", "D    0    1",
          "D    0    2"], &[NONE; 3], 0, &["W    0    0", "W    1    1"]),
    ("the lane could stay", DALLYING, &[NONE; 3], 0, &["W    0    0", "W    1    0", "W    2    0"]),
    ("the lane could go back to the lower", DALLYING, &[NONE; 3], 1, &["W    1    0", "W    2    0"]),
    ("the chosen target is disturbed too", BOTH, &[1, NONE], 0, &["W    0    0", "W    1    0"]),
    ("a meant target that is not chosen", BOTH, &[0, NONE], 0, &["W    0    0", "W    1    1"]),
    ("R on the way", RESTING, &[1, NONE, NONE, NONE, NONE], 0, &["W    0    0", "W    1    0", "W    2    1", "W    3    0"]),
    ("R that nothing leaves", RESTING, &[1, NONE, NONE, NONE, NONE], 4, &[]),
    ("an unsafe R", RESTING, &[1, NONE, NONE, NONE, NONE], 3, &["W    3    0"]),
    ("an unsafe O that could go to another unsafe position",
        &["H    2    4", "O    0    1", "O    1    1", "M    0    0", "M    0    1", "D    0    1", "M    1    0"],
        &[0, 0], 1, &["W    1    0"]),
    ("ever by the plate, ruin by these choices",
        &["H    2    3", "O    0    0", "L    1    1", "M    0    0", "M    0    1", "M    1    1"], &[1, NONE], 0,
        &["W    0    0", "W    1    0"]),
    ("ever by the plate and by these choices",
        &["H    2    3", "O    0    0", "L    1    1", "M    0    0", "M    0    1", "M    1    1"], &[0, NONE], 0, &[]),
    ("a disturbance back to the start", &["H    2    3", "O    0    0", "R    1    0", "M    0    1", "D    0    0", "D    1    0"],
        &[1, NONE], 0, &[]),
];

/// On the printed chart: choices, a position, a length, and the refusal. The choices come first, in their count before their
/// entries, then the position, then the worth, and the buffer last.
#[rustfmt::skip]
const ORDER: [(&[u16], usize, usize, u32); 27] = [
    (&[], 0, 36, 10), (&[], 4, 0, 10), (&[1, NONE, 0, NONE], 0, 36, 10), (&[1, NONE, 0, NONE], 9, 0, 10),
    (&[3, NONE, 0, NONE], 0, 36, 10), (&[3, NONE, 0, NONE], 9, 0, 10),
    (&[3, NONE, 0, NONE, 4], 0, 36, 12), (&[3, NONE, 0, NONE, 4], 5, 36, 12), (&[3, NONE, 0, NONE, 4], 4, 0, 12),
    (&[1, 0, 0, NONE, 4], 0, 36, 12), (&[1, NONE, 0, 3, 4], 0, 36, 12), (&[1, NONE, 0, NONE, NONE], 0, 0, 12),
    (&[2, NONE, 0, NONE, 4], 0, 36, 12),
    (&[1, NONE, 0, NONE, 4], 5, 36, 13), (&[1, NONE, 0, NONE, 4], 5, 0, 13), (&[1, NONE, 0, NONE, 4], 65_535, 36, 13),
    (&[1, NONE, 0, NONE, 4], 65_536, 36, 13), (&[1, NONE, 0, NONE, 4], 1 << 32, 36, 13),
    (&[1, NONE, 0, NONE, 4], usize::MAX, 36, 13),
    (&[1, NONE, 0, NONE, 4], 4, 36, 19), (&[1, NONE, 0, NONE, 4], 4, 0, 19),
    (&[1, NONE, 0, NONE, 4], 0, 0, 10), (&[1, NONE, 0, NONE, 4], 0, 35, 10), (&[1, NONE, 0, NONE, 4], 0, 36, 0),
    (&[1, NONE, 0, NONE, 4, 7, NONE], 0, 37, 0), (&[1, NONE, 0, NONE, 4, 0], 0, 100, 0), (&[1, NONE, 0, NONE, 4], 3, 12, 0),
];

pub fn part(trial: &mut Trial) {
    for (position, expected) in PRINTED.into_iter().enumerate() {
        CONTROLLERS.iter().for_each(|choices| printed(trial, choices, position, expected));
    }
    for (name, chart, choices, position, expected) in EXAMPLES {
        example(trial, name, &text(chart), choices, position, &text(expected));
    }
    for (choices, position, length, number) in ORDER {
        let chart = text(CHART);
        let subject = Subject::new(&chart);
        order(trial, &Way::new(&subject, choices, position), length, Refusal { number, ..Refusal::default() });
    }
    for refused in REFUSED.into_iter().chain(BLANKS).chain(rests::REFUSED) {
        refused_chart(trial, refused);
    }
    longest(trial);
}

/// With the printed marks, and with blank ones.
fn printed(trial: &mut Trial, choices: &[u16], position: usize, expected: &[&str]) {
    let mut chart = text(CHART);
    example(trial, "printed", &chart, choices, position, &text(expected));
    leave_out(&mut chart, |_| true);
    example(trial, "printed, blank marks", &chart, choices, position, &text(expected));
}

fn example(trial: &mut Trial, name: &str, chart: &[u8], choices: &[u16], position: usize, expected: &[u8]) {
    let subject = Subject::new(chart);
    let way = Way::new(&subject, choices, position);
    let (answer, sheet) = ruin(&way.play, expected.len());
    assert_eq!((answer.lines, sheet.as_slice()), (expected.len() / LINE, expected), "{name}, from {position}");
    assert_eq!(answer.refusal.number == 19, expected.is_empty(), "{name}, from {position}");
    trial.tally.inputs += 1;
    trial.ruin_by_room(&way, 25);
}

fn order(trial: &mut Trial, way: &Way, length: usize, refusal: Refusal) {
    let (answer, _) = ruin(&way.play, length);
    assert_eq!(answer.refusal, refusal, "{:?} from {} with {length} bytes", way.choices, way.position);
    trial.tally.inputs += 1;
    trial.ruin(way, length);
}

/// The chart is refused before all else.
fn refused_chart(trial: &mut Trial, (lines, number, line): Refused) {
    let chart = text(lines);
    let subject = Subject::new(&chart);
    let refusal = Refusal { number, line, ..Refusal::default() };
    order(trial, &Way::new(&subject, &[], 9), 0, refusal);
    order(trial, &Way::new(&subject, &[0; 9], 0), 99, refusal);
}

/// Ways through 512 positions: 6,144 bytes, with no disturbance, with one on every second move, and with 511; and ways beside
/// which others are far shorter, or count past a byte.
fn longest(trial: &mut Trial) {
    let down: Vec<u16> = (0..POSITIONS as u16).rev().collect();
    long_way(trial, &lane_chain(POSITIONS, MOVES), &down, 0);
    long_way(trial, &blocks(POSITIONS, MOVES, 2), &down, 255);
    long_way(trial, &rest_chain(POSITIONS, MOVES), &down, 511);
    let mut hurried = lane_chain(POSITIONS, POSITIONS);
    let top = &mut hurried.positions[POSITIONS - 1];
    (top.owner, top.disturbances) = (Owner::Console, vec![0]);
    long_way(trial, &hurried, &down, 0);
    // From 257 up to the last position and then to 0 by 255 disturbances, or down by 257.
    let mut forked = rest_chain(POSITIONS, POSITIONS);
    for (number, position) in forked.positions.iter_mut().enumerate().skip(257) {
        position.disturbances = vec![((number + 1) % POSITIONS) as u16];
    }
    forked.positions[257].disturbances.insert(0, 256);
    let up: Vec<u16> = (257..POSITIONS as u16).chain([0]).collect();
    long_way(trial, &forked, &up, 255);
}

/// The way from the first of these positions, by the plate's choices.
fn long_way(trial: &mut Trial, chart: &Chart, positions: &[u16], disturbances: usize) {
    let text = chart.text();
    let subject = Subject::new(&text);
    let way = Way::new(&subject, &subject.valuation(chart).choices, usize::from(positions[0]));
    let play = way.play.as_ref().expect("there is a way");
    assert!(play.iter().map(|visit| visit.position).eq(positions.iter().copied()), "a long way: {play:?}");
    assert_eq!(play.iter().filter(|visit| visit.disturbed).count(), disturbances);
    trial.tally.inputs += 1;
    trial.ruin_by_room(&way, LINE);
}
