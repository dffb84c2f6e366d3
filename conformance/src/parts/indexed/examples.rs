//! What document 02 says of small charts (order 9), on charts written out by hand.

use crate::capi::{Indexed, Refusal};
use crate::indices::Wanted;
use crate::model::Subject;
use crate::parts::examples::text;
use crate::trial::Trial;

/// A small chart: its index, and its lines after the first, which counts them.
type Example = (usize, &'static [&'static str]);

/// All of one position: O before L, then the mark, then the disturbances.
const ONE: [Example; 6] = [
    (0, &["O    0    0", "M    0    0"]),
    (1, &["O    0    0", "M    0    0", "D    0    0"]),
    (2, &["O    0    1", "M    0    0"]),
    (3, &["O    0    1", "M    0    0", "D    0    0"]),
    (4, &["L    0    0", "M    0    0"]),
    (5, &["L    0    1", "M    0    0"]),
];

/// Of two positions, each of which can be one of 30: how the last one changes, then the first, then the last chart.
#[rustfmt::skip]
const TWO: [Example; 15] = [
    (0, &["O    0    0", "O    1    0", "M    0    0", "M    1    0"]),
    (1, &["O    0    0", "O    1    0", "M    0    0", "M    1    0", "D    1    0"]),
    (2, &["O    0    0", "O    1    0", "M    0    0", "M    1    0", "D    1    1"]),
    (3, &["O    0    0", "O    1    0", "M    0    0", "M    1    0", "D    1    0", "D    1    1"]),
    (4, &["O    0    0", "O    1    0", "M    0    0", "M    1    1"]),
    (8, &["O    0    0", "O    1    0", "M    0    0", "M    1    0", "M    1    1"]),
    (12, &["O    0    0", "O    1    1", "M    0    0", "M    1    0"]),
    (23, &["O    0    0", "O    1    1", "M    0    0", "M    1    0", "M    1    1", "D    1    0", "D    1    1"]),
    (24, &["O    0    0", "L    1    0", "M    0    0", "M    1    0"]),
    (26, &["O    0    0", "L    1    0", "M    0    0", "M    1    0", "M    1    1"]),
    (27, &["O    0    0", "L    1    1", "M    0    0", "M    1    0"]),
    (29, &["O    0    0", "L    1    1", "M    0    0", "M    1    0", "M    1    1"]),
    (30, &["O    0    0", "O    1    0", "M    0    0", "D    0    0", "M    1    0"]),
    (417, &["O    0    1", "L    1    1", "M    0    0", "D    0    0", "M    1    0"]),
    (899, &["L    0    1", "L    1    1", "M    0    0", "M    0    1", "M    1    0", "M    1    1"]),
];

/// Of three positions, each of which can be one of 126.
#[rustfmt::skip]
const THREE: [Example; 8] = [
    (0, &["O    0    0", "O    1    0", "O    2    0", "M    0    0", "M    1    0", "M    2    0"]),
    (5, &["O    0    0", "O    1    0", "O    2    0", "M    0    0", "M    1    0", "M    2    0", "D    2    0", "D    2    2"]),
    (32, &["O    0    0", "O    1    0", "O    2    0", "M    0    0", "M    1    0", "M    2    0", "M    2    2"]),
    (56, &["O    0    0", "O    1    0", "O    2    1", "M    0    0", "M    1    0", "M    2    0"]),
    (112, &["O    0    0", "O    1    0", "L    2    0", "M    0    0", "M    1    0", "M    2    0"]),
    (126, &["O    0    0", "O    1    0", "O    2    0", "M    0    0", "M    1    0", "D    1    0", "M    2    0"]),
    (126 * 126, &["O    0    0", "O    1    0", "O    2    0", "M    0    0", "D    0    0", "M    1    0", "M    2    0"]),
    (2_000_375,
        &["L    0    1", "L    1    1", "L    2    1", "M    0    0", "M    0    1", "M    0    2", "M    1    0", "M    1    1",
          "M    1    2", "M    2    0", "M    2    1", "M    2    2"]),
];

/// Positions and an index that no small chart has.
#[rustfmt::skip]
const ABSENT: [(usize, usize); 12] = [
    (1, 6), (2, 900), (3, 2_000_376), (0, 0), (4, 0), (5, 0), (usize::MAX, 0), (0, usize::MAX), (1, usize::MAX), (2, usize::MAX),
    (3, usize::MAX), (usize::MAX, usize::MAX),
];

/// A chart's lines, and what is answered for its index.
type Other = (&'static [&'static str], Result<usize, (u32, usize)>);

/// Blank marks, charts of another sort, and charts of another sort that are misdrawn too.
#[rustfmt::skip]
const OTHERS: [Other; 14] = [
    (&["H    1    1", "O    0     ", "M    0    0"], Ok(0)),
    (&["H    1    1", "L    0     ", "M    0    0"], Ok(4)),
    (&["H    2    3", "O    0    1", "L    1     ", "M    0    0", "D    0    0", "M    1    0"], Ok(414)),
    (&["H    4    4", "O    0    0", "O    1    0", "O    2    0", "O    3    0", "M    0    0", "M    1    0", "M    2    0",
       "M    3    0"], Err((21, 0))),
    (&["H    4    4", "L    0     ", "L    1    1", "L    2    0", "L    3    0", "M    0    0", "M    1    0", "M    2    0",
       "M    3    0"], Err((21, 0))),
    (&["H    1    1", "R    0    0", "D    0    0"], Err((21, 0))),
    (&["H    2    1", "O    0    0", "R    1    0", "M    0    0"], Err((21, 0))),
    (&["H    3    2", "R    0     ", "L    1    1", "O    2    0", "M    1    0", "M    2    1"], Err((21, 0))),
    (&["H    1    1", "O    0    2", "M    0    0"], Err((5, 1))),
    (&["H    1    1", "R    0    0", "M    0    0"], Err((17, 2))),
    (&["H    2    1", "R    0    0", "O    1    2", "D    0    0"], Err((5, 2))),
    (&["H    2    1", "R    0    0", "O    1    0", "D    0    0"], Err((9, 2))),
    (&["H    4    1", "L    0    0", "L    1    0", "L    2    0", "L    3    0", "M    0    0"], Err((9, 2))),
    (&["H    4    2", "L    0    0", "L    1    0", "L    2    0", "L    3    0", "M    0    0", "M    0    0"], Err((8, 6))),
];

pub fn part(trial: &mut Trial) {
    for (n, examples) in [(1, &ONE[..]), (2, &TWO), (3, &THREE)] {
        examples.iter().for_each(|&(index, lines)| example(trial, n, index, lines));
    }
    for (positions, index) in ABSENT {
        let wanted = Wanted { positions, index, text: None };
        trial.tally.inputs += 1;
        (0..300).for_each(|length| trial.small_chart(wanted, length));
    }
    for (lines, answer) in OTHERS {
        trial.tally.inputs += 1;
        indexed(trial, &text(lines), answer.map_or_else(refused, found));
    }
}

fn found(index: usize) -> Indexed {
    Indexed { refusal: Refusal::default(), index }
}

fn refused((number, line): (u32, usize)) -> Indexed {
    Indexed { refusal: Refusal { number, line, ..Refusal::default() }, index: 0 }
}

/// By its index with every length of the buffer up to a line more than is wanted, and back.
fn example(trial: &mut Trial, n: usize, index: usize, lines: &[&str]) {
    let first = format!("H{n:>5}{:>5}", lines.len() - n);
    let chart = text(&[&[first.as_str()], lines].concat());
    let wanted = Wanted { positions: n, index, text: Some(&chart) };
    trial.tally.inputs += 1;
    (0..=chart.len() + 12).for_each(|length| trial.small_chart(wanted, length));
    indexed(trial, &chart, found(index));
}

fn indexed(trial: &mut Trial, chart: &[u8], answer: Indexed) {
    let subject = Subject::new(chart);
    assert_eq!(subject.small_index(), answer, "the index of {}", chart.escape_ascii());
    trial.small_index(&subject);
}
