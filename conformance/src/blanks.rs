//! Blank marks in the texts of charts: left out, filled in again, and what an answer shows of them.

use crate::capi::Refusal;
use crate::chart::held;
use crate::model::Subject;
use crate::random::Random;

pub const BLANK: &[u8; 5] = b"     ";
const ZERO: &[u8; 5] = b"    0";

/// The bytes of a chart's line.
const LINE: usize = 12;

/// How many position lines the first line counts; none if it holds no number.
fn positions(text: &[u8]) -> usize {
    text.get(1..6).and_then(held).unwrap_or(0)
}

/// The marks of the position lines, as far as these are there.
fn marks(text: &mut [u8]) -> impl Iterator<Item = &mut [u8]> {
    let n = positions(text);
    text.chunks_exact_mut(LINE).skip(1).take(n).map(|line| &mut line[6..11])
}

/// Leaves out the mark of each safe position that is chosen.
pub fn leave_out(text: &mut [u8], mut chosen: impl FnMut(usize) -> bool) {
    for (v, mark) in marks(text).enumerate() {
        if mark == ZERO && chosen(v) {
            mark.copy_from_slice(BLANK);
        }
    }
}

/// Leaves out safe marks: in one text of three none, in one all, and in one each with chance one half.
pub fn leave_out_some(random: &mut Random, text: &mut [u8]) {
    let percent = *random.pick(&[0, 50, 100]);
    leave_out(text, |_| random.chance(percent));
}

/// The text with 0 for its blank marks.
pub fn filled_in(text: &[u8]) -> Vec<u8> {
    let mut filled = text.to_vec();
    for mark in marks(&mut filled) {
        if mark == BLANK {
            mark.copy_from_slice(ZERO);
        }
    }
    filled
}

/// What an answer to a chart may show of blanks: they are marks of a chart that is taken, one of them is why a line is
/// refused, or they are marks and the chart is refused for another reason, on such a line or after one.
pub const SIGHTS: [&str; 8] = [
    "taken as a mark",
    "refused as n",
    "refused as m",
    "refused as a position",
    "refused as from",
    "refused as to",
    "a mark beside another fault",
    "a mark before another fault",
];

/// Which of these an answer to a chart shows.
pub fn sights(text: &[u8], answer: Refusal) -> [bool; SIGHTS.len()] {
    let (n, line) = (positions(text), answer.line);
    let (header, position) = (line == 0, (1..=n).contains(&line));
    let a_move = !header && !position;
    let blank_mark = |line: &usize| field(text, *line, 6) == Some(BLANK);
    let first_mark = (1..=n.min(text.len() / LINE)).find(blank_mark);
    let refused = |column: usize| answer.number == 2 && at_fault(text, line, column);
    [
        answer.number == 0 && first_mark.is_some(),
        header && refused(1),
        header && refused(6),
        position && refused(1),
        a_move && refused(1),
        a_move && refused(6),
        position && blank_mark(&line) && matches!(answer.number, 2 | 5),
        answer.number > 1 && first_mark.is_some_and(|first| first < line),
    ]
}

fn field(text: &[u8], line: usize, column: usize) -> Option<&[u8]> {
    text.get(LINE * line + column..LINE * line + column + 5)
}

/// Whether a field that is no mark is blank, and this is all that its line is refused for with 2.
fn at_fault(text: &[u8], line: usize, column: usize) -> bool {
    if field(text, line, column) != Some(BLANK) {
        return false;
    }
    let mut other = text.to_vec();
    other[LINE * line + column..LINE * line + column + 5].copy_from_slice(ZERO);
    let answer = Subject::new(&other).chart().err().unwrap_or_default();
    answer.number != 2 || answer.line != line
}
