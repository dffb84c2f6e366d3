//! From a chart's text to the chart, or to refusal 1 to 9 or 17 with its line.

use super::refused_at;
use crate::capi::Refusal;
use crate::chart::{Chart, Owner, Position, MOVES, POSITIONS};

const LINE: usize = 12;
const LONGEST: usize = LINE * (1 + POSITIONS + MOVES);

pub fn parse(text: &[u8]) -> Result<Chart, Refusal> {
    if text.is_empty() || text.len() > LONGEST || text.len() % LINE != 0 {
        return Err(refused_at(1, 0));
    }
    let n = counted(text)?;
    let mut chart = Chart { positions: Vec::with_capacity(n) };
    for line in 1..=n {
        chart.positions.push(position(text, line)?);
    }
    let mut before = None;
    for line in n + 1..text.len() / LINE {
        before = Some(add_move(&mut chart, text, line, before)?);
    }
    match chart.positions.iter().position(lacks_meant) {
        Some(lowest) => Err(refused_at(9, 1 + lowest)),
        None => Ok(chart),
    }
}

/// Whether a position has no meant move and should have one.
fn lacks_meant(position: &Position) -> bool {
    match position.owner {
        Owner::Console | Owner::Lane => position.meant.is_empty(),
        Owner::Nobody => false,
    }
}

/// The first line: the count of positions, after refusals 2, 3 and 4.
fn counted(text: &[u8]) -> Result<usize, Refusal> {
    let (_, n, m) = fields(text, 0, b"H", number)?;
    if !(1..=POSITIONS).contains(&n) || !(1..=MOVES).contains(&m) {
        return Err(refused_at(3, 0));
    }
    if text.len() / LINE != 1 + n + m {
        return Err(refused_at(4, 0));
    }
    Ok(n)
}

/// A position line, whose moves come later.
fn position(text: &[u8], line: usize) -> Result<Position, Refusal> {
    let (letter, number, mark) = fields(text, line, b"OLR", mark)?;
    if number != line - 1 || mark > 1 {
        return Err(refused_at(5, line));
    }
    let owner = match letter {
        b'O' => Owner::Console,
        b'L' => Owner::Lane,
        _ => Owner::Nobody,
    };
    Ok(Position { owner, safe: mark == 0, meant: Vec::new(), disturbances: Vec::new() })
}

/// What the move lines rise by: from, then M before D, then to.
type Rank = (usize, bool, usize);

fn add_move(chart: &mut Chart, text: &[u8], line: usize, before: Option<Rank>) -> Result<Rank, Refusal> {
    let (letter, from, to) = fields(text, line, b"MD", number)?;
    let disturbance = letter == b'D';
    if from >= chart.len() || to >= chart.len() {
        return Err(refused_at(6, line));
    }
    let position = &mut chart.positions[from];
    match (position.owner, disturbance) {
        (Owner::Lane, true) => return Err(refused_at(7, line)),
        (Owner::Nobody, false) => return Err(refused_at(17, line)),
        _ => {}
    }
    let rank = (from, disturbance, to);
    if before.is_some_and(|before| rank <= before) {
        return Err(refused_at(8, line));
    }
    let list = if disturbance { &mut position.disturbances } else { &mut position.meant };
    list.push(to as u16);
    Ok(rank)
}

/// How a field is read where it stands: its number, or none where it is refused.
type Reader = fn(&[u8]) -> Option<usize>;

/// The letter and the two numbers of a line, or refusal 2.
fn fields(text: &[u8], line: usize, letters: &[u8], read_second: Reader) -> Result<(u8, usize, usize), Refusal> {
    let bytes = &text[LINE * line..LINE * (line + 1)];
    let read = || {
        let first = number(&bytes[1..6])?;
        let second = read_second(&bytes[6..11])?;
        (letters.contains(&bytes[0]) && bytes[11] == b'\n').then_some((bytes[0], first, second))
    };
    read().ok_or(refused_at(2, line))
}

/// What five bytes read as.
enum Field {
    Number(usize),
    /// Five spaces.
    Blank,
    Bad,
}

/// Digits after spaces, with no leading zero save "0" itself, are a number.
fn field(bytes: &[u8]) -> Field {
    let spaces = bytes.iter().take_while(|&&byte| byte == b' ').count();
    let digits = &bytes[spaces..];
    if digits.is_empty() {
        return Field::Blank;
    }
    let leading_zero = digits.len() > 1 && digits[0] == b'0';
    if leading_zero || !digits.iter().all(u8::is_ascii_digit) {
        return Field::Bad;
    }
    Field::Number(digits.iter().fold(0, |sum, &digit| 10 * sum + usize::from(digit - b'0')))
}

/// The number of a field that must have one: there a blank is refused as a bad field is.
pub fn number(bytes: &[u8]) -> Option<usize> {
    match field(bytes) {
        Field::Number(number) => Some(number),
        Field::Blank | Field::Bad => None,
    }
}

/// A position's mark. Blank means 0.
fn mark(bytes: &[u8]) -> Option<usize> {
    match field(bytes) {
        Field::Number(number) => Some(number),
        Field::Blank => Some(0),
        Field::Bad => None,
    }
}
