//! The plate's text, and back from a text to a plate, or to refusal 11 with its line.

use super::{parse::number, refused_at};
use crate::capi::{FirstLine, Refusal, NONE};
use crate::chart::push_number;

const LINE: usize = 22;

/// A plate's numbers, right or wrong.
#[derive(Clone, Debug, PartialEq, Eq)]
pub struct Plate {
    pub first_line: FirstLine,
    pub values: Vec<u16>,
    pub choices: Vec<u16>,
    pub steps: Vec<u16>,
}

pub fn plate_text(plate: &Plate) -> Vec<u8> {
    let n = plate.values.len();
    let mut text = Vec::with_capacity(LINE * (n + 1));
    text.push(b'P');
    push_number(&mut text, n);
    push_number(&mut text, usize::from(plate.first_line.rounds));
    push_entry(&mut text, plate.first_line.highest, b"    -");
    push_number(&mut text, usize::from(plate.first_line.evers));
    text.push(b'\n');
    for v in 0..n {
        text.push(b'V');
        push_number(&mut text, v);
        push_entry(&mut text, plate.values[v], b" ever");
        push_entry(&mut text, plate.choices[v], b"    -");
        push_entry(&mut text, plate.steps[v], b"    -");
        text.push(b'\n');
    }
    text
}

fn push_entry(text: &mut Vec<u8>, entry: u16, none: &[u8; 5]) {
    if entry == NONE {
        text.extend_from_slice(none);
    } else {
        push_number(text, usize::from(entry));
    }
}

/// A plate of the form under refusal 11 for a chart of `n` positions.
pub fn parse(n: usize, text: &[u8]) -> Result<Plate, Refusal> {
    if text.len() != LINE * (n + 1) {
        return Err(refused_at(11, 0));
    }
    let mut lines = text.chunks(LINE);
    let first = lines.next().and_then(|line| first_line(n, line));
    let mut plate = Plate {
        first_line: first.ok_or(refused_at(11, 0))?,
        values: Vec::with_capacity(n),
        choices: Vec::with_capacity(n),
        steps: Vec::with_capacity(n),
    };
    for (v, line) in lines.enumerate() {
        let [value, choice, step] = position_line(n, v, line).ok_or(refused_at(11, 1 + v))?;
        plate.values.push(value);
        plate.choices.push(choice);
        plate.steps.push(step);
    }
    Ok(plate)
}

fn first_line(n: usize, line: &[u8]) -> Option<FirstLine> {
    let [count, rounds, highest, evers] = fields(line, b'P')?;
    if number(count)? != n {
        return None;
    }
    Some(FirstLine { rounds: below(rounds, 513)?, highest: entry(highest, b"    -", 512)?, evers: below(evers, 513)? })
}

fn position_line(n: usize, v: usize, line: &[u8]) -> Option<[u16; 3]> {
    let [count, value, choice, step] = fields(line, b'V')?;
    if number(count)? != v {
        return None;
    }
    Some([entry(value, b" ever", 512)?, entry(choice, b"    -", n)?, entry(step, b"    -", 512)?])
}

/// The four fields of a line with this letter and a line feed.
fn fields(line: &[u8], letter: u8) -> Option<[&[u8]; 4]> {
    let form = line[0] == letter && line[LINE - 1] == b'\n';
    form.then(|| [&line[1..6], &line[6..11], &line[11..16], &line[16..21]])
}

fn entry(field: &[u8], none: &[u8], bound: usize) -> Option<u16> {
    if field == none {
        return Some(NONE);
    }
    below(field, bound)
}

fn below(field: &[u8], bound: usize) -> Option<u16> {
    number(field).filter(|&number| number < bound).map(|number| number as u16)
}
