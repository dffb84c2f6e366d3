//! Damage that has to do with a position of rest: letters changed to R and from R, and meant moves from R, alone and beside
//! what 6, 7 and 8 refuse, on their own line and on others.

use super::damage::{counted, field, mend_chart, CHART};
use crate::blanks::BLANK;
use crate::chart::{held, push_line};
use crate::random::Random;

/// One such damage to a chart's text, at a position that is at rest or becomes so, and perhaps another fault of its moves.
pub fn hurt_chart_by_rest(random: &mut Random, text: &mut Vec<u8>) {
    let Some(n) = counted(text) else {
        return;
    };
    let v = resting(random, text, n);
    let (own, any) = (first_move(text, n, v), random.between(n + 1, text.len() / CHART));
    let to = random.below(n);
    match random.below(7) {
        0 => text[CHART * (1 + v)] = *random.pick(b"OLr"),
        1 => text[CHART * (1 + v) + 6..CHART * (1 + v) + 11].copy_from_slice(BLANK),
        2 => exchange_letters(random, text, n, v),
        3 => insert(text, own, v, n + random.below(2)),
        4 => insert(text, any, v, to),
        _ => insert(text, own, v, to),
    }
    if random.chance(50) {
        other_fault(random, text, n);
    }
    if random.chance(95) {
        mend_chart(text);
    }
}

/// A position with the letter R, which one gets if none has it.
fn resting(random: &mut Random, text: &mut [u8], n: usize) -> usize {
    let at_rest: Vec<usize> = (0..n).filter(|v| text[CHART * (1 + v)] == b'R').collect();
    if !at_rest.is_empty() {
        return *random.pick(&at_rest);
    }
    let v = random.below(n);
    text[CHART * (1 + v)] = b'R';
    v
}

/// The line that a position's moves begin with, or would.
fn first_move(text: &[u8], n: usize, v: usize) -> usize {
    let lines = text.len() / CHART;
    let from = |line: &usize| held(&text[CHART * line + 1..CHART * line + 6]);
    (n + 1..lines).find(|line| from(line) >= Some(v)).unwrap_or(lines)
}

/// A meant move as a line more.
fn insert(text: &mut Vec<u8>, line: usize, from: usize, to: usize) {
    let mut bytes = Vec::with_capacity(CHART);
    push_line(&mut bytes, b'M', from, to);
    text.splice(CHART * line..CHART * line, bytes).for_each(drop);
}

/// Makes one of a position's disturbances a meant move, or the other way round.
fn exchange_letters(random: &mut Random, text: &mut [u8], n: usize, v: usize) {
    let own = |line: &usize| text[CHART * line + 1..CHART * line + 6] == field(v);
    let lines: Vec<usize> = (n + 1..text.len() / CHART).filter(own).collect();
    if !lines.is_empty() {
        text[CHART * random.pick(&lines)] ^= b'M' ^ b'D';
    }
}

/// Something else that is wrong with some move: it names no position (6), it may be a disturbance from L (7) or leave
/// another position, or it does not rise (8).
fn other_fault(random: &mut Random, text: &mut Vec<u8>, n: usize) {
    let start = CHART * random.between(n + 1, text.len() / CHART - 1);
    match random.below(4) {
        0 => text[start + 6..start + 11].copy_from_slice(&field(n + random.below(2))),
        1 => text[start] ^= b'M' ^ b'D',
        2 => text[start + 1..start + 6].copy_from_slice(&field(random.below(n))),
        _ => text.splice(start..start, text[start..start + CHART].to_vec()).for_each(drop),
    }
}
