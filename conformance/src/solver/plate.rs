//! A plate's numbers, its text both ways, and the check of its conditions.

use super::board::Board;
use super::{field, Row};
use crate::capi::{FirstLine, Refusal, NONE};
use crate::chart::{Owner, POSITIONS};

pub const LINE: usize = 22;

const DASH: &[u8; 5] = b"    -";
const EVER: &[u8; 5] = b" ever";

pub struct Plate {
    pub first_line: FirstLine,
    pub values: Row,
    pub choices: Row,
    pub steps: Row,
}

impl Plate {
    pub fn empty() -> Plate {
        Plate {
            first_line: FirstLine::default(),
            values: [NONE; POSITIONS],
            choices: [NONE; POSITIONS],
            steps: [NONE; POSITIONS],
        }
    }

    /// The first line's numbers for these rows.
    pub fn summed(&self, n: usize, rounds: u16) -> FirstLine {
        let mut first_line = FirstLine { rounds, highest: NONE, evers: 0 };
        for &value in &self.values[..n] {
            if value == NONE {
                first_line.evers += 1;
            } else if first_line.highest == NONE || value > first_line.highest {
                first_line.highest = value;
            }
        }
        first_line
    }

    pub fn write(&self, n: usize, buffer: &mut [u8]) {
        let first_line = &self.first_line;
        let (first, rest) = buffer.split_at_mut(LINE);
        put_line(first, b'P', n as u16, [first_line.rounds, first_line.highest, first_line.evers], DASH);
        for (v, line) in rest.chunks_exact_mut(LINE).enumerate() {
            let entries = [self.values[v], self.choices[v], self.steps[v]];
            put_line(line, b'V', v as u16, entries, DASH);
            if self.values[v] == NONE {
                line[6..11].copy_from_slice(EVER);
            }
        }
    }

    /// Refusal 11 with its line, or the numbers.
    pub fn read(&mut self, n: usize, text: &[u8]) -> Result<(), Refusal> {
        let at = |line| Refusal { number: 11, line, ..Refusal::default() };
        if text.len() != LINE * (n + 1) {
            return Err(at(0));
        }
        let (first, rest) = text.split_at(LINE);
        self.first_line = first_line(n, first).ok_or(at(0))?;
        for (v, line) in rest.chunks_exact(LINE).enumerate() {
            let [count, value, choice, step] = fields(line, b'V').ok_or(at(1 + v))?;
            let read = || {
                (field::number(count)? as usize == v).then_some(())?;
                Some([entry(value, EVER, 512)?, entry(choice, DASH, n)?, entry(step, DASH, 512)?])
            };
            [self.values[v], self.choices[v], self.steps[v]] = read().ok_or(at(1 + v))?;
        }
        Ok(())
    }

    /// Refusal 14 with the first fault, if there is one.
    pub fn check(&self, board: &Board) -> Result<(), Refusal> {
        let fault = |position, condition| Refusal { number: 14, line: 0, position, condition };
        for v in 0..board.n {
            if let Some(condition) = self.broken(board, v) {
                return Err(fault(v, condition));
            }
        }
        if self.first_line != self.summed(board.n, self.pairs(board.n)) {
            return Err(fault(board.n, 6));
        }
        Ok(())
    }

    /// The first of conditions 1 to 5 that a position breaks.
    fn broken(&self, board: &Board, v: usize) -> Option<u8> {
        let (value, choice) = (self.values[v], self.choices[v]);
        if !board.safe[v] && value != 0 {
            return Some(1);
        }
        if (self.steps[v] == NONE) != (value == NONE) {
            return Some(2);
        }
        if !board.may_choose(v, choice) {
            return Some(3);
        }
        if !self.holds(board, v) {
            return Some(4);
        }
        let ruined = !board.safe[v] || value == NONE || self.ruined(board, v);
        (!ruined).then_some(5)
    }

    fn value_at(&self, v: u16) -> u16 {
        self.values[usize::from(v)]
    }

    /// Condition 4.
    fn holds(&self, board: &Board, v: usize) -> bool {
        let value = self.values[v];
        let less_one = value.saturating_sub(u16::from(value != NONE));
        let disturbances_hold = || board.disturbances(v).iter().all(|&to| self.value_at(to) >= less_one);
        match board.owner[v] {
            Owner::Console => self.value_at(self.choices[v]) >= value && disturbances_hold(),
            Owner::Lane => board.meant(v).iter().all(|&to| self.value_at(to) >= value),
            Owner::Nobody => disturbances_hold(),
        }
    }

    /// Condition 5 at a safe position of finite value.
    fn ruined(&self, board: &Board, v: usize) -> bool {
        let rank = self.rank(v as u16);
        let disturbance_ruins = || board.disturbances(v).iter().any(|&to| self.value_at(to) < self.values[v]);
        match board.owner[v] {
            Owner::Console => disturbance_ruins() || board.meant(v).iter().all(|&to| self.rank(to) < rank),
            Owner::Lane => board.meant(v).iter().any(|&to| self.rank(to) < rank),
            Owner::Nobody => disturbance_ruins(),
        }
    }

    /// Earlier positions have a smaller rank.
    fn rank(&self, v: u16) -> u32 {
        let v = usize::from(v);
        u32::from(self.values[v]) << 16 | u32::from(self.steps[v])
    }

    /// How many different pairs of value and step there are, by a bit for each pair.
    fn pairs(&self, n: usize) -> u16 {
        let mut bits = [0u64; POSITIONS * POSITIONS / 64];
        let mut count = 0;
        for (&value, &step) in self.values[..n].iter().zip(&self.steps[..n]) {
            if value != NONE {
                let pair = usize::from(value) * POSITIONS + usize::from(step);
                let bit = 1 << (pair % 64);
                count += u16::from(bits[pair / 64] & bit == 0);
                bits[pair / 64] |= bit;
            }
        }
        count
    }
}

/// A line whose entries 65,535 are set out as `none`.
fn put_line(line: &mut [u8], letter: u8, number: u16, entries: [u16; 3], none: &[u8; 5]) {
    line[0] = letter;
    field::put(&mut line[1..6], number);
    for (entry, field) in entries.into_iter().zip(line[6..21].chunks_exact_mut(5)) {
        if entry == NONE {
            field.copy_from_slice(none);
        } else {
            field::put(field, entry);
        }
    }
    line[LINE - 1] = b'\n';
}

fn first_line(n: usize, line: &[u8]) -> Option<FirstLine> {
    let [count, rounds, highest, evers] = fields(line, b'P')?;
    if field::number(count)? as usize != n {
        return None;
    }
    Some(FirstLine { rounds: below(rounds, 513)?, highest: entry(highest, DASH, 512)?, evers: below(evers, 513)? })
}

/// The four fields of a line with this letter and a line feed.
fn fields(line: &[u8], letter: u8) -> Option<[&[u8]; 4]> {
    if line[0] != letter || line[LINE - 1] != b'\n' {
        return None;
    }
    Some([&line[1..6], &line[6..11], &line[11..16], &line[16..21]])
}

fn entry(field: &[u8], none: &[u8; 5], bound: usize) -> Option<u16> {
    if field == none {
        return Some(NONE);
    }
    below(field, bound)
}

fn below(field: &[u8], bound: usize) -> Option<u16> {
    field::number(field).filter(|&number| (number as usize) < bound).map(|number| number as u16)
}
