//! A decoded chart: its moves filed by the position they leave.

use super::{field, refused};
use crate::capi::{Refusal, NONE};
use crate::chart::{Owner, MOVES, POSITIONS};

const LINE: usize = 12;
const LONGEST: usize = LINE * (1 + POSITIONS + MOVES);

/// It has room for N positions and M moves in E groups, 2 N + 1: for any chart where nothing else is said.
pub struct Board<const N: usize = POSITIONS, const M: usize = MOVES, const E: usize = { 2 * POSITIONS + 1 }> {
    pub n: usize,
    pub owner: [Owner; N],
    pub safe: [bool; N],
    to: [u16; M],
    /// Where the moves of a group end: group 2 v + 1 has the meant moves of v, group 2 v + 2 its disturbances.
    ends: [u16; E],
}

impl<const N: usize, const M: usize, const E: usize> Board<N, M, E> {
    pub fn empty() -> Board<N, M, E> {
        Board { n: 0, owner: [Owner::Nobody; N], safe: [false; N], to: [0; M], ends: [0; E] }
    }

    pub fn meant(&self, v: usize) -> &[u16] {
        &self.to[usize::from(self.ends[2 * v])..usize::from(self.ends[2 * v + 1])]
    }

    pub fn disturbances(&self, v: usize) -> &[u16] {
        &self.to[usize::from(self.ends[2 * v + 1])..usize::from(self.ends[2 * v + 2])]
    }

    pub fn targets(&self) -> &[u16] {
        &self.to[..usize::from(self.ends[2 * self.n])]
    }

    pub fn console(&self, v: usize) -> bool {
        self.owner[v] == Owner::Console
    }

    /// A meant target at O, none at L and at R.
    pub fn may_choose(&self, v: usize, choice: u16) -> bool {
        match self.owner[v] {
            Owner::Console => self.meant(v).contains(&choice),
            Owner::Lane | Owner::Nobody => choice == NONE,
        }
    }

    /// Reads a chart that there is room for.
    pub fn read(&mut self, text: &[u8]) -> Result<(), Refusal> {
        self.n = header(text)?;
        let (positions, moves) = text[LINE..].split_at(LINE * self.n);
        self.read_positions(positions)?;
        self.read_moves(moves)
    }

    fn read_positions(&mut self, text: &[u8]) -> Result<(), Refusal> {
        for (v, line) in text.chunks_exact(LINE).enumerate() {
            let at = |number| Refusal { number, line: 1 + v, ..Refusal::default() };
            let (letter, number, mark) = fields(line, field::mark).ok_or(at(2))?;
            self.owner[v] = match letter {
                b'O' => Owner::Console,
                b'L' => Owner::Lane,
                b'R' => Owner::Nobody,
                _ => return Err(at(2)),
            };
            if number as usize != v || mark > 1 {
                return Err(at(5));
            }
            self.safe[v] = mark == 0;
        }
        Ok(())
    }

    fn read_moves(&mut self, text: &[u8]) -> Result<(), Refusal> {
        // What the lines rise by, as one number: from, kind, to.
        let mut before = 0;
        for (i, line) in text.chunks_exact(LINE).enumerate() {
            let at = |number| Refusal { number, line: 1 + self.n + i, ..Refusal::default() };
            let (letter, from, to) = fields(line, field::number).ok_or(at(2))?;
            if letter != b'M' && letter != b'D' {
                return Err(at(2));
            }
            if from as usize >= self.n || to as usize >= self.n {
                return Err(at(6));
            }
            let disturbance = letter == b'D';
            match (self.owner[from as usize], disturbance) {
                (Owner::Lane, true) => return Err(at(7)),
                (Owner::Nobody, false) => return Err(at(17)),
                _ => {}
            }
            let group = 2 * from + 1 + u32::from(disturbance);
            let rank = group << 16 | to;
            if rank <= before {
                return Err(at(8));
            }
            before = rank;
            self.to[i] = to as u16;
            self.ends[group as usize] = 1 + i as u16;
        }
        self.close_groups()
    }

    /// A group without moves ends where the one before does. Each position needs a meant move, save those of rest.
    fn close_groups(&mut self) -> Result<(), Refusal> {
        let mut end = 0;
        let mut missing = None;
        for group in 1..=2 * self.n {
            let count = self.ends[group];
            if count == 0 && group % 2 == 1 && missing.is_none() && self.owner[group / 2] != Owner::Nobody {
                missing = Some(1 + group / 2);
            }
            end = end.max(count);
            self.ends[group] = end;
        }
        match missing {
            Some(line) => Err(Refusal { number: 9, line, ..Refusal::default() }),
            None => Ok(()),
        }
    }
}

/// The count of positions by the first line.
pub fn header(text: &[u8]) -> Result<usize, Refusal> {
    if text.is_empty() || text.len() > LONGEST || text.len() % LINE != 0 {
        return Err(refused(1));
    }
    let (letter, n, m) = fields(&text[..LINE], field::number).ok_or(refused(2))?;
    if letter != b'H' {
        return Err(refused(2));
    }
    let (n, m) = (n as usize, m as usize);
    if n == 0 || n > POSITIONS || m == 0 || m > MOVES {
        return Err(refused(3));
    }
    if text.len() != LINE * (1 + n + m) {
        return Err(refused(4));
    }
    Ok(n)
}

/// The letter and the two numbers of a line that ends as it should.
#[inline]
fn fields(line: &[u8], read_second: impl Fn(&[u8]) -> Option<u32>) -> Option<(u8, u32, u32)> {
    let line: &[u8; LINE] = line.try_into().ok()?;
    let first = field::number(&line[1..6])?;
    let second = read_second(&line[6..11])?;
    (line[LINE - 1] == b'\n').then_some((line[0], first, second))
}
