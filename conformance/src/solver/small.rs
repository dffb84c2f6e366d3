//! Small charts by their index and back: a position is a digit, which arithmetic takes apart and puts together.

use super::board;
use super::sheet::{put_line, LINE};
use crate::chart::Owner;

/// The most positions of a small chart.
pub const MOST: usize = 3;

/// Moves rise, so that the first that there is no room for is refused.
pub type Board = board::Board<MOST, { 2 * MOST * MOST }, { 2 * MOST + 1 }>;

/// A position of a small chart; bit i of a set is its target i.
#[derive(Clone, Copy, Default)]
struct Position {
    lane: bool,
    mark: u16,
    meant: u16,
    disturbances: u16,
}

/// How many positions there can be in a chart of `n`, O before L.
fn base(n: usize) -> usize {
    2 * ((1 << n) - 1) * ((1 << n) + 1)
}

/// How many charts of `n` positions there are.
pub fn count(n: usize) -> usize {
    base(n).pow(n as u32)
}

impl Position {
    fn of_digit(n: usize, digit: usize) -> Position {
        let (sets, meant_sets) = (1 << n, (1 << n) - 1);
        let of_console = 2 * meant_sets * sets;
        let lane = digit >= of_console;
        let (rest, disturbances) = if lane { (digit - of_console, 0) } else { (digit / sets, digit % sets) };
        let (mark, meant) = ((rest / meant_sets) as u16, (1 + rest % meant_sets) as u16);
        Position { lane, mark, meant, disturbances: disturbances as u16 }
    }

    fn digit(self, n: usize) -> usize {
        let (sets, meant_sets) = (1 << n, (1 << n) - 1);
        let rest = usize::from(self.mark) * meant_sets + usize::from(self.meant) - 1;
        match self.lane {
            true => 2 * meant_sets * sets + rest,
            false => rest * sets + usize::from(self.disturbances),
        }
    }
}

pub struct Chart {
    n: usize,
    positions: [Position; MOST],
}

impl Chart {
    /// The chart with an index below the count of those of `n` positions.
    pub fn of_index(n: usize, index: usize) -> Chart {
        let mut positions = [Position::default(); MOST];
        let mut rest = index;
        for position in positions[..n].iter_mut().rev() {
            *position = Position::of_digit(n, rest % base(n));
            rest /= base(n);
        }
        Chart { n, positions }
    }

    /// The small chart on a board, none where it has a position of rest.
    pub fn of_board(board: &Board) -> Option<Chart> {
        let set = |targets: &[u16]| targets.iter().fold(0, |set, to| set | 1 << to);
        let mut positions = [Position::default(); MOST];
        for (v, position) in positions[..board.n].iter_mut().enumerate() {
            if board.owner[v] == Owner::Nobody {
                return None;
            }
            let (meant, disturbances) = (set(board.meant(v)), set(board.disturbances(v)));
            *position = Position { lane: !board.console(v), mark: u16::from(!board.safe[v]), meant, disturbances };
        }
        Some(Chart { n: board.n, positions })
    }

    fn positions(&self) -> &[Position] {
        &self.positions[..self.n]
    }

    pub fn index(&self) -> usize {
        self.positions().iter().fold(0, |index, position| index * base(self.n) + position.digit(self.n))
    }

    fn moves(&self) -> usize {
        self.positions().iter().map(|p| (p.meant.count_ones() + p.disturbances.count_ones()) as usize).sum()
    }

    /// The bytes of the chart's text.
    pub fn length(&self) -> usize {
        LINE * (1 + self.n + self.moves())
    }

    /// Writes the text into a buffer of its length.
    pub fn write(&self, buffer: &mut [u8]) {
        let mut lines = buffer.chunks_exact_mut(LINE);
        let mut put = |letter, first, second| put_line(lines.next().expect("there is room"), letter, first, second);
        put(b'H', self.n as u16, self.moves() as u16);
        for (v, position) in (0..).zip(self.positions()) {
            put(if position.lane { b'L' } else { b'O' }, v, position.mark);
        }
        for (v, position) in (0..).zip(self.positions()) {
            for (letter, set) in [(b'M', position.meant), (b'D', position.disturbances)] {
                (0..self.n as u16).filter(|to| set >> to & 1 == 1).for_each(|to| put(letter, v, to));
            }
        }
    }
}
