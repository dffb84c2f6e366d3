//! The shortest ways to ruin, from worths that are there: the fewest moves along those that keep to the worths, and then always
//! the lowest position that is one move nearer.

use super::board::Board;
use super::rounds::{Incoming, List, DISTURBANCE};
use super::sheet::{put_line, LINE};
use super::Row;
use crate::capi::NONE;
use crate::chart::POSITIONS;

pub struct Ways<'a> {
    board: &'a Board,
    choices: &'a [u16],
    worths: &'a Row,
    /// How many moves a cheapest way has from each position, "none" where there is no way.
    moves: Row,
}

impl<'a> Ways<'a> {
    pub fn of(board: &'a Board, choices: &'a [u16], worths: &'a Row) -> Ways<'a> {
        let mut ways = Ways { board, choices, worths, moves: [NONE; POSITIONS] };
        let incoming = Incoming::of(board);
        let mut queue = List::new();
        for v in (0..board.n).filter(|&v| !board.safe[v]) {
            ways.moves[v] = 0;
            queue.push(v);
        }
        let mut head = 0;
        while head < queue.len {
            let to = queue.items[head];
            head += 1;
            ways.reach_back(to, incoming.entries(usize::from(to)), &mut queue);
        }
        ways
    }

    /// Queues the positions from which a cheapest way leads to this one, as far as they are new.
    fn reach_back(&mut self, to: u16, entries: &[u16], queue: &mut List) {
        for &entry in entries {
            let from = usize::from(entry & !DISTURBANCE);
            if self.moves[from] == NONE && self.keeps(from, to, entry >= DISTURBANCE) {
                self.moves[from] = self.moves[usize::from(to)] + 1;
                queue.push(from);
            }
        }
    }

    /// Whether a move to a position with a way is the beginning of a cheapest one.
    fn keeps(&self, from: usize, to: u16, disturbance: bool) -> bool {
        let follows = disturbance || !self.board.console(from) || self.choices[from] == to;
        follows && self.worths[from] == self.worths[usize::from(to)] + u16::from(disturbance)
    }

    /// How many positions the way from a position has, its own included.
    pub fn lines(&self, position: usize) -> usize {
        usize::from(self.moves[position]) + 1
    }

    /// Writes the way from a position into the first lines of a buffer that has room for them.
    pub fn write(&self, position: usize, buffer: &mut [u8]) {
        let (mut v, mut disturbance) = (position, false);
        for line in buffer.chunks_exact_mut(LINE).take(self.lines(position)) {
            put_line(line, b'W', v as u16, u16::from(disturbance));
            if self.moves[v] > 0 {
                (v, disturbance) = self.next(v);
            }
        }
    }

    /// The lowest position that is one move nearer on a cheapest way, and whether a disturbance leads there.
    fn next(&self, v: usize) -> (usize, bool) {
        let nearer = |to: u16, disturbance: bool| {
            let moves = self.moves[usize::from(to)];
            moves != NONE && moves + 1 == self.moves[v] && self.keeps(v, to, disturbance)
        };
        let first = |targets: &[u16], disturbance| targets.iter().copied().find(|&to| nearer(to, disturbance));
        let disturbed = first(self.board.disturbances(v), true).unwrap_or(NONE);
        // A target that is meant and disturbed both is nearer by the meant move only.
        let meant = first(self.board.meant(v), false).unwrap_or(NONE);
        (usize::from(meant.min(disturbed)), disturbed < meant)
    }
}
