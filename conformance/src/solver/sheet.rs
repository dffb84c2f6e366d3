//! The sheet of good moves, and lines in its columns.

use super::board::Board;
use super::{field, Row};

pub const LINE: usize = 12;

/// The meant targets at a position of the console's that have at least its value.
fn good<'a>(board: &'a Board, values: &'a Row, v: usize) -> impl Iterator<Item = u16> + 'a {
    let least = values[v];
    board.meant(v).iter().copied().filter(move |&to| values[usize::from(to)] >= least)
}

/// How many good moves there are.
pub fn lines(board: &Board, values: &Row) -> usize {
    (0..board.n).filter(|&v| board.console(v)).map(|v| good(board, values, v).count()).sum()
}

/// Writes the good moves into the first lines of a buffer that has room for them.
pub fn write(board: &Board, values: &Row, buffer: &mut [u8]) {
    let mut place = 0;
    for v in (0..board.n).filter(|&v| board.console(v)) {
        for to in good(board, values, v) {
            put_line(&mut buffer[place..place + LINE], b'G', v as u16, to);
            place += LINE;
        }
    }
}

/// Writes lines from rows of positions and targets, without a chart: for the timings.
pub fn put_lines(froms: &[u16], tos: &[u16], buffer: &mut [u8]) {
    for ((&from, &to), line) in froms.iter().zip(tos).zip(buffer.chunks_exact_mut(LINE)) {
        put_line(line, b'G', from, to);
    }
}

#[inline(always)]
pub fn put_line(line: &mut [u8], letter: u8, first: u16, second: u16) {
    line[0] = letter;
    field::put(&mut line[1..6], first);
    field::put(&mut line[6..11], second);
    line[LINE - 1] = b'\n';
}
