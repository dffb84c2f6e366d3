//! The six long jobs and the two on small charts once more, written for speed: linear time in the chart, local arrays and no
//! heap. The timings set the library beside this, and the test holds it to the model.

mod board;
mod field;
pub mod plate;
mod rounds;
pub mod sheet;
mod small;
mod way;

use crate::capi::{Indexed, Listed, Refusal, Valued, Written, NONE};
use crate::chart::POSITIONS;
use board::Board;
use plate::{Plate, LINE};
use way::Ways;

type Row = [u16; POSITIONS];

fn refused(number: u32) -> Refusal {
    Refusal { number, ..Refusal::default() }
}

/// Valuing.
pub fn value(chart: &[u8], values: &mut [u16], choices: &mut [u16], steps: &mut [u16]) -> Valued {
    match valued(chart, values, choices, steps) {
        Ok(rounds) => Valued { refusal: Refusal::default(), rounds },
        Err(refusal) => Valued { refusal, rounds: 0 },
    }
}

fn valued(chart: &[u8], values: &mut [u16], choices: &mut [u16], steps: &mut [u16]) -> Result<u16, Refusal> {
    let mut board = Board::empty();
    board.read(chart)?;
    let n = board.n;
    if values.len() < n || choices.len() < n || steps.len() < n {
        return Err(refused(10));
    }
    let mut plate = Plate::empty();
    solve(&board, &mut plate);
    values[..n].copy_from_slice(&plate.values[..n]);
    choices[..n].copy_from_slice(&plate.choices[..n]);
    steps[..n].copy_from_slice(&plate.steps[..n]);
    Ok(plate.first_line.rounds)
}

/// Writing.
pub fn write(chart: &[u8], buffer: &mut [u8]) -> Written {
    match written(chart, buffer) {
        Ok(length) => Written { refusal: Refusal::default(), length },
        Err(refusal) => Written { refusal, length: 0 },
    }
}

fn written(chart: &[u8], buffer: &mut [u8]) -> Result<usize, Refusal> {
    let mut board = Board::empty();
    board.read(chart)?;
    let length = LINE * (board.n + 1);
    if buffer.len() < length {
        return Err(refused(10));
    }
    let mut plate = Plate::empty();
    solve(&board, &mut plate);
    plate.write(board.n, &mut buffer[..length]);
    Ok(length)
}

/// Checking.
pub fn check(chart: &[u8], text: &[u8]) -> Refusal {
    checked(chart, text).err().unwrap_or_default()
}

fn checked(chart: &[u8], text: &[u8]) -> Result<(), Refusal> {
    let mut board = Board::empty();
    board.read(chart)?;
    let mut plate = Plate::empty();
    plate.read(board.n, text)?;
    plate.check(&board)
}

/// Weighing.
pub fn weigh(chart: &[u8], choices: &[u16], worths: &mut [u16]) -> Refusal {
    weighed(chart, choices, worths).err().unwrap_or_default()
}

fn weighed(chart: &[u8], choices: &[u16], worths: &mut [u16]) -> Result<(), Refusal> {
    let mut board = Board::empty();
    board.read(chart)?;
    let n = board.n;
    if choices.len() < n || worths.len() < n {
        return Err(refused(10));
    }
    legal(&board, &choices[..n])?;
    let mut row = [NONE; POSITIONS];
    weigh_board(&board, choices, &mut row);
    worths[..n].copy_from_slice(&row[..n]);
    Ok(())
}

fn legal(board: &Board, choices: &[u16]) -> Result<(), Refusal> {
    match choices.iter().enumerate().all(|(v, &choice)| board.may_choose(v, choice)) {
        true => Ok(()),
        false => Err(refused(12)),
    }
}

/// The worths of the controller that makes these choices, into a row that holds "none" before.
#[inline]
fn weigh_board(board: &Board, choices: &[u16], worths: &mut Row) {
    let mut steps = [NONE; POSITIONS];
    // At O one meant move is left, so its target decides.
    let follows = |from: usize, to: u16| !board.console(from) || choices[from] == to;
    rounds::place(board, worths, &mut steps, follows);
}

/// Listing.
pub fn good_moves(chart: &[u8], buffer: &mut [u8]) -> Listed {
    match listed(chart, buffer) {
        Ok(lines) => Listed { refusal: Refusal::default(), lines },
        Err(refusal) => Listed { refusal, lines: 0 },
    }
}

fn listed(chart: &[u8], buffer: &mut [u8]) -> Result<usize, Refusal> {
    let mut board = Board::empty();
    board.read(chart)?;
    let (mut values, mut steps): (Row, Row) = ([NONE; POSITIONS], [NONE; POSITIONS]);
    place(&board, &mut values, &mut steps);
    let lines = sheet::lines(&board, &values);
    if buffer.len() < sheet::LINE * lines {
        return Err(refused(10));
    }
    sheet::write(&board, &values, buffer);
    Ok(lines)
}

/// Ruin.
pub fn ruin(chart: &[u8], choices: &[u16], position: usize, buffer: &mut [u8]) -> Listed {
    match ruined(chart, choices, position, buffer) {
        Ok(lines) => Listed { refusal: Refusal::default(), lines },
        Err(refusal) => Listed { refusal, lines: 0 },
    }
}

fn ruined(chart: &[u8], choices: &[u16], position: usize, buffer: &mut [u8]) -> Result<usize, Refusal> {
    let mut board = Board::empty();
    board.read(chart)?;
    let n = board.n;
    if choices.len() < n {
        return Err(refused(10));
    }
    legal(&board, &choices[..n])?;
    if position >= n {
        return Err(refused(13));
    }
    let mut worths = [NONE; POSITIONS];
    weigh_board(&board, choices, &mut worths);
    if worths[position] == NONE {
        return Err(refused(19));
    }
    let ways = Ways::of(&board, choices, &worths);
    let lines = ways.lines(position);
    if buffer.len() < sheet::LINE * lines {
        return Err(refused(10));
    }
    ways.write(position, buffer);
    Ok(lines)
}

/// The small chart with an index.
pub fn small_chart(positions: usize, index: usize, buffer: &mut [u8]) -> Written {
    let refused = |number| Written { refusal: refused(number), length: 0 };
    if !(1..=small::MOST).contains(&positions) || index >= small::count(positions) {
        return refused(21);
    }
    let chart = small::Chart::of_index(positions, index);
    let length = chart.length();
    if buffer.len() < length {
        return refused(10);
    }
    chart.write(&mut buffer[..length]);
    Written { refusal: Refusal::default(), length }
}

/// The index of a small chart.
pub fn small_index(chart: &[u8]) -> Indexed {
    match indexed(chart) {
        Ok(index) => Indexed { refusal: Refusal::default(), index },
        Err(refusal) => Indexed { refusal, index: 0 },
    }
}

fn indexed(chart: &[u8]) -> Result<usize, Refusal> {
    if board::header(chart)? > small::MOST {
        <Board>::empty().read(chart)?;
        return Err(refused(21));
    }
    // A board for any chart takes longer to clear than a small chart to read.
    let mut board = small::Board::empty();
    board.read(chart)?;
    small::Chart::of_board(&board).map(|chart| chart.index()).ok_or(refused(21))
}

/// The plate of a chart.
fn solve(board: &Board, plate: &mut Plate) {
    let rounds = place(board, &mut plate.values, &mut plate.steps);
    for v in 0..board.n {
        if board.console(v) {
            plate.choices[v] = greatest(board.meant(v), &plate.values);
        }
    }
    plate.first_line = plate.summed(board.n, rounds);
}

/// The values and steps of a chart, in rows that hold "none" before. The answer is the count of rounds.
fn place(board: &Board, values: &mut Row, steps: &mut Row) -> u16 {
    let mut left = [0; POSITIONS];
    for (v, count) in left[..board.n].iter_mut().enumerate() {
        *count = board.meant(v).len() as u16;
    }
    // At O the last meant target decides.
    let follows = |from: usize, _| {
        left[from] -= 1;
        !board.console(from) || left[from] == 0
    };
    rounds::place(board, values, steps, follows)
}

/// The first of the targets with the greatest value.
fn greatest(targets: &[u16], values: &Row) -> u16 {
    let mut best = targets[0];
    for &to in &targets[1..] {
        if values[usize::from(to)] > values[usize::from(best)] {
            best = to;
        }
    }
    best
}
