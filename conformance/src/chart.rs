//! A chart as data, its text, and all charts of one to three positions.

/// The most positions and the most moves of a chart.
pub const POSITIONS: usize = 512;
pub const MOVES: usize = 4096;

#[derive(Clone, Copy, Debug, PartialEq, Eq)]
pub enum Owner {
    Console,
    Lane,
    /// A position of rest: no meant moves, and nobody chooses.
    Nobody,
}

impl Owner {
    pub fn letter(self) -> u8 {
        match self {
            Owner::Console => b'O',
            Owner::Lane => b'L',
            Owner::Nobody => b'R',
        }
    }
}

/// A position with its moves, both lists rising.
#[derive(Clone, Debug, PartialEq, Eq)]
pub struct Position {
    pub owner: Owner,
    pub safe: bool,
    pub meant: Vec<u16>,
    pub disturbances: Vec<u16>,
}

#[derive(Clone, Debug, PartialEq, Eq)]
pub struct Chart {
    pub positions: Vec<Position>,
}

impl Chart {
    pub fn len(&self) -> usize {
        self.positions.len()
    }

    pub fn is_empty(&self) -> bool {
        self.positions.is_empty()
    }

    pub fn moves(&self) -> usize {
        self.positions.iter().map(|p| p.meant.len() + p.disturbances.len()).sum()
    }

    pub fn text(&self) -> Vec<u8> {
        let mut text = Vec::with_capacity(12 * (1 + self.len() + self.moves()));
        push_line(&mut text, b'H', self.len(), self.moves());
        for (number, position) in self.positions.iter().enumerate() {
            push_line(&mut text, position.owner.letter(), number, usize::from(!position.safe));
        }
        for (from, position) in self.positions.iter().enumerate() {
            for &to in &position.meant {
                push_line(&mut text, b'M', from, usize::from(to));
            }
            for &to in &position.disturbances {
                push_line(&mut text, b'D', from, usize::from(to));
            }
        }
        text
    }
}

/// A line of a chart's text.
pub fn push_line(text: &mut Vec<u8>, letter: u8, first: usize, second: usize) {
    text.push(letter);
    push_number(text, first);
    push_number(text, second);
    text.push(b'\n');
}

/// A number of up to five digits as a field: right-justified after spaces.
pub fn push_number(text: &mut Vec<u8>, number: usize) {
    let mut field = [b' '; 5];
    let mut rest = number;
    for place in (0..5).rev() {
        field[place] = b'0' + (rest % 10) as u8;
        rest /= 10;
        if rest == 0 {
            break;
        }
    }
    text.extend_from_slice(&field);
}

/// The number that a field holds, if it holds one. It is for putting inputs together, and less exact than reading a chart.
pub fn held(field: &[u8]) -> Option<usize> {
    std::str::from_utf8(field).ok()?.trim_start().parse().ok()
}

/// How many positions with meant moves there can be in a chart of `n`: the mark, the meant targets (at least one), and
/// either the lane's or the console's with any disturbances.
fn chosen_kinds(n: usize) -> usize {
    2 * ((1 << n) - 1) * (1 + (1 << n))
}

/// With those of rest: the mark, and any disturbances.
fn kinds(n: usize) -> usize {
    chosen_kinds(n) + 2 * (1 << n)
}

/// How many numbers there are for the charts of `n` positions.
pub fn small_charts(n: usize) -> usize {
    kinds(n).pow(n as u32)
}

/// The chart of `n` positions with a number below `small_charts(n)`. Positions of rest alone, none of them disturbed, are no
/// chart: it wants a move.
pub fn small_chart(n: usize, number: usize) -> Option<Chart> {
    let mut rest = number;
    let mut positions = Vec::with_capacity(n);
    for _ in 0..n {
        positions.push(small_position(n, rest % kinds(n)));
        rest /= kinds(n);
    }
    let chart = Chart { positions };
    (chart.moves() > 0).then_some(chart)
}

fn small_position(n: usize, kind: usize) -> Position {
    let safe = kind % 2 == 0;
    if kind >= chosen_kinds(n) {
        let disturbances = members((kind - chosen_kinds(n)) / 2);
        return Position { owner: Owner::Nobody, safe, meant: Vec::new(), disturbances };
    }
    let (meant, others) = (1 + kind / 2 % ((1 << n) - 1), kind / 2 / ((1 << n) - 1));
    Position {
        owner: if others == 0 { Owner::Lane } else { Owner::Console },
        safe,
        meant: members(meant),
        disturbances: if others == 0 { Vec::new() } else { members(others - 1) },
    }
}

/// The positions with meant moves that a chart of `n` can have, each once, in no order that a document gives.
pub fn chosen_positions(n: usize) -> impl Iterator<Item = Position> {
    (0..chosen_kinds(n)).map(move |kind| small_position(n, kind))
}

/// The places of the ones in a number.
fn members(set: usize) -> Vec<u16> {
    (0..16).filter(|place| set >> place & 1 == 1).collect()
}
