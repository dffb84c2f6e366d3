//! Small charts by the words of document 02 (order 9): the positions that there can be are sorted as it says, and the charts
//! counted one after the other.

use crate::chart::{chosen_positions, Chart, Owner, Position};
use std::slice::from_ref;
use std::sync::LazyLock;

/// How many small charts there are of one, two and three positions, as the document has it.
pub const COUNTS: [usize; 3] = [6, 900, 2_000_376];

/// The positions of a small chart of one, of two and of three, in their order.
static SORTED: [LazyLock<Vec<Position>>; COUNTS.len()] =
    [LazyLock::new(|| sorted(1)), LazyLock::new(|| sorted(2)), LazyLock::new(|| sorted(3))];

fn sorted(n: usize) -> Vec<Position> {
    let mut positions: Vec<Position> = chosen_positions(n).collect();
    positions.sort_by_key(rank);
    positions
}

/// O comes before L, then the mark, then the meant set, then the disturbance set.
fn rank(position: &Position) -> (bool, bool, usize, usize) {
    let Position { owner, safe, meant, disturbances } = position;
    (*owner == Owner::Lane, !safe, counted(meant), counted(disturbances))
}

/// A set counts 2 to the i for each target i.
fn counted(set: &[u16]) -> usize {
    set.iter().map(|&target| 2_usize.pow(u32::from(target))).sum()
}

/// All small charts of `n` positions in their order. Position 0 is the leading digit, so the last one changes first.
pub fn charts_in_order(n: usize) -> impl Iterator<Item = Chart> {
    let mut rows: Box<dyn Iterator<Item = Vec<Position>>> = Box::new(std::iter::once(Vec::new()));
    let sorted = &SORTED[n - 1];
    for _ in 0..n {
        rows = Box::new(rows.flat_map(|row| sorted.iter().map(move |last| [&row[..], from_ref(last)].concat())));
    }
    rows.map(|positions| Chart { positions })
}

/// The index of a chart, none for one of another sort: its positions' places in their order are the digits.
pub fn index(chart: &Chart) -> Option<usize> {
    let sorted = SORTED.get(chart.len() - 1)?;
    let digit = |position: &Position| sorted.iter().position(|one| one == position);
    chart.positions.iter().try_fold(0, |index, position| Some(index * sorted.len() + digit(position)?))
}
