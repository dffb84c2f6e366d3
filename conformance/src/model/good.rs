//! Listing: the good moves of a chart, and their sheet.

use crate::chart::{push_line, Chart, Owner, Position};

/// The targets of each position's good moves: at O the meant targets that have at least the position's own value, at L and at
/// R none.
pub fn targets(chart: &Chart, values: &[u16]) -> Vec<Vec<u16>> {
    let good = |(position, &value): (&Position, &u16)| match position.owner {
        Owner::Console => position.meant.iter().copied().filter(|&to| values[usize::from(to)] >= value).collect(),
        Owner::Lane | Owner::Nobody => Vec::new(),
    };
    chart.positions.iter().zip(values).map(good).collect()
}

/// A line for each good move, in the chart's order: by position, then by target.
pub fn sheet(targets: &[Vec<u16>]) -> Vec<u8> {
    let mut sheet = Vec::new();
    for (from, list) in targets.iter().enumerate() {
        for &to in list {
            push_line(&mut sheet, b'G', from, usize::from(to));
        }
    }
    sheet
}
