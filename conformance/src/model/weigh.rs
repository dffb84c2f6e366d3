//! Weighing: the worths of a positional controller, as least costs of unsafe plays.

use super::refused;
use crate::capi::{Refusal, NONE};
use crate::chart::{Chart, Owner, Position};

/// Refusal 12: a meant target at O, 65,535 at L and at R. Numbers past the last position are nobody's choices.
pub fn legal(chart: &Chart, choices: &[u16]) -> Result<(), Refusal> {
    let fits = |position: &Position, choice: u16| match position.owner {
        Owner::Console => position.meant.contains(&choice),
        Owner::Lane | Owner::Nobody => choice == NONE,
    };
    if chart.positions.iter().zip(choices).all(|(position, &choice)| fits(position, choice)) {
        return Ok(());
    }
    Err(refused(12))
}

/// The least count of disturbances on an unsafe play from each position.
pub fn worths(chart: &Chart, choices: &[u16]) -> Vec<u16> {
    least_worths(chart, |v| &choices[v..=v])
}

/// The least worth at each position of all controllers that choose among given targets at each O position, whatever they
/// remember: a play follows any of these targets, and every such play is one of such a controller's. Costs are lowered as
/// long as some move lowers one: then each is the least.
pub fn least_worths<'a>(chart: &Chart, given: impl Fn(usize) -> &'a [u16]) -> Vec<u16> {
    let mut worths: Vec<u16> = chart.positions.iter().map(|p| if p.safe { NONE } else { 0 }).collect();
    let mut lowered = true;
    while lowered {
        lowered = false;
        for v in 0..chart.len() {
            let least = through(&chart.positions[v], given(v), &worths);
            if least < worths[v] {
                worths[v] = least;
                lowered = true;
            }
        }
    }
    worths
}

/// The least cost of an unsafe play that begins with a move from this position.
fn through(position: &Position, given: &[u16], worths: &[u16]) -> u16 {
    let least = |list: &[u16]| list.iter().map(|&to| worths[usize::from(to)]).min().unwrap_or(NONE);
    // One more than "ever" stays "ever".
    let disturbed = least(&position.disturbances).saturating_add(1);
    match position.owner {
        Owner::Lane => least(&position.meant),
        Owner::Console => least(given).min(disturbed),
        Owner::Nobody => disturbed,
    }
}
