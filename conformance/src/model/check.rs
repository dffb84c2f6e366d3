//! Checking: the first fault of anybody's plate, by the six conditions of document 01.

use super::plate::Plate;
use super::values::summed;
use crate::capi::{Refusal, NONE};
use crate::chart::{Chart, Owner, Position};

/// Refusal 14 with the first fault, if there is one.
pub fn accepted(chart: &Chart, plate: &Plate) -> Result<(), Refusal> {
    let fault = |position, condition| Err(Refusal { number: 14, line: 0, position, condition });
    for v in 0..chart.len() {
        if let Some(condition) = broken(&chart.positions[v], v, plate) {
            return fault(v, condition);
        }
    }
    if plate.first_line != summed(&plate.values, &plate.steps) {
        return fault(chart.len(), 6);
    }
    Ok(())
}

/// The first of conditions 1 to 5 that a position breaks.
fn broken(position: &Position, v: usize, plate: &Plate) -> Option<u8> {
    let (value, choice, step) = (plate.values[v], plate.choices[v], plate.steps[v]);
    let conditions = [
        position.safe || value == 0,
        (step == NONE) == (value == NONE),
        match position.owner {
            Owner::Console => position.meant.contains(&choice),
            Owner::Lane | Owner::Nobody => choice == NONE,
        },
    ];
    if let Some(first) = conditions.iter().position(|&holds| !holds) {
        return Some(1 + first as u8);
    }
    if !holds(position, value, choice, plate) {
        return Some(4);
    }
    let ruined = !position.safe || value == NONE || ruin(position, v, plate);
    (!ruined).then_some(5)
}

/// Condition 4. "ever", 65,535, is above each number.
fn holds(position: &Position, value: u16, choice: u16, plate: &Plate) -> bool {
    let at_least = |to: u16, least: u16| plate.values[usize::from(to)] >= least;
    let less_one = if value == NONE { NONE } else { value.saturating_sub(1) };
    let disturbances_hold = || position.disturbances.iter().all(|&to| at_least(to, less_one));
    match position.owner {
        Owner::Console => at_least(choice, value) && disturbances_hold(),
        Owner::Lane => position.meant.iter().all(|&to| at_least(to, value)),
        Owner::Nobody => disturbances_hold(),
    }
}

/// Condition 5 at a safe position of finite value.
fn ruin(position: &Position, v: usize, plate: &Plate) -> bool {
    let pair = |at: usize| (plate.values[at], plate.steps[at]);
    let earlier = |to: &u16| pair(usize::from(*to)) < pair(v);
    let smaller = |to: &u16| plate.values[usize::from(*to)] < plate.values[v];
    match position.owner {
        Owner::Console => position.disturbances.iter().any(smaller) || position.meant.iter().all(earlier),
        Owner::Lane => position.meant.iter().any(earlier),
        Owner::Nobody => position.disturbances.iter().any(smaller),
    }
}
