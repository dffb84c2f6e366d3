//! Values by their definition, steps by the rounds of document 01, the choices, and the first line's numbers.

use super::plate::Plate;
use crate::capi::{FirstLine, NONE};
use crate::chart::{Chart, Owner, Position};
use std::collections::BTreeSet;

pub struct Valuation {
    pub values: Vec<u16>,
    pub choices: Vec<u16>,
    pub steps: Vec<u16>,
    pub first_line: FirstLine,
}

impl Valuation {
    pub fn of(chart: &Chart) -> Valuation {
        let values = values(chart);
        let placed = rounds(chart);
        // The rounds give values too. That they are the same is document 01's claim; the model tests it as it goes.
        let by_rounds = placed.iter().map(|pair| pair.map_or(NONE, |(value, _)| value));
        assert!(by_rounds.eq(values.iter().copied()), "values by rounds differ: {chart:?}");
        let steps: Vec<u16> = placed.iter().map(|pair| pair.map_or(NONE, |(_, step)| step)).collect();
        let choices = chart.positions.iter().map(|p| choice(p, &values)).collect();
        let first_line = summed(&values, &steps);
        Valuation { values, choices, steps, first_line }
    }

    pub fn plate(&self) -> Plate {
        Plate {
            first_line: self.first_line,
            values: self.values.clone(),
            choices: self.choices.clone(),
            steps: self.steps.clone(),
        }
    }
}

/// The value is at least k where some controller keeps every play with fewer than k disturbances safe.
fn values(chart: &Chart) -> Vec<u16> {
    let mut values = vec![0; chart.len()];
    let mut holding = vec![true; chart.len()];
    for k in 1.. {
        let next = held(chart, &holding);
        // Nothing was lost from k - 1 to k, so nothing will be lost later.
        let last = next == holding;
        for v in 0..chart.len() {
            if next[v] {
                values[v] = if last { NONE } else { k };
            }
        }
        if last {
            return values;
        }
        holding = next;
    }
    unreachable!("a finite value is below the count of positions")
}

/// The greatest set of safe positions that the controller need not leave without a disturbance, and that a disturbance
/// leaves into `weaker` only, where fewer disturbances can be borne.
fn held(chart: &Chart, weaker: &[bool]) -> Vec<bool> {
    let within = |set: &[bool], to: &u16| set[usize::from(*to)];
    let mut set: Vec<bool> = chart.positions.iter().map(|p| p.safe).collect();
    let mut upward = false;
    loop {
        let mut shrank = false;
        for place in 0..set.len() {
            let v = if upward { place } else { set.len() - 1 - place };
            let position = &chart.positions[v];
            let stays = match position.owner {
                Owner::Lane => position.meant.iter().all(|to| within(&set, to)),
                Owner::Console => {
                    position.meant.iter().any(|to| within(&set, to))
                        && position.disturbances.iter().all(|to| within(weaker, to))
                }
                // A play may stop here: nothing but a disturbance leaves.
                Owner::Nobody => position.disturbances.iter().all(|to| within(weaker, to)),
            };
            if set[v] && !stays {
                set[v] = false;
                shrank = true;
            }
        }
        if !shrank {
            return set;
        }
        upward = !upward;
    }
}

/// The pair of value and step of each position, by the rounds as document 01 names them; none for "ever".
fn rounds(chart: &Chart) -> Vec<Option<(u16, u16)>> {
    let mut placed = vec![None; chart.len()];
    for k in 0.. {
        let first = round(chart, &placed, |position| {
            if k == 0 {
                return !position.safe;
            }
            let below = |to: &u16| placed[usize::from(*to)].is_some_and(|(value, _)| value == k - 1);
            match position.owner {
                Owner::Console | Owner::Nobody => position.disturbances.iter().any(below),
                Owner::Lane => false,
            }
        });
        if first.is_empty() {
            break;
        }
        place(&mut placed, &first, (k, 0));
        for s in 0.. {
            let gone = |to: &u16| placed[usize::from(*to)].is_some();
            let next = round(chart, &placed, |position| match position.owner {
                Owner::Lane => position.meant.iter().any(gone),
                Owner::Console => position.meant.iter().all(gone),
                Owner::Nobody => false,
            });
            if next.is_empty() {
                break;
            }
            place(&mut placed, &next, (k, s + 1));
        }
    }
    placed
}

/// The positions not yet placed that belong to a round.
fn round(chart: &Chart, placed: &[Option<(u16, u16)>], belongs: impl Fn(&Position) -> bool) -> Vec<usize> {
    (0..chart.len()).filter(|&v| placed[v].is_none() && belongs(&chart.positions[v])).collect()
}

fn place(placed: &mut [Option<(u16, u16)>], round: &[usize], pair: (u16, u16)) {
    for &v in round {
        placed[v] = Some(pair);
    }
}

/// The meant target of greatest value, the lowest number among equals; none at L and at R.
fn choice(position: &Position, values: &[u16]) -> u16 {
    match position.owner {
        Owner::Console => best(&position.meant, values),
        Owner::Lane | Owner::Nobody => NONE,
    }
}

fn best(targets: &[u16], values: &[u16]) -> u16 {
    let value = |to: &u16| values[usize::from(*to)];
    let greatest = targets.iter().map(value).max();
    *targets.iter().find(|to| Some(value(to)) == greatest).expect("there is a meant move")
}

/// The numbers of a plate's first line, from its other lines.
pub fn summed(values: &[u16], steps: &[u16]) -> FirstLine {
    FirstLine { rounds: pairs(values, steps), highest: highest(values), evers: evers(values) }
}

/// How many different pairs of value and step occur; "ever" has none.
fn pairs(values: &[u16], steps: &[u16]) -> u16 {
    let pairs = values.iter().zip(steps).filter(|(&value, _)| value != NONE);
    pairs.collect::<BTreeSet<_>>().len() as u16
}

/// The highest finite value.
fn highest(values: &[u16]) -> u16 {
    values.iter().copied().filter(|&value| value != NONE).max().unwrap_or(NONE)
}

fn evers(values: &[u16]) -> u16 {
    values.iter().filter(|&&value| value == NONE).count() as u16
}
