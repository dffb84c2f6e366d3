//! The parts of the test. Each takes every `shares`-th of its inputs, so that threads can divide them.

pub mod controllers;
pub mod damage;
pub mod damaged;
pub mod drawn;
pub mod examples;
pub mod houses;
pub mod indexed;
pub mod pairs;
pub mod rest;
pub mod setting;
pub mod small;
pub mod swapped;
pub mod ways;

use crate::capi::NONE;
use crate::chart::{Chart, Owner, Position};
use crate::random::Random;

/// Which of a part's inputs a thread takes, and a number by which the counts of inputs are divided.
#[derive(Clone, Copy)]
pub struct Share {
    pub first: usize,
    pub shares: usize,
    pub divisor: usize,
}

impl Share {
    /// The inputs of this share, of `count` in all.
    fn of(self, count: usize) -> impl Iterator<Item = usize> {
        (self.first..count / self.divisor).step_by(self.shares)
    }
}

/// All rows of choices of a chart: all its positional controllers.
fn controllers(chart: &Chart) -> Vec<Vec<u16>> {
    let mut rows = vec![Vec::new()];
    for position in &chart.positions {
        let choices: &[u16] = match position.owner {
            Owner::Console => &position.meant,
            Owner::Lane | Owner::Nobody => &[NONE],
        };
        rows = rows.iter().flat_map(|row| choices.iter().map(|&choice| [row.as_slice(), &[choice]].concat())).collect();
    }
    rows
}

/// A choice for each position at random among the good moves.
fn good_choices(random: &mut Random, good: &[Vec<u16>]) -> Vec<u16> {
    good.iter().map(|targets| if targets.is_empty() { NONE } else { *random.pick(targets) }).collect()
}

/// A choice for each position at random: a meant target at O, none at L and at R.
fn random_choices(random: &mut Random, chart: &Chart) -> Vec<u16> {
    let choose = |position: &Position| match position.owner {
        Owner::Console => *random.pick(&position.meant),
        Owner::Lane | Owner::Nobody => NONE,
    };
    chart.positions.iter().map(choose).collect()
}
