//! Charts of many shapes: pseudo-random ones up to the limits, with positions of rest or without, and long chains with as
//! many rounds as there can be.

use crate::chart::{Chart, Owner, Position, MOVES};
use crate::random::Random;

/// Where the moves of a drawn position lead.
#[derive(Clone, Copy)]
pub enum Reach {
    Anywhere,
    /// At most so many positions away.
    Near(usize),
    /// Meant moves stay or go up, disturbances go down: this makes high values.
    Ladder,
}

/// How the positions of a chart are drawn: of 100 positions so many are the lane's and so many unsafe, and each has up
/// to so many meant moves and disturbances.
#[derive(Clone, Copy)]
pub struct Shape {
    pub lane: usize,
    pub hazards: usize,
    pub meant: usize,
    pub disturbances: usize,
    pub reach: Reach,
}

#[rustfmt::skip]
pub const SHAPES: [Shape; 12] = [
    Shape { lane: 30, hazards: 15, meant: 2, disturbances: 1, reach: Reach::Anywhere },
    Shape { lane: 10, hazards: 5, meant: 2, disturbances: 1, reach: Reach::Anywhere },
    Shape { lane: 30, hazards: 10, meant: 16, disturbances: 16, reach: Reach::Anywhere },
    Shape { lane: 5, hazards: 5, meant: 2, disturbances: 8, reach: Reach::Anywhere },
    Shape { lane: 20, hazards: 8, meant: 3, disturbances: 2, reach: Reach::Near(2) },
    Shape { lane: 5, hazards: 3, meant: 2, disturbances: 1, reach: Reach::Near(3) },
    Shape { lane: 10, hazards: 1, meant: 4, disturbances: 3, reach: Reach::Anywhere },
    Shape { lane: 10, hazards: 3, meant: 2, disturbances: 1, reach: Reach::Ladder },
    Shape { lane: 0, hazards: 2, meant: 2, disturbances: 2, reach: Reach::Ladder },
    Shape { lane: 60, hazards: 5, meant: 1, disturbances: 3, reach: Reach::Near(4) },
    Shape { lane: 50, hazards: 50, meant: 3, disturbances: 3, reach: Reach::Anywhere },
    Shape { lane: 5, hazards: 10, meant: 1, disturbances: 2, reach: Reach::Near(1) },
];

/// A chart of `n` positions of a shape, within the limit of moves. Most have an unsafe position, also where the shape is
/// mostly safe.
pub fn drawn(random: &mut Random, n: usize, shape: Shape) -> Chart {
    let mut left = MOVES - n;
    let mut positions = Vec::with_capacity(n);
    for number in 0..n {
        let position = drawn_position(random, n, number, shape, &mut left);
        positions.push(position);
    }
    if random.chance(75) {
        positions[random.below(n)].safe = false;
    }
    Chart { positions }
}

/// `left` is how many moves may still be added to the one that each position needs.
fn drawn_position(random: &mut Random, n: usize, number: usize, shape: Shape, left: &mut usize) -> Position {
    let owner = if random.chance(shape.lane) { Owner::Lane } else { Owner::Console };
    let safe = !random.chance(shape.hazards);
    let more = random.below(shape.meant).min(*left);
    let meant = targets(1 + more, || target(random, n, number, shape.reach, false));
    *left -= meant.len() - 1;
    let most = if owner == Owner::Lane { 0 } else { shape.disturbances };
    let count = random.between(0, most).min(*left);
    let disturbances = targets(count, || target(random, n, number, shape.reach, true));
    *left -= disturbances.len();
    Position { owner, safe, meant, disturbances }
}

/// So many targets, rising; those drawn twice stand once.
fn targets(count: usize, mut draw: impl FnMut() -> usize) -> Vec<u16> {
    let mut list: Vec<u16> = (0..count).map(|_| draw() as u16).collect();
    list.sort_unstable();
    list.dedup();
    list
}

fn target(random: &mut Random, n: usize, from: usize, reach: Reach, disturbance: bool) -> usize {
    match reach {
        Reach::Anywhere => random.below(n),
        Reach::Near(most) => random.between(from.saturating_sub(most), (from + most).min(n - 1)),
        Reach::Ladder if disturbance => random.between(from.saturating_sub(2), from),
        Reach::Ladder => random.between(from, (from + 3).min(n - 1)),
    }
}

/// A drawn chart, perhaps with positions of rest.
pub fn drawn_or_rested(random: &mut Random, n: usize, shape: Shape) -> Chart {
    let chart = drawn(random, n, shape);
    perhaps_rested(random, chart)
}

/// The chart as it is in half of the cases, and else with some of its positions at rest: a few or most of them.
pub fn perhaps_rested(random: &mut Random, chart: Chart) -> Chart {
    match *random.pick(&[0, 0, 0, 0, 10, 20, 40, 80]) {
        0 => chart,
        percent => rested(random, chart, percent),
    }
}

/// The chart with so many of 100 positions at rest. Their meant moves are left out or, in one of three positions, become
/// disturbances. Each chart needs a move.
pub fn rested(random: &mut Random, mut chart: Chart, percent: usize) -> Chart {
    let n = chart.len();
    for position in &mut chart.positions {
        if random.chance(percent) {
            position.owner = Owner::Nobody;
            let meant = std::mem::take(&mut position.meant);
            if random.chance(33) {
                position.disturbances = union(meant, &position.disturbances);
            }
        }
    }
    if chart.moves() == 0 {
        chart.positions[random.below(n)].disturbances.push(random.below(n) as u16);
    }
    chart
}

/// What stands in either list, rising.
fn union(mut one: Vec<u16>, other: &[u16]) -> Vec<u16> {
    one.extend_from_slice(other);
    one.sort_unstable();
    one.dedup();
    one
}

/// The same chart with its positions numbered in another order.
pub fn renumbered(random: &mut Random, chart: &Chart) -> Chart {
    let mut order: Vec<u16> = (0..chart.len() as u16).collect();
    for last in (1..order.len()).rev() {
        order.swap(last, random.below(last + 1));
    }
    let mut positions = chart.positions.clone();
    for (old, position) in chart.positions.iter().enumerate() {
        let renamed = |list: &[u16]| {
            let mut names: Vec<u16> = list.iter().map(|&to| order[usize::from(to)]).collect();
            names.sort_unstable();
            names
        };
        positions[usize::from(order[old])] = Position {
            meant: renamed(&position.meant),
            disturbances: renamed(&position.disturbances),
            ..position.clone()
        };
    }
    Chart { positions }
}

/// The chart with so many moves added that may lead anywhere, as far as they are new.
pub fn stirred(random: &mut Random, mut chart: Chart, times: usize) -> Chart {
    let n = chart.len();
    for _ in 0..times {
        let position = &mut chart.positions[random.below(n)];
        let disturbance = match position.owner {
            Owner::Console => random.chance(70),
            Owner::Lane => false,
            Owner::Nobody => true,
        };
        let list = if disturbance { &mut position.disturbances } else { &mut position.meant };
        let to = random.below(n) as u16;
        if let Err(place) = list.binary_search(&to) {
            list.insert(place, to);
        }
    }
    chart
}

/// Adds moves that `allowed` lets in (from, to, whether a disturbance) until the chart has `moves` of them.
pub fn filled(mut chart: Chart, moves: usize, allowed: impl Fn(usize, usize, bool) -> bool) -> Chart {
    let n = chart.len();
    let mut count = chart.moves();
    for pair in 0..2 * n * n {
        let (distance, from, disturbance) = (pair / (2 * n), pair / 2 % n, pair % 2 == 1);
        let to = (from + distance) % n;
        if count == moves {
            break;
        }
        let position = &mut chart.positions[from];
        let leaves = match position.owner {
            Owner::Console => true,
            Owner::Lane => !disturbance,
            Owner::Nobody => disturbance,
        };
        if !leaves || !allowed(from, to, disturbance) {
            continue;
        }
        let list = if disturbance { &mut position.disturbances } else { &mut position.meant };
        if let Err(place) = list.binary_search(&(to as u16)) {
            list.insert(place, to as u16);
            count += 1;
        }
    }
    chart
}

/// The unsafe position 0 with which chains begin.
fn pit() -> Position {
    Position { owner: Owner::Lane, safe: false, meant: vec![0], disturbances: vec![] }
}

/// The lane's chain: each position can be moved to the one below, so all have value 0, each with a step of its own.
pub fn lane_chain(n: usize, moves: usize) -> Chart {
    let mut positions = vec![pit()];
    for number in 1..n as u16 {
        positions.push(Position { owner: Owner::Lane, safe: true, meant: vec![number - 1], disturbances: vec![] });
    }
    // Moves that go up change no step.
    filled(Chart { positions }, moves, |from, to, _| to >= from)
}

/// The console's chain: all meant moves go down, the one below among them.
pub fn console_chain(n: usize, moves: usize) -> Chart {
    let mut positions = vec![pit()];
    for number in 1..n as u16 {
        positions.push(Position { owner: Owner::Console, safe: true, meant: vec![number - 1], disturbances: vec![] });
    }
    // Everything has value 0, so disturbances may lead anywhere.
    filled(Chart { positions }, moves, |from, to, disturbance| disturbance || to < from)
}

/// Blocks of `height` positions: each block has a value of its own, one above the block below, and each position in it
/// a step of its own. With height 1 there are as many values as positions.
pub fn blocks(n: usize, moves: usize, height: usize) -> Chart {
    let mut positions = vec![pit()];
    for number in 1..n as u16 {
        let bottom = usize::from(number) % height == 0;
        positions.push(Position {
            owner: if bottom { Owner::Console } else { Owner::Lane },
            safe: true,
            meant: vec![if bottom { number } else { number - 1 }],
            disturbances: if bottom { vec![number - 1] } else { vec![] },
        });
    }
    // More moves up change nothing: none leads below the block's value or to an earlier step.
    filled(Chart { positions }, moves, |from, to, _| to >= from)
}

/// Positions of rest alone, each disturbed into the one below: as many values as positions, and no meant move at all.
pub fn rest_chain(n: usize, moves: usize) -> Chart {
    let position = |number: u16| Position {
        owner: Owner::Nobody,
        safe: number > 0,
        meant: vec![],
        disturbances: vec![number.saturating_sub(1)],
    };
    let chart = Chart { positions: (0..n as u16).map(position).collect() };
    // Disturbances that go up reach no smaller value.
    filled(chart, moves, |from, to, _| to >= from)
}

/// The console's positions alone, all safe and without disturbances: every move is good.
pub fn all_good(n: usize, moves: usize) -> Chart {
    let position = |number| Position { owner: Owner::Console, safe: true, meant: vec![number], disturbances: vec![] };
    let chart = Chart { positions: (0..n as u16).map(position).collect() };
    filled(chart, moves, |_, _, disturbance| !disturbance)
}
