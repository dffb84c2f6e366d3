//! Part 3: pseudo-random charts up to the limits, with every job on each, a run of reports, and controllers held against
//! the list of good moves.

use super::{good_choices, random_choices, Share};
use crate::blanks::leave_out_some;
use crate::capi::Run;
use crate::chart::{Chart, Owner, MOVES, POSITIONS};
use crate::model::Subject;
use crate::random::Random;
use crate::shapes::{blocks, console_chain, filled, lane_chain, renumbered, rest_chain, stirred, Shape, SHAPES};
use crate::shapes::{drawn_or_rested, perhaps_rested};
use crate::swaps::promise_kept;
use crate::tally::Tally;
use crate::trial::Trial;

const CHARTS: usize = 100_000;

pub fn part(share: Share) -> Tally {
    let mut trial = Trial::default();
    for input in share.of(CHARTS) {
        let mut random = Random::new(0x3000_0000 + input as u64);
        let chart = chart(&mut random, input);
        one(&mut trial, &mut random, &chart);
    }
    trial.tally
}

/// Mostly charts of 2 to 40 positions. Of a thousand, ten are larger and two have all the moves there can be.
pub fn chart(random: &mut Random, input: usize) -> Chart {
    let shape = *random.pick(&SHAPES);
    let chart = match input % 1000 {
        0 => long_chart(random),
        1 => filled(drawn_or_rested(random, POSITIONS, shape), MOVES, |_, _, _| true),
        2..=5 => sized(random, 129, POSITIONS, shape),
        6..=11 => sized(random, 41, 128, shape),
        12..=150 => high_chart(random),
        _ => sized(random, 2, 40, shape),
    };
    if random.chance(50) {
        return renumbered(random, &chart);
    }
    chart
}

pub fn sized(random: &mut Random, least: usize, most: usize, shape: Shape) -> Chart {
    let n = random.between(least, most);
    drawn_or_rested(random, n, shape)
}

/// Up to 40 positions and about as many rounds or values, with some moves that lead elsewhere.
fn high_chart(random: &mut Random) -> Chart {
    let (n, height) = (random.between(2, 40), random.between(1, 4));
    let moves = n * random.between(1, 3);
    let times = random.below(6);
    let chart = perhaps_rested(random, blocks(n, moves, height));
    stirred(random, chart, times)
}

/// As many rounds as there can be.
fn long_chart(random: &mut Random) -> Chart {
    match random.below(5) {
        0 => lane_chain(POSITIONS, MOVES),
        1 => console_chain(POSITIONS, MOVES),
        2 => blocks(POSITIONS, MOVES, 1),
        3 => rest_chain(POSITIONS, MOVES),
        _ => {
            let height = random.between(2, 40);
            blocks(POSITIONS, MOVES, height)
        }
    }
}

fn one(trial: &mut Trial, random: &mut Random, chart: &Chart) {
    let mut text = chart.text();
    leave_out_some(random, &mut text);
    let subject = Subject::new(&text);
    assert_eq!(subject.chart(), Ok(chart), "a chart's text is read back as the chart");
    let n = chart.len();
    let (_, plate) = subject.write(22 * (n + 1));
    trial.input(&subject);
    trial.value(&subject, [n + 3, n, n + 1]);
    trial.write(&subject, plate.len() + random.below(30));
    trial.read(&subject, &plate, [n, n + 2, n + 1]);
    trial.check(&subject, &plate);
    let best = subject.valuation(chart).choices.clone();
    let other = random_choices(random, chart);
    for choices in [&best, &other] {
        trial.weigh(&subject, choices, n + 1);
        trial.compare(&subject, &plate, choices);
        trial.solver(&subject, &plate, choices);
    }
    run(trial, random, chart, &subject, &plate);
    good_moves(trial, random, chart, &subject);
}

/// The list, and controllers held against it: any, one that makes good moves only, and the same with one slip.
fn good_moves(trial: &mut Trial, random: &mut Random, chart: &Chart, subject: &Subject) {
    let good = subject.good(chart);
    trial.good_moves_by_room(subject, random.between(1, 30));
    let any = random_choices(random, chart);
    let listed = good_choices(random, good);
    let slip = with_a_slip(random, chart, &listed, good);
    for choices in [any, listed, slip] {
        trial.controller(subject, chart, &choices);
    }
}

/// The same choices but for one that is not good, where some position has such a move.
fn with_a_slip(random: &mut Random, chart: &Chart, choices: &[u16], good: &[Vec<u16>]) -> Vec<u16> {
    let mut choices = choices.to_vec();
    let console = |v: &usize| chart.positions[*v].owner == Owner::Console;
    let moves = (0..chart.len()).filter(console).flat_map(|v| chart.positions[v].meant.iter().map(move |&to| (v, to)));
    let bad: Vec<_> = moves.filter(|(v, to)| !good[*v].contains(to)).collect();
    if !bad.is_empty() {
        let &(v, to) = random.pick(&bad);
        choices[v] = to;
    }
    choices
}

/// A run that goes on from each answer.
fn run(trial: &mut Trial, random: &mut Random, chart: &Chart, subject: &Subject, plate: &[u8]) {
    let position = random.below(chart.len());
    let mut run = trial.start(subject, plate, position).run;
    for _ in 0..6 {
        let to = went(random, chart, subject, run);
        run = trial.report(subject, run, plate, to).run;
        assert_eq!(run.value, subject.valuation(chart).values[run.position], "what a run holds: {chart:?}");
        assert!(promise_kept(run), "what a run promises: {chart:?}");
    }
}

/// Where the machine went: mostly by a move, sometimes where it can't. An undisturbed position of rest has no move.
fn went(random: &mut Random, chart: &Chart, subject: &Subject, run: Run) -> usize {
    let position = &chart.positions[run.position];
    let (meant, disturbances) = (&position.meant, &position.disturbances);
    let to = match (random.below(10), position.owner) {
        (1, _) if !meant.is_empty() => *random.pick(meant),
        (2..=5, _) if !disturbances.is_empty() => *random.pick(disturbances),
        (6..=9, Owner::Nobody) if !disturbances.is_empty() => *random.pick(disturbances),
        (0, _) | (_, Owner::Nobody) => return random.below(chart.len() + 2),
        (_, Owner::Console) => subject.valuation(chart).choices[run.position],
        (_, Owner::Lane) => *random.pick(meant),
    };
    usize::from(to)
}
