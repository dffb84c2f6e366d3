//! Part 6: reports with other texts than those of the start. All runs on all charts of one and two positions, with every held
//! value that could be mistaken for another; and runs that are lent one of several texts at each report.

use super::damage::{alter, hurt, mend_plate, CHART, PLATE};
use super::setting::good_chart;
use super::{good_choices, Share};
use crate::blanks::leave_out_some;
use crate::capi::{Run, NONE};
use crate::chart::{small_chart, small_charts, Chart, POSITIONS};
use crate::model::{plate_text, Plate, Subject};
use crate::random::Random;
use crate::shapes::{drawn_or_rested, stirred, SHAPES};
use crate::swaps::{promise_kept, sum_kept, Card, Swap};
use crate::tally::Tally;
use crate::trial::Trial;

const RUNS: usize = 60_000;

/// The reports of a run.
const REPORTS: usize = 10;

/// Held values around those that charts of one and two positions have.
const HELD: [u16; 7] = [0, 1, 2, 3, 511, NONE - 1, NONE];

pub fn part(share: Share) -> Tally {
    let mut trial = Trial::default();
    for n in 1..=2 {
        for number in (share.first..small_charts(n)).step_by(share.shares) {
            if let Some(chart) = small_chart(n, number) {
                small(&mut trial, &chart);
            }
        }
    }
    for input in share.of(RUNS) {
        let mut random = Random::new(0x7000_0000 + input as u64);
        drawn(&mut trial, &mut random);
    }
    trial.tally
}

/// All runs on a small chart with its plate: each position and the first that it has not, before and after.
fn small(trial: &mut Trial, chart: &Chart) {
    let n = chart.len();
    let text = chart.text();
    let subject = Subject::new(&text);
    let (_, plate) = subject.write(22 * (n + 1));
    let card = Card::new(&text, &plate);
    trial.input(&subject);
    for (position, to) in (0..=n).flat_map(|position| (0..=n).map(move |to| (position, to))) {
        held(trial, &card, &subject.valuation(chart).values, position, to);
    }
}

/// One move of a run with every held value: 13 where a position is not on the chart, else 18 exactly where the held value is
/// not the position's, by the values as they are defined.
fn held(trial: &mut Trial, card: &Card, values: &[u16], position: usize, to: usize) {
    let on_chart = position < values.len() && to < values.len();
    for (value, seen) in HELD.into_iter().flat_map(|value| [(value, 0), (value, 99_999)]) {
        let run = Run { position, seen, initial: 1, value };
        let answer = trial.report(&card.subject, run, card.plate, to);
        let as_asked = match answer.refusal.number {
            13 => !on_chart,
            18 => on_chart && values[position] != value,
            0 => on_chart && values[position] == value && answer.run.value == values[to],
            number => on_chart && values[position] == value && matches!(number, 15 | 16),
        };
        assert!(as_asked && sum_kept(run, answer.run), "{run:?} to {to}: {answer:?}");
    }
}

/// A run on drawn texts.
fn drawn(trial: &mut Trial, random: &mut Random) {
    let texts = texts(random);
    let cards: Vec<Card> = texts.iter().map(|(chart, plate)| Card::new(chart, plate)).collect();
    let first = random.below(2);
    trial.input(&cards[first].subject);
    run(trial, random, &cards, first);
}

/// A chart twice with plates that are right, which come first; like charts and others, smaller and larger ones, with their
/// plates; and then plates with other numbers, texts that do not belong together, and damaged ones.
pub fn texts(random: &mut Random) -> Vec<(Vec<u8>, Vec<u8>)> {
    let own = good_chart(random);
    let n = own.len();
    let (smaller, larger) = (random.between(1, n.max(2) - 1), random.between(n + 1, n + 4).min(POSITIONS));
    let times = random.between(1, 3);
    let like = stirred(random, own.clone(), times);
    let others = [n, n, smaller, larger].map(|n| {
        let shape = *random.pick(&SHAPES);
        drawn_or_rested(random, n, shape)
    });
    let mut texts = vec![with_plate(random, &own, written), with_plate(random, &own, another)];
    texts.push(with_plate(random, &like, written));
    texts.extend(others.iter().map(|other| with_plate(random, other, written)));
    texts.push(with_plate(random, &own, altered));
    texts.push(with_plate(random, &others[2], altered));
    let (one, other) = (random.below(7), random.below(7));
    texts.push((texts[one].0.clone(), texts[other].1.clone()));
    let mut damaged = texts[random.below(7)].clone();
    match random.chance(50) {
        true => hurt(random, &mut damaged.0, CHART),
        false => hurt(random, &mut damaged.1, PLATE),
    }
    texts.push(damaged);
    texts
}

/// A chart's text, perhaps with blank marks, and a plate that is made for it.
fn with_plate(
    random: &mut Random,
    chart: &Chart,
    make: fn(&mut Random, &Chart, &Subject) -> Plate,
) -> (Vec<u8>, Vec<u8>) {
    let mut text = chart.text();
    leave_out_some(random, &mut text);
    let plate = plate_text(&make(random, chart, &Subject::new(&text)));
    (text, plate)
}

fn written(_: &mut Random, chart: &Chart, subject: &Subject) -> Plate {
    subject.valuation(chart).plate()
}

/// A plate with other good moves as its choices, and perhaps with steps that have gaps.
fn another(random: &mut Random, chart: &Chart, subject: &Subject) -> Plate {
    let mut plate = subject.valuation(chart).plate();
    plate.choices = good_choices(random, subject.good(chart));
    let most = plate.steps.iter().filter(|&&step| step != NONE).max();
    if most.is_some_and(|&most| most < 256) && random.chance(50) {
        plate.steps.iter_mut().filter(|step| **step != NONE).for_each(|step| *step *= 2);
    }
    assert_eq!(subject.check(&plate_text(&plate)).number, 0, "good moves make a plate that is accepted: {chart:?}");
    plate
}

/// A plate with other numbers, mostly wrong.
fn altered(random: &mut Random, chart: &Chart, subject: &Subject) -> Plate {
    let mut plate = subject.valuation(chart).plate();
    alter(random, chart, &mut plate);
    if random.chance(60) {
        mend_plate(&mut plate);
    }
    plate
}

/// A run that goes on from each answer. What it promises, and what it holds, is asked after every report.
fn run(trial: &mut Trial, random: &mut Random, cards: &[Card], first: usize) {
    let position = somewhere(random, &cards[first]);
    let mut run = trial.start(&cards[first].subject, cards[first].plate, position).run;
    if random.chance(10) {
        // As after many reports. The sum is the greater for it.
        run.seen = 99_997;
    }
    let mut last = first;
    for _ in 0..REPORTS {
        let lent = pick(random, cards, last, run);
        let (swap, card) = (Swap { first: &cards[first], last: &cards[last], lent: &cards[lent] }, &cards[lent]);
        let to = went(random, card, run);
        let answer = trial.report(&card.subject, run, card.plate, to);
        trial.tally.note_swap(swap.sights(run, to, &answer));
        assert!(answer.refusal.number == 0 || answer.run == run, "a refused report leaves the run: {run:?} to {to}");
        assert!(sum_kept(run, answer.run) && promise_kept(answer.run), "what a run promises: {run:?} to {to}");
        if answer.refusal.number == 0 {
            last = lent;
        }
        run = answer.run;
        let subject = &cards[last].subject;
        let chart = subject.chart().expect("its report was taken");
        assert_eq!(run.value, subject.valuation(chart).values[run.position], "a run holds the value: {run:?}");
    }
}

/// A position to start from: mostly one whose value is a number above 0, if there is one.
pub fn somewhere(random: &mut Random, card: &Card) -> usize {
    let between = |position: &usize| card.value(*position).is_some_and(|value| (1..NONE).contains(&value));
    let positions: Vec<usize> = (0..card.positions()).filter(between).collect();
    if positions.is_empty() || random.chance(20) {
        return random.below(card.positions());
    }
    *random.pick(&positions)
}

/// Which texts a report is lent: the last ones, some with the value that is held, or any.
fn pick(random: &mut Random, cards: &[Card], last: usize, run: Run) -> usize {
    let fits = |place: &usize| cards[*place].checked == 0 && cards[*place].value(run.position) == Some(run.value);
    let fitting: Vec<usize> = (0..cards.len()).filter(fits).collect();
    match random.below(10) {
        0..=1 => last,
        2..=6 => *random.pick(&fitting),
        _ => random.below(cards.len()),
    }
}

/// Where the machine went: mostly by a move of the lent chart, sometimes where it can't.
fn went(random: &mut Random, card: &Card, run: Run) -> usize {
    let Some(position) = card.subject.chart().ok().and_then(|chart| chart.positions.get(run.position)) else {
        return random.below(card.positions() + 2);
    };
    let (meant, disturbances) = (&position.meant, &position.disturbances);
    let to = match random.below(10) {
        0..=3 if !disturbances.is_empty() => *random.pick(disturbances),
        4 if !meant.is_empty() => *random.pick(meant),
        5 => return random.below(card.positions() + 1),
        _ => match card.choice(run.position) {
            Some(choice) => choice,
            None if !meant.is_empty() => *random.pick(meant),
            None if !disturbances.is_empty() => *random.pick(disturbances),
            None => return random.below(card.positions()),
        },
    };
    usize::from(to)
}
