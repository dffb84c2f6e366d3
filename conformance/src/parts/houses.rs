//! Part 8: houses of lanes. Every house of one lane on all charts of one and two positions, with held values and counts that are
//! right and that are not, and every house of two lanes that hold what is right; houses that are lent one of several texts at
//! each call; and calls with damaged charts, plates, runs and rows.

use super::setting::{Kind, Setting};
use super::swapped::{somewhere, texts};
use super::Share;
use crate::capi::{Run, NONE};
use crate::chart::{small_chart, small_charts, Chart, Owner};
use crate::houses::Rows;
use crate::model::{Subject, LANES};
use crate::random::Random;
use crate::swaps::{promise_kept, Card};
use crate::tally::Tally;
use crate::trial::Trial;

const HOUSES: usize = 20_000;
const DAMAGED: usize = 60_000;

/// The calls of a house.
const CALLS: usize = 6;

const KINDS: [Kind; 8] = [
    Kind::Chart,
    Kind::Rest,
    Kind::Blanks,
    Kind::PlateText,
    Kind::PlateNumbers,
    Kind::Run,
    Kind::Lengths,
    Kind::Lengths,
];

pub fn part(share: Share) -> Tally {
    let mut trial = Trial::default();
    for n in 1..=2 {
        let numbers = (share.first..small_charts(n)).step_by(share.shares);
        numbers.filter_map(|number| small_chart(n, number)).for_each(|chart| small(&mut trial, &chart));
    }
    for input in share.of(HOUSES) {
        drawn(&mut trial, &mut Random::new(0xb000_0000 + input as u64));
    }
    for input in share.of(DAMAGED) {
        damaged(&mut trial, &mut Random::new(0xc000_0000 + input as u64), input);
    }
    trial.tally
}

/// A lane: its run, and its report.
type Lane = (Run, u16);

/// Each position and the first that there is not, as that of the run and as the report.
fn small(trial: &mut Trial, chart: &Chart) {
    let text = chart.text();
    let subject = Subject::new(&text);
    let (_, plate) = subject.write(22 * (chart.len() + 1));
    let positions = 0..=chart.len();
    let moves = positions.flat_map(|position| (0..=chart.len() as u16).chain([NONE]).map(move |to| (position, to)));
    let right = |position: usize| subject.valuation(chart).values.get(position).copied().unwrap_or(0);
    let lane = |position, seen, value, to| (Run { position, seen, initial: 1, value }, to);
    let fitting: Vec<Lane> = moves.map(|(position, to)| lane(position, 0, right(position), to)).collect();
    trial.tally.inputs += 1;
    for &(run, to) in &fitting {
        let held = [run.value, run.value.wrapping_add(1)];
        for (value, seen) in held.into_iter().flat_map(|value| [(value, 0), (value, 99_999)]) {
            house(trial, &subject, &plate, &[lane(run.position, seen, value, to)]);
        }
        fitting.iter().for_each(|&other| house(trial, &subject, &plate, &[(run, to), other]));
    }
}

fn house(trial: &mut Trial, subject: &Subject, plate: &[u8], lanes: &[Lane]) {
    let (runs, reports): (Vec<Run>, Vec<u16>) = lanes.iter().copied().unzip();
    trial.house(subject, Rows { runs: &runs, reports: &reports }, plate);
}

/// A house that goes on from each answer. Of the runs that were begun by a start, what they promise is asked after every call.
fn drawn(trial: &mut Trial, random: &mut Random) {
    let texts = texts(random);
    let cards: Vec<Card> = texts.iter().map(|(chart, plate)| Card::new(chart, plate)).collect();
    let mut last = random.below(2);
    let most = *random.pick(&[1, 2, 3, 8, LANES]);
    let lanes = if most == LANES && random.chance(50) { LANES } else { random.between(1, most) };
    let made_up = *random.pick(&[0, 0, 10, 50]);
    let begun: Vec<bool> = (0..lanes).map(|_| !random.chance(made_up)).collect();
    let run = |&begun: &bool| if begun { start(random, &cards[last]) } else { anything(random, &cards[last]) };
    let mut runs: Vec<Run> = begun.iter().map(run).collect();
    trial.tally.inputs += 1;
    for _ in 0..CALLS {
        let lent = lent(random, &cards, last);
        let card = &cards[lent];
        let reports = reports(random, card, &runs);
        let (answer, after) = trial.house(&card.subject, Rows { runs: &runs, reports: &reports }, card.plate);
        if answer.refusal.number == 0 {
            last = lent;
        }
        runs = after;
        let kept = runs.iter().zip(&begun).all(|(&run, begun)| !begun || promise_kept(run));
        assert!(kept, "what the runs of a house promise: {runs:?}");
    }
}

/// A run that a start begins, perhaps as after many reports.
fn start(random: &mut Random, card: &Card) -> Run {
    let run = card.subject.start(card.plate, somewhere(random, card)).run;
    let seen = if random.chance(5) { 99_998 } else { 0 };
    Run { seen, ..run }
}

fn anything(random: &mut Random, card: &Card) -> Run {
    let inside = random.below(card.positions());
    let position =
        *random.pick(&[inside, inside, card.positions(), inside + (1 << 16), inside + (1 << 32), usize::MAX]);
    let (any, right) = (random.word() as u16, card.value(position).unwrap_or(0));
    let seen = *random.pick(&[0, 1, 99_998, 99_999, u32::MAX]);
    Run { position, seen, initial: any, value: *random.pick(&[right, right, right.wrapping_add(1), NONE, any]) }
}

/// Which texts a call is lent: the last ones, the first chart's with either of its plates, or any.
fn lent(random: &mut Random, cards: &[Card], last: usize) -> usize {
    match random.below(10) {
        0..=3 => last,
        4..=5 => random.below(2),
        _ => random.below(cards.len()),
    }
}

/// A report of each lane: some of those that can move do, the others are silent; and in half of the calls up to three lanes
/// report anything instead.
fn reports(random: &mut Random, card: &Card, runs: &[Run]) -> Vec<u16> {
    let silent = *random.pick(&[0, 10, 50, 90, 100]);
    let mut reports: Vec<u16> = runs
        .iter()
        .map(|&run| if random.chance(silent) { NONE } else { followed(random, card, run).unwrap_or(NONE) })
        .collect();
    for _ in 0..*random.pick(&[0, 0, 0, 1, 2, 3]) {
        let lane = random.below(runs.len());
        let (any, own) = (random.below(card.positions() + 2), runs[lane].position.min(65_535));
        reports[lane] = *random.pick(&[any as u16, any as u16, own as u16, 65_534, NONE]);
    }
    reports
}

/// A position that can follow, where the run fits the texts.
fn followed(random: &mut Random, card: &Card, run: Run) -> Option<u16> {
    let position = card.subject.chart().ok()?.positions.get(run.position)?;
    let chosen: Vec<u16> = match position.owner {
        Owner::Console => card.choice(run.position).into_iter().collect(),
        Owner::Lane => position.meant.clone(),
        Owner::Nobody => Vec::new(),
    };
    let disturbed = !position.disturbances.is_empty() && run.seen < 99_999;
    let targets = if disturbed && (chosen.is_empty() || random.chance(40)) { &position.disturbances } else { &chosen };
    (card.value(run.position) == Some(run.value) && !targets.is_empty()).then(|| *random.pick(targets))
}

/// One damage, or several.
fn damaged(trial: &mut Trial, random: &mut Random, input: usize) {
    let mut setting = Setting::good(random);
    setting.damage(random, KINDS[input / 2 % KINDS.len()]);
    while random.chance(30) {
        let kind = *random.pick(&KINDS);
        setting.damage(random, kind);
    }
    let subject = Subject::new(&setting.chart);
    trial.tally.inputs += 1;
    for _ in 0..2 {
        let (runs, reports) = setting.house(random);
        trial.house(&subject, Rows { runs: &runs, reports: &reports }, &setting.plate);
    }
}
