//! Part 7: ways to ruin. Every way under every positional controller of the charts of one and two positions, with every length of
//! the buffer up to a line more than is wanted; those of a sample of the charts of three; some of pseudo-random charts up to the
//! limits; and calls with damaged charts, choices, positions and buffers.

use super::drawn::{chart, sized};
use super::setting::{Kind, Setting};
use super::{controllers, random_choices, Share};
use crate::blanks::leave_out_some;
use crate::chart::{small_chart, small_charts, Chart};
use crate::model::Subject;
use crate::random::Random;
use crate::shapes::SHAPES;
use crate::tally::Tally;
use crate::trial::Trial;
use crate::ways::{Way, LINE};

const SAMPLE: usize = 10_000;
const CHARTS: usize = 20_000;
const DAMAGED: usize = 60_000;

/// What is damaged. Two faults of the choices together show which comes first.
const KINDS: [Kind; 7] =
    [Kind::Chart, Kind::Rest, Kind::Blanks, Kind::Choices, Kind::Choices, Kind::Run, Kind::Lengths];

pub fn part(share: Share) -> Tally {
    let mut trial = Trial::default();
    for n in 1..=2 {
        let numbers = (share.first..small_charts(n)).step_by(share.shares);
        numbers.filter_map(|number| small_chart(n, number)).for_each(|chart| all_lengths(&mut trial, &chart));
    }
    let sample = share.of(SAMPLE).map(|input| Random::new(0x8000_0000 + input as u64).below(small_charts(3)));
    sample.filter_map(|number| small_chart(3, number)).for_each(|chart| all_ways(&mut trial, &chart));
    for input in share.of(CHARTS) {
        drawn(&mut trial, &mut Random::new(0x9000_0000 + input as u64), input);
    }
    for input in share.of(DAMAGED) {
        damaged(&mut trial, &mut Random::new(0xa000_0000 + input as u64), input);
    }
    trial.tally
}

/// From each position and the first that there is not.
fn all_lengths(trial: &mut Trial, chart: &Chart) {
    let text = chart.text();
    let subject = Subject::new(&text);
    for choices in controllers(chart) {
        trial.tally.inputs += 1;
        let ways = (0..=chart.len()).map(|position| Way::new(&subject, &choices, position));
        ways.for_each(|way| (0..=way.room() + LINE).for_each(|length| trial.ruin(&way, length)));
    }
}

fn all_ways(trial: &mut Trial, chart: &Chart) {
    let text = chart.text();
    let subject = Subject::new(&text);
    for choices in controllers(chart) {
        trial.tally.inputs += 1;
        let ways = (0..chart.len()).map(|position| Way::new(&subject, &choices, position));
        ways.for_each(|way| trial.ruin_by_room(&way, LINE));
    }
}

/// Half of the charts are small enough that all their plays can be listed, or nearly so. The plate's choices and others.
fn drawn(trial: &mut Trial, random: &mut Random, input: usize) {
    let shape = *random.pick(&SHAPES);
    let chart = if input / 2 % 2 == 0 { sized(random, 3, 6, shape) } else { chart(random, input / 4) };
    let mut text = chart.text();
    leave_out_some(random, &mut text);
    let subject = Subject::new(&text);
    trial.tally.inputs += 1;
    let mut choices = vec![subject.valuation(&chart).choices.clone(), random_choices(random, &chart)];
    choices.push(random_choices(random, &chart));
    choices[2].push(random.word() as u16);
    for choices in choices {
        let way = Way::new(&subject, &choices, random.below(chart.len()));
        trial.ruin_by_room(&way, random.between(1, 30));
    }
}

/// One damage, or several, and calls from positions on the chart or off it. What is refused anyway is lent room or none.
fn damaged(trial: &mut Trial, random: &mut Random, input: usize) {
    let mut setting = Setting::good(random);
    setting.damage(random, KINDS[input / 2 % KINDS.len()]);
    while random.chance(30) {
        let kind = *random.pick(&KINDS);
        setting.damage(random, kind);
    }
    let subject = Subject::new(&setting.chart);
    trial.tally.inputs += 1;
    for _ in 0..2 {
        let way = Way::new(&subject, &setting.choices, setting.start(random));
        let lines = way.play.as_ref().map_or_else(|_| random.below(3), Vec::len);
        let length = setting.length(random, lines, LINE);
        trial.ruin(&way, length);
    }
}
