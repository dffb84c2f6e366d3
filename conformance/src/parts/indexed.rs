//! Part 9: small charts by their index. Every one is written by its index, indexed with its marks as 0 and with blanks, and
//! valued. Then numbers that are no small chart's, and the indices of other charts, damaged or of another sort.

mod examples;

use super::drawn::sized;
use super::setting::{good_chart, Kind, Setting};
use super::Share;
use crate::blanks::{filled_in, leave_out, leave_out_some};
use crate::chart::Chart;
use crate::indices::Wanted;
use crate::model::{charts_in_order, Subject, COUNTS};
use crate::random::Random;
use crate::shapes::SHAPES;
use crate::tally::Tally;
use crate::trial::Trial;

const ABSENT: usize = 20_000;
const OTHERS: usize = 60_000;

/// What is damaged.
const KINDS: [Kind; 3] = [Kind::Chart, Kind::Rest, Kind::Blanks];

pub fn part(share: Share) -> Tally {
    let mut trial = Trial::default();
    if share.first == 0 {
        examples::part(&mut trial);
    }
    (1..=COUNTS.len()).for_each(|n| all(&mut trial, share, n));
    for input in share.of(ABSENT) {
        absent(&mut trial, &mut Random::new(0xd000_0000 + input as u64));
    }
    for input in share.of(OTHERS) {
        other(&mut trial, &mut Random::new(0xe000_0000 + input as u64), input);
    }
    trial.tally
}

/// All small charts of `n` positions. The count of those before a chart is its index.
fn all(trial: &mut Trial, share: Share, n: usize) {
    let mut count = 0;
    for chart in charts_in_order(n) {
        if count % share.shares == share.first && count < COUNTS[n - 1] / share.divisor {
            one(trial, &chart, count);
        }
        count += 1;
    }
    assert_eq!(count, COUNTS[n - 1], "there are as many charts of {n} positions as the document says");
}

fn one(trial: &mut Trial, chart: &Chart, index: usize) {
    let mut random = Random::new(0xc000_0000 + index as u64);
    let (n, text) = (chart.len(), chart.text());
    let subject = Subject::new(&text);
    assert_eq!(subject.chart(), Ok(chart), "a chart's text is read back as the chart");
    trial.tally.inputs += 1;
    trial.small_chart_by_room(Wanted { positions: n, index, text: Some(&text) }, random.between(1, 30));
    let answer = trial.small_index(&subject);
    assert_eq!(answer.index, index, "the digits make the count of charts before it: {chart:?}");
    trial.value(&subject, [n; 3]);
    let (mut blank, percent) = (text.clone(), *random.pick(&[50, 100]));
    leave_out(&mut blank, |_| random.chance(percent));
    if blank != text {
        assert_eq!(trial.small_index(&Subject::new(&blank)), answer, "a blank mark counts as 0: {chart:?}");
    }
}

/// A count of positions or an index that no small chart has, with some room or none.
fn absent(trial: &mut Trial, random: &mut Random) {
    let n = random.between(1, COUNTS.len());
    let (count, any) = (COUNTS[n - 1], random.below(COUNTS[n - 1]));
    let high = 1 << random.between(8, 63);
    let (positions, index) = match random.below(4) {
        0 => (*random.pick(&[0, 4, 5, n + high, usize::MAX]), any),
        1 => (n, *random.pick(&[count, count + 1, usize::MAX])),
        2 => (n, random.between(count, 2 * COUNTS[COUNTS.len() - 1])),
        _ => (n, (any + high).max(count)),
    };
    let length = *random.pick(&[0, 1, 35, 36, 264, 300]);
    trial.tally.inputs += 1;
    trial.small_chart(Wanted { positions, index, text: None }, length);
}

/// The index of a chart of any sort, mostly of few positions. Half of them are damaged, once or several times.
fn other(trial: &mut Trial, random: &mut Random, input: usize) {
    let shape = *random.pick(&SHAPES);
    let chart = if random.chance(90) { sized(random, 1, 6, shape) } else { good_chart(random) };
    let mut setting = Setting::of(random, chart);
    leave_out_some(random, &mut setting.chart);
    for _ in 0..*random.pick(&[0, 0, 0, 1, 1, 2]) {
        let kind = *random.pick(&KINDS);
        setting.damage(random, kind);
    }
    trial.tally.inputs += 1;
    let answer = trial.small_index(&Subject::new(&setting.chart));
    let filled = filled_in(&setting.chart);
    if filled != setting.chart {
        assert_eq!(trial.small_index(&Subject::new(&filled)), answer, "blank marks and 0, input {input}");
    }
}
