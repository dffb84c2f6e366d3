//! Part 2: all positional controllers of the charts of one and two positions, and of a sample of those of three, are
//! weighed, their worths compared with the plate, and the plates that the optimal ones make checked.

use super::{controllers, Share};
use crate::chart::{small_chart, small_charts, Chart};
use crate::model::{plate_text, Plate, Subject};
use crate::random::Random;
use crate::tally::Tally;
use crate::trial::Trial;

const SAMPLE: usize = 20_000;

pub fn part(share: Share) -> Tally {
    let mut trial = Trial::default();
    for n in 1..=2 {
        let numbers = (share.first..small_charts(n)).step_by(share.shares);
        numbers.filter_map(|number| small_chart(n, number)).for_each(|chart| one(&mut trial, &chart));
    }
    let sample = share.of(SAMPLE).map(|input| Random::new(0x2000_0000 + input as u64).below(small_charts(3)));
    sample.filter_map(|number| small_chart(3, number)).for_each(|chart| one(&mut trial, &chart));
    trial.tally
}

fn one(trial: &mut Trial, chart: &Chart) {
    let text = chart.text();
    let subject = Subject::new(&text);
    let n = chart.len();
    let (_, plate) = subject.write(22 * (n + 1));
    let mut best = vec![0; n];
    for choices in controllers(chart) {
        trial.tally.inputs += 1;
        trial.weigh(&subject, &choices, n + 2);
        trial.compare(&subject, &plate, &choices);
        trial.solver(&subject, &plate, &choices);
        let (_, worths) = subject.weigh(&choices, n);
        if worths == subject.valuation(chart).values {
            optimal(trial, &subject, Plate { choices, ..subject.valuation(chart).plate() });
        }
        best.iter_mut().zip(worths).for_each(|(best, worth)| *best = worth.max(*best));
    }
    // A controller with memory does no better than the best positional one, which the values must show.
    assert_eq!(best, subject.valuation(chart).values, "the best worths are the values: {chart:?}");
}

/// Any optimal positional controller makes a plate that is accepted.
fn optimal(trial: &mut Trial, subject: &Subject, plate: Plate) {
    let text = plate_text(&plate);
    assert_eq!(subject.check(&text).number, 0, "an optimal controller's plate is accepted: {plate:?}");
    trial.check(subject, &text);
}
