//! Part 1: every chart of one, two and three positions, with positions of rest and without, is valued both ways, its plate
//! written, read and checked, the plate's choices weighed, and its good moves listed. Of all positional controllers of
//! each, those are optimal whose choices are listed.

use super::{controllers, Share};
use crate::chart::{small_chart, small_charts, Chart};
use crate::model::Subject;
use crate::tally::Tally;
use crate::trial::Trial;

pub fn part(share: Share) -> Tally {
    let mut trial = Trial::default();
    for n in 1..=3 {
        for number in share.of(small_charts(n)) {
            if let Some(chart) = small_chart(n, number) {
                one(&mut trial, &chart, number / 2 % 3);
            }
        }
    }
    trial.tally
}

/// `more` is how much more room than is needed some of the calls are lent.
fn one(trial: &mut Trial, chart: &Chart, more: usize) {
    let n = chart.len();
    let text = chart.text();
    let subject = Subject::new(&text);
    assert_eq!(subject.chart(), Ok(chart), "a chart's text is read back as the chart");
    let (written, plate) = subject.write(22 * (n + 1));
    assert_eq!(written.length, plate.len(), "a plate of this length was written");
    trial.input(&subject);
    trial.value(&subject, [n + more, n + 1, n]);
    trial.write(&subject, plate.len() + 7 * more);
    trial.read(&subject, &plate, [n, n + more, n + 1]);
    trial.check(&subject, &plate);
    trial.weigh(&subject, &subject.valuation(chart).choices, n + more);
    trial.good_moves_by_room(&subject, 1 + 7 * more);
    for choices in controllers(chart) {
        trial.controller(&subject, chart, &choices);
    }
}
