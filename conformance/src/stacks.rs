//! The stack that each of the library's jobs uses.

use crate::capi::{self, Run};
use crate::chart::{Chart, Owner, Position, MOVES, POSITIONS};
use crate::measure::stack;
use crate::model::{Subject, LANES};
use crate::tally::JOBS;
use std::array::from_fn;

/// The most that a call wants, as the header says.
pub const MOST: usize = 96 << 10;

/// The bytes of stack of each job on an accepted chart's text with its own plate, and of those on small charts.
pub fn stacks(text: &[u8]) -> Vec<(&'static str, usize)> {
    let subject = Subject::new(text);
    let chart = subject.chart().expect("the chart is accepted");
    let (_, plate) = subject.write(22 * (chart.len() + 1));
    let choices = &subject.valuation(chart).choices;
    let plate = plate.as_slice();
    let mut rows = [[0u16; POSITIONS]; 3];
    let [values, others, steps] = &mut rows;
    let mut written = [0u8; 22 * (POSITIONS + 1)];
    let mut sheet = [0u8; 12 * MOVES];
    let mut play = [0u8; 12 * POSITIONS];
    let taken = |number| assert_eq!(number, 0, "nothing was refused");
    let (run, to) = first_report(&subject, chart);
    let (mut runs, reports) = full_house(&subject, chart);
    let last = chart.len() - 1;
    // Where no position is unsafe there is no way, but the search for one.
    let way = subject.play_to_ruin(choices, last).err().unwrap_or_default();
    let bytes = [
        stack(|| taken(capi::value(text, values, others, steps).refusal.number)),
        stack(|| taken(capi::write(text, &mut written).refusal.number)),
        stack(|| taken(capi::read(text, plate, values, others, steps).refusal.number)),
        stack(|| taken(capi::check(text, plate).number)),
        stack(|| taken(capi::weigh(text, choices, values).number)),
        stack(|| taken(capi::compare(text, plate, choices).refusal.number)),
        stack(|| taken(capi::start(text, plate, 0).refusal.number)),
        stack(|| taken(capi::report(run, text, plate, to).refusal.number)),
        stack(|| taken(capi::good_moves(text, &mut sheet).refusal.number)),
        stack(|| assert_eq!(capi::ruin(text, choices, last, &mut play).refusal, way)),
        stack(|| assert_eq!(capi::report_house(&mut runs, &reports, text, plate).moved, LANES)),
        stack(|| taken(capi::value_plain(text, values, others, steps).refusal.number)),
    ];
    JOBS.into_iter().zip(bytes.into_iter().chain(small_stacks(text))).collect()
}

/// The longest small chart by its index, and its index or that of the given chart, which may be of another sort.
fn small_stacks(text: &[u8]) -> [usize; 2] {
    let all = vec![0, 1, 2];
    let position = Position { owner: Owner::Console, safe: false, meant: all.clone(), disturbances: all };
    let chart = Chart { positions: vec![position; 3] }.text();
    let index = Subject::new(&chart).small_index().index;
    let mut lent = vec![0; chart.len()];
    let written = stack(|| assert_eq!(capi::small_chart(3, index, &mut lent).length, chart.len()));
    [written, index_stack(&chart).max(index_stack(text))]
}

fn index_stack(text: &[u8]) -> usize {
    let answer = Subject::new(text).small_index();
    stack(|| assert_eq!(capi::small_index(text), answer))
}

/// A run that stands at 0 of a chart, and a position that can follow.
pub fn first_report(subject: &Subject, chart: &Chart) -> (Run, usize) {
    report_at(subject, chart, 0).expect("a move leaves position 0")
}

/// A full house whose lanes all report: they stand all over the chart, the last at the last position that a move leaves.
pub fn full_house(subject: &Subject, chart: &Chart) -> ([Run; LANES], [u16; LANES]) {
    let able: Vec<(Run, usize)> = (0..chart.len()).filter_map(|position| report_at(subject, chart, position)).collect();
    let lane = |lane: usize| able[(able.len() - 1) * lane / (LANES - 1)];
    (from_fn(|number| lane(number).0), from_fn(|number| lane(number).1 as u16))
}

/// A run that stands at a position, and one that can follow, if there is one.
fn report_at(subject: &Subject, chart: &Chart, number: usize) -> Option<(Run, usize)> {
    let valuation = subject.valuation(chart);
    let (value, position) = (valuation.values[number], &chart.positions[number]);
    let to = match position.owner {
        Owner::Console => valuation.choices[number],
        Owner::Lane => position.meant[0],
        Owner::Nobody => *position.disturbances.first()?,
    };
    Some((Run { position: number, seen: 0, initial: value, value }, usize::from(to)))
}
