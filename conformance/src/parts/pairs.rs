//! Part 5: charts with blank marks, each beside the same chart with 0 in their place. On both every job gives the same
//! answer and leaves the same in all that was lent, be the inputs good or damaged. The library is set against itself here:
//! what the model says of either chart has no part in it. The index of a small chart has its pairs in part 9.

use super::setting::{Besides, Setting, KINDS};
use super::Share;
use crate::blanks::{filled_in, leave_out};
use crate::capi::{self, Compared, House, Listed, Reading, Refusal, Run, Step, Valued, Written};
use crate::chart::{small_chart, small_charts, Chart};
use crate::houses::Rows;
use crate::model::Subject;
use crate::random::Random;
use crate::tally::{Tally, JOBS};
use crate::trial::{Lent, Trial};
use crate::ways::LINE;

const PAIRS: usize = 40_000;

/// How many jobs are called: all but those on small charts.
const CALLED: usize = JOBS.len() - 2;

pub fn part(share: Share) -> Tally {
    let mut trial = Trial::default();
    for n in 1..=2 {
        for number in (share.first..small_charts(n)).step_by(share.shares) {
            if let Some(chart) = small_chart(n, number) {
                small(&mut trial, &chart, number);
            }
        }
    }
    for input in share.of(PAIRS) {
        let mut random = Random::new(0x6000_0000 + input as u64);
        drawn(&mut trial, &mut random);
    }
    trial.tally
}

/// A chart of one or two positions with every set of blanks.
fn small(trial: &mut Trial, chart: &Chart, number: usize) {
    for set in 1..1 << chart.len() {
        let mut random = Random::new(number as u64);
        let mut setting = Setting::of(&mut random, chart.clone());
        leave_out(&mut setting.chart, |v| set >> v & 1 == 1);
        pair(trial, &mut random, &setting);
    }
}

/// A drawn chart with all of its safe marks blank or half of them, and damage to anything in half of the inputs.
fn drawn(trial: &mut Trial, random: &mut Random) {
    let mut setting = Setting::good(random);
    let percent = *random.pick(&[50, 100]);
    leave_out(&mut setting.chart, |_| random.chance(percent));
    for _ in 0..*random.pick(&[0, 0, 1, 2]) {
        let (kind, _) = *random.pick(&KINDS);
        setting.damage(random, kind);
    }
    pair(trial, random, &setting);
}

fn pair(trial: &mut Trial, random: &mut Random, setting: &Setting) {
    let (blank, filled) = (&setting.chart, filled_in(&setting.chart));
    if *blank == filled {
        return;
    }
    let besides = setting.besides(random);
    let room = LINE * random.below(6) + random.below(2);
    let (runs, reports) = setting.house(random);
    let rows = Rows { runs: &runs, reports: &reports };
    let (one, other) = (outcome(blank, setting, &besides, room, rows), outcome(&filled, setting, &besides, room, rows));
    assert!(one == other, "blank marks and 0: {}\n{one:?}\n{other:?}", blank.escape_ascii());
    trial.input(&Subject::new(blank));
    trial.tally.calls += 2 * CALLED as u64;
    match one.checked.number {
        1..=9 | 17 => trial.tally.pairs_refused += 1,
        _ => trial.tally.pairs_taken += 1,
    }
}

/// What each job answers, and all that was lent to it afterwards.
#[derive(Debug, PartialEq)]
struct Outcome {
    valued: Valued,
    written: Written,
    reading: Reading,
    checked: Refusal,
    weighed: Refusal,
    compared: Compared,
    started: Step,
    reported: Step,
    listed: Listed,
    ruined: Listed,
    housed: House,
    valued_plain: Valued,
    valued_rows: [Lent<u16>; 3],
    plate: Lent<u8>,
    read_rows: [Lent<u16>; 3],
    worths: Lent<u16>,
    sheet: Lent<u8>,
    way: Lent<u8>,
    runs: Lent<Run>,
    plain_rows: [Lent<u16>; 3],
}

/// `room` is how much is lent for a way to ruin, and `rows` a house.
fn outcome(chart: &[u8], setting: &Setting, besides: &Besides, room: usize, rows: Rows) -> Outcome {
    let (plate, choices) = (&setting.plate, &setting.choices);
    let [mut valued_rows, mut read_rows, mut plain_rows] = [besides.rows; 3].map(|lengths| lengths.map(Lent::new));
    let (mut written, mut worths) = (Lent::new(besides.buffer), Lent::new(besides.rows[0]));
    let (mut sheet, mut way, mut runs) = (Lent::new(besides.sheet), Lent::new(room), Lent::of(rows.runs));
    let [values, others, steps] = &mut valued_rows;
    let [read_values, read_choices, read_steps] = &mut read_rows;
    let [plain_values, plain_choices, plain_steps] = &mut plain_rows;
    Outcome {
        valued: capi::value(chart, values.lend(), others.lend(), steps.lend()),
        written: capi::write(chart, written.lend()),
        reading: capi::read(chart, plate, read_values.lend(), read_choices.lend(), read_steps.lend()),
        checked: capi::check(chart, plate),
        weighed: capi::weigh(chart, choices, worths.lend()),
        compared: capi::compare(chart, plate, choices),
        started: capi::start(chart, plate, besides.start),
        reported: capi::report(besides.run, chart, plate, besides.to),
        listed: capi::good_moves(chart, sheet.lend()),
        ruined: capi::ruin(chart, choices, besides.start, way.lend()),
        housed: capi::report_house(runs.lend(), rows.reports, chart, plate),
        valued_plain: capi::value_plain(chart, plain_values.lend(), plain_choices.lend(), plain_steps.lend()),
        valued_rows,
        plate: written,
        read_rows,
        worths,
        sheet,
        way,
        runs,
        plain_rows,
    }
}
