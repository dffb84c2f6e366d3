//! What document 02 says of houses of lanes (order 7).

use self::Answer::{At, Moved};
use super::swaps::{
    fault, refused, texts, FAULT_ABOVE, FAULT_AT_0, FAULT_AT_2, MISDRAWN, NO_PLATE, OTHER_CHART, OTHER_CHOICE, OWN,
    SMALLER,
};
use crate::blanks::leave_out;
use crate::capi::{House, Refusal, Run, NONE};
use crate::houses::Rows;
use crate::model::{Subject, LANES};
use crate::trial::Trial;

/// A record: the run's position, the disturbances seen and the held value. The value at the start is the lane's own.
type Record = (usize, u32, u16);

/// What is answered: how many lanes moved, with all the records; or the lane and its refusal.
enum Answer {
    Moved(usize, &'static [Record]),
    At(usize, Refusal),
}

/// The texts that are lent, the lanes with their reports, and the answer.
type Call = (usize, &'static [(Record, u16)], Answer);

/// Records of the printed chart: at each position, and with counts that are full.
const AT_0: Record = (0, 0, 2);
const AT_1: Record = (1, 0, 2);
const AT_2: Record = (2, 1, 1);
const AT_3: Record = (3, 2, 0);
const AT_4: Record = (4, 0, NONE);
const FULL: Record = (0, 99_999, 2);
/// A record that is on no chart, and one that holds another value.
const NOWHERE: Record = (usize::MAX, 0, 0);
const HOLDS_1: Record = (0, 0, 1);

#[rustfmt::skip]
const CALLS: [Call; 61] = [
    // One lane, as by a single report.
    (OWN, &[(AT_0, 1)], Moved(1, &[AT_1])),
    (OWN, &[(AT_0, 2)], Moved(1, &[(2, 1, 1)])),
    (OWN, &[(AT_0, NONE)], Moved(0, &[AT_0])),
    (OWN, &[(AT_0, 4)], At(0, refused(15))),
    (OWN, &[(AT_0, 5)], At(0, refused(13))),
    (OWN, &[(AT_0, NONE - 1)], At(0, refused(13))),
    (OWN, &[(NOWHERE, 1)], At(0, refused(13))),
    (OWN, &[((5, 0, 2), 1)], At(0, refused(13))),
    (OWN, &[((1 << 32, 0, 2), 1)], At(0, refused(13))),
    (OWN, &[(HOLDS_1, 1)], At(0, refused(18))),
    (OWN, &[(FULL, 2)], At(0, refused(16))),
    (OWN, &[(FULL, 1)], Moved(1, &[(1, 99_999, 2)])),
    // At one lane 13 before 18, 18 before 15 and 16, 15 before 16.
    (OWN, &[(HOLDS_1, 5)], At(0, refused(13))),
    (OWN, &[(HOLDS_1, 4)], At(0, refused(18))),
    (OWN, &[((0, 99_999, 1), 2)], At(0, refused(18))),
    (OWN, &[(FULL, 4)], At(0, refused(15))),
    // Each lane by its own report; those that report nothing stay, whatever they hold.
    (OWN, &[(AT_0, 1), (AT_1, 0), (AT_2, 3), (AT_3, 3), (AT_4, 4)],
        Moved(5, &[AT_1, AT_0, (3, 2, 0), AT_3, AT_4])),
    (OWN, &[(AT_0, 1), (AT_0, NONE), (AT_0, 2), (AT_0, NONE)], Moved(2, &[AT_1, AT_0, (2, 1, 1), AT_0])),
    (OWN, &[(AT_0, NONE), (AT_0, NONE), (AT_0, NONE)], Moved(0, &[AT_0, AT_0, AT_0])),
    (OWN, &[(NOWHERE, NONE), (AT_0, 1)], Moved(1, &[NOWHERE, AT_1])),
    (OWN, &[(AT_0, 1), (NOWHERE, NONE)], Moved(1, &[AT_1, NOWHERE])),
    (OWN, &[(NOWHERE, NONE), ((5, 7, 7), NONE)], Moved(0, &[NOWHERE, (5, 7, 7)])),
    (OWN, &[(HOLDS_1, NONE), (AT_0, 2), (FULL, NONE)], Moved(1, &[HOLDS_1, (2, 1, 1), FULL])),
    (OWN, &[((0, u32::MAX, 60_000), NONE), (AT_0, 1)], Moved(1, &[(0, u32::MAX, 60_000), AT_1])),
    (OWN, &[(AT_4, NONE), (AT_0, 1), (AT_3, NONE)], Moved(1, &[AT_4, AT_1, AT_3])),
    // A report of where the lane stands counts, too, and is tested as any other.
    (OWN, &[(AT_4, 4), (AT_3, 3), (AT_0, NONE)], Moved(2, &[AT_4, AT_3, AT_0])),
    (OWN, &[(AT_4, 4), (AT_0, 0)], At(1, refused(15))),
    (OWN, &[(AT_4, 4), ((4, 0, 3), 4)], At(1, refused(18))),
    (OWN, &[(AT_4, 4), ((5, 0, NONE), 5)], At(1, refused(13))),
    // Of two refused lanes the lower is answered, with its own reason, be its number the smaller or the greater.
    (OWN, &[(AT_0, 4), (AT_0, 5)], At(0, refused(15))),
    (OWN, &[(AT_0, 5), (AT_0, 4)], At(0, refused(13))),
    (OWN, &[(HOLDS_1, 1), (AT_0, 4)], At(0, refused(18))),
    (OWN, &[(AT_0, 4), (HOLDS_1, 1)], At(0, refused(15))),
    (OWN, &[(FULL, 2), (AT_0, 5)], At(0, refused(16))),
    (OWN, &[(AT_0, 5), (FULL, 2)], At(0, refused(13))),
    (OWN, &[(AT_0, 1), (FULL, 2), (HOLDS_1, 1), (AT_0, 4), (AT_0, 5)], At(1, refused(16))),
    (OWN, &[(AT_0, NONE), (AT_0, NONE), (AT_0, 4), (NOWHERE, 0), (AT_0, 4)], At(2, refused(15))),
    (OWN, &[(NOWHERE, NONE), (AT_0, 1), (NOWHERE, 1), (AT_0, 4)], At(2, refused(13))),
    // A last lane that is refused leaves the first as it was.
    (OWN, &[(AT_0, 1), (AT_1, 0), (AT_2, 3), (AT_0, 4)], At(3, refused(15))),
    (OWN, &[(AT_0, 2), (AT_0, 5)], At(1, refused(13))),
    (OWN, &[(AT_0, 2), (AT_4, NONE), (HOLDS_1, 1)], At(2, refused(18))),
    (OWN, &[(AT_0, 2), (FULL, 2)], At(1, refused(16))),
    // The plate is tested once, also where no lane reports, and before any lane: 14 before 13, 18, 15 and 16.
    (FAULT_AT_0, &[(AT_0, NONE), (AT_4, NONE)], At(0, fault(0, 4))),
    (FAULT_AT_2, &[(AT_4, NONE)], At(0, fault(2, 3))),
    (FAULT_ABOVE, &[(AT_4, NONE), (AT_4, 4)], At(0, fault(5, 6))),
    (FAULT_AT_0, &[(AT_4, NONE), (AT_4, 5)], At(0, fault(0, 4))),
    (FAULT_AT_0, &[(NOWHERE, 1)], At(0, fault(0, 4))),
    (FAULT_AT_0, &[(NOWHERE, NONE)], At(0, fault(0, 4))),
    (FAULT_AT_2, &[(AT_4, 4), (HOLDS_1, 1), (AT_0, 4), (FULL, 2)], At(0, fault(2, 3))),
    // 11 and the chart's refusals before that.
    (NO_PLATE, &[(AT_0, NONE)], At(0, refused(11))),
    (NO_PLATE, &[(AT_0, NONE), (NOWHERE, 9)], At(0, refused(11))),
    (MISDRAWN, &[(AT_0, NONE)], At(0, NO_MEANT)),
    (MISDRAWN, &[(AT_0, NONE), (NOWHERE, 9)], At(0, NO_MEANT)),
    // Other texts: each lane that reports must hold the value, and the others are not asked.
    (OTHER_CHOICE, &[(AT_2, 2), (AT_0, 1)], Moved(2, &[AT_2, AT_1])),
    (OTHER_CHOICE, &[(AT_0, 1), (AT_2, 0)], At(1, refused(15))),
    (OTHER_CHART, &[(AT_2, 0), (AT_4, 4), (AT_0, NONE)], Moved(2, &[(0, 1, 1), AT_4, AT_0])),
    (OTHER_CHART, &[(AT_2, 0), (AT_0, 1), (AT_4, 4)], At(1, refused(18))),
    (OTHER_CHART, &[(HOLDS_1, 3), (HOLDS_1, 1)], Moved(2, &[(3, 1, 0), (1, 0, 1)])),
    (SMALLER, &[(AT_4, NONE), (HOLDS_1, 1), (AT_2, NONE)], Moved(1, &[AT_4, (1, 1, 0), AT_2])),
    (SMALLER, &[(HOLDS_1, 0), (AT_4, 0)], At(1, refused(13))),
    (SMALLER, &[(HOLDS_1, 2), (AT_4, 0)], At(0, refused(13))),
];

const NO_MEANT: Refusal = Refusal { number: 9, line: 1, position: 0, condition: 0 };

pub fn part(trial: &mut Trial) {
    let texts = texts();
    for (lent, lanes, answer) in &CALLS {
        let (chart, plate) = &texts[*lent];
        trial.tally.inputs += 1;
        one(trial, chart, plate, lanes, answer);
        if *lent == OWN {
            let mut blank = chart.clone();
            leave_out(&mut blank, |_| true);
            one(trial, &blank, plate, lanes, answer);
        }
    }
    for lent in [OWN, FAULT_AT_0, NO_PLATE, MISDRAWN] {
        lengths(trial, &texts[lent]);
    }
    places(trial, &texts[OWN]);
}

fn run(lane: usize, (position, seen, value): Record) -> Run {
    Run { position, seen, initial: 100 + lane as u16, value }
}

fn one(trial: &mut Trial, chart: &[u8], plate: &[u8], lanes: &[(Record, u16)], answer: &Answer) {
    let runs: Vec<Run> = lanes.iter().enumerate().map(|(lane, &(record, _))| run(lane, record)).collect();
    let reports: Vec<u16> = lanes.iter().map(|&(_, report)| report).collect();
    let rows = Rows { runs: &runs, reports: &reports };
    let expected = match *answer {
        Moved(moved, records) => {
            let after = records.iter().enumerate().map(|(lane, &record)| run(lane, record)).collect();
            (House { moved, ..House::default() }, after)
        }
        At(lane, refusal) => (House { refusal, lane, moved: 0 }, runs.clone()),
    };
    assert_eq!(trial.house(&Subject::new(chart), rows, plate), expected, "{rows:?}");
}

/// All lengths of the two rows to some more than there may be, be the lanes silent or not. 20 is tested before the texts.
fn lengths(trial: &mut Trial, (chart, plate): &(Vec<u8>, Vec<u8>)) {
    let subject = Subject::new(chart);
    let otherwise = subject.check(plate);
    for (lanes, count) in (0..LANES + 3).flat_map(|lanes| (0..LANES + 3).map(move |count| (lanes, count))) {
        let runs: Vec<Run> = (0..lanes).map(|lane| run(lane, AT_0)).collect();
        let reports: Vec<u16> = (0..count).map(|lane| if (lane + lanes) % 3 == 0 { NONE } else { 1 }).collect();
        let fits = lanes == count && (1..=LANES).contains(&lanes);
        let (answer, _) = trial.house(&subject, Rows { runs: &runs, reports: &reports }, plate);
        assert_eq!(answer.refusal, if fits { otherwise } else { refused(20) }, "{lanes} lanes, {count} reports");
    }
    trial.tally.inputs += 1;
}

/// A full house in which one lane is silent, or alone reports, or alone is refused: each in turn.
fn places(trial: &mut Trial, (chart, plate): &(Vec<u8>, Vec<u8>)) {
    let subject = Subject::new(chart);
    let runs: Vec<Run> = (0..LANES).map(|lane| run(lane, AT_0)).collect();
    for place in 0..LANES {
        for (others, own, lane, moved) in
            [(1, NONE, 0, LANES - 1), (NONE, 2, 0, 1), (2, 4, place, 0), (NONE, 4, place, 0), (2, 2, 0, LANES)]
        {
            let mut reports = [others; LANES];
            reports[place] = own;
            let (answer, after) = trial.house(&subject, Rows { runs: &runs, reports: &reports }, plate);
            let refusal = refused(if own == 4 { 15 } else { 0 });
            assert_eq!(answer, House { refusal, lane, moved }, "lane {place} reports {own}, the others {others}");
            let changed = runs.iter().zip(&after).filter(|(before, after)| before != after).count();
            assert_eq!(changed, moved, "lane {place} reports {own}, the others {others}");
        }
    }
    trial.tally.inputs += 1;
}
