//! One call of the library set against the model: the whole answer, and every lent byte or number after the call.

use crate::capi::{self, House, Indexed, Refusal, Run, Step, Valuing, NONE};
use crate::chart::Chart;
use crate::houses::Rows;
use crate::indices::{self, Wanted};
use crate::model::{self, plate_text, Plate, Subject, LANES};
use crate::swaps::sum_kept;
use crate::tally::{Tally, JOBS};
use crate::ways::Way;
use crate::{blanks, rests, sheets, solver};
use std::fmt::Debug;

/// How many elements before and after what is lent are watched too.
const GUARD: usize = 8;

/// What lent memory holds before a call: a different thing at each place, and nothing that a job would write.
pub trait Pattern: Copy + PartialEq {
    fn at(place: usize) -> Self;
}

impl Pattern for u8 {
    fn at(place: usize) -> u8 {
        0x80 | (place.wrapping_mul(37) & 0x7f) as u8
    }
}

impl Pattern for u16 {
    fn at(place: usize) -> u16 {
        0x8000 | (place.wrapping_mul(37) & 0x3fff) as u16
    }
}

impl Pattern for Run {
    fn at(place: usize) -> Run {
        let (seen, number) = (u32::from(u16::at(place)) << 16, u16::at(place + 1));
        Run { position: usize::MAX - place, seen, initial: number, value: !number }
    }
}

/// Memory to lend, with guards on both sides.
#[derive(Debug, PartialEq)]
pub struct Lent<T> {
    cells: Vec<T>,
}

impl<T: Pattern> Lent<T> {
    pub fn new(length: usize) -> Lent<T> {
        Lent { cells: (0..length + 2 * GUARD).map(T::at).collect() }
    }

    /// Memory that holds this before the call.
    pub fn of(front: &[T]) -> Lent<T> {
        let mut lent = Lent::new(front.len());
        lent.lend().copy_from_slice(front);
        lent
    }

    pub fn lend(&mut self) -> &mut [T] {
        let end = self.cells.len() - GUARD;
        &mut self.cells[GUARD..end]
    }

    /// Whether what was lent begins with `front` and all else is as it was.
    pub fn holds(&self, front: &[T]) -> bool {
        let end = GUARD + front.len();
        let same = |from: usize, cells: &[T]| cells.iter().enumerate().all(|(i, &cell)| cell == T::at(from + i));
        self.cells.len() >= end + GUARD
            && same(0, &self.cells[..GUARD])
            && self.cells[GUARD..end] == *front
            && same(end, &self.cells[end..])
    }

    fn shown(&self) -> &[T] {
        &self.cells
    }
}

/// What a job was given besides the chart, to be shown at a mismatch.
#[derive(Default)]
struct Given<'a> {
    choices: &'a [u16],
    lengths: &'a [usize],
    run: Option<Run>,
    position: Option<usize>,
    runs: &'a [Run],
    reports: &'a [u16],
    small: Option<(usize, usize)>,
}

/// Calls the library and the model alike and counts; ends the program at the first mismatch.
#[derive(Default)]
pub struct Trial {
    pub tally: Tally,
}

impl Trial {
    /// Counts an input, and what its chart shows of blanks and of positions of rest.
    pub fn input(&mut self, subject: &Subject) {
        let answer = subject.chart().err().unwrap_or_default();
        self.tally.inputs += 1;
        for (count, seen) in self.tally.blanks.iter_mut().zip(blanks::sights(subject.text, answer)) {
            *count += u64::from(seen);
        }
        for (count, seen) in self.tally.rests.iter_mut().zip(rests::charts(subject)) {
            *count += u64::from(seen);
        }
    }

    /// Counts what a call shows at a position of rest.
    fn at_rest(&mut self, sight: Option<usize>) {
        if let Some(place) = sight {
            self.tally.rest_calls[place] += 1;
        }
    }

    /// Valuing both ways: the one that all jobs go, and the plain one.
    pub fn value(&mut self, subject: &Subject, lengths: [usize; 3]) {
        let (answer, rows) = subject.value(lengths);
        let given = Given { lengths: &lengths, ..Given::default() };
        for (job, value) in [(0, capi::value as Valuing), (11, capi::value_plain)] {
            let mut lent = lengths.map(Lent::new);
            let [values, choices, steps] = &mut lent;
            let got = value(subject.text, values.lend(), choices.lend(), steps.lend());
            self.settle(job, answer.refusal, got == answer && hold(&lent, &rows), || {
                show(job, subject, &[], &given, &(answer, &rows), &(got, lent.each_ref().map(Lent::shown)))
            });
        }
    }

    pub fn write(&mut self, subject: &Subject, length: usize) {
        let (answer, text) = subject.write(length);
        let mut lent = Lent::new(length);
        let got = capi::write(subject.text, lent.lend());
        let given = Given { lengths: &[length], ..Given::default() };
        self.settle(1, answer.refusal, got == answer && lent.holds(&text), || {
            show(1, subject, &[], &given, &(answer, escaped(&text)), &(got, escaped(lent.shown())))
        });
    }

    pub fn read(&mut self, subject: &Subject, plate: &[u8], lengths: [usize; 3]) {
        let (answer, rows) = subject.read(plate, lengths);
        let mut lent = lengths.map(Lent::new);
        let [values, choices, steps] = &mut lent;
        let got = capi::read(subject.text, plate, values.lend(), choices.lend(), steps.lend());
        let given = Given { lengths: &lengths, ..Given::default() };
        self.settle(2, answer.refusal, got == answer && hold(&lent, &rows), || {
            show(2, subject, plate, &given, &(answer, &rows), &(got, lent.each_ref().map(Lent::shown)))
        });
        if answer.refusal.number == 0 {
            let [values, choices, steps] = rows;
            let again = plate_text(&Plate { first_line: answer.first_line, values, choices, steps });
            assert_eq!(again, plate, "what was read, set out again, is the same bytes");
        }
    }

    pub fn check(&mut self, subject: &Subject, plate: &[u8]) {
        let answer = subject.check(plate);
        let got = capi::check(subject.text, plate);
        self.settle(3, answer, got == answer, || show(3, subject, plate, &Given::default(), &answer, &got));
        self.at_rest(rests::checked(subject, answer));
        if answer.number == 0 {
            accepted(subject, plate);
        }
    }

    pub fn weigh(&mut self, subject: &Subject, choices: &[u16], length: usize) {
        let (answer, worths) = subject.weigh(choices, length);
        let mut lent = Lent::new(length);
        let got = capi::weigh(subject.text, choices, lent.lend());
        let given = Given { choices, lengths: &[length], ..Given::default() };
        self.settle(4, answer, got == answer && lent.holds(&worths), || {
            show(4, subject, &[], &given, &(answer, &worths), &(got, lent.shown()))
        });
        self.at_rest(rests::weighed(subject, choices, answer));
    }

    pub fn compare(&mut self, subject: &Subject, plate: &[u8], choices: &[u16]) {
        let answer = subject.compare(plate, choices);
        let got = capi::compare(subject.text, plate, choices);
        let given = Given { choices, ..Given::default() };
        self.settle(5, answer.refusal, got == answer, || show(5, subject, plate, &given, &answer, &got));
        if answer.refusal.number == 0 {
            self.tally.agreed += u64::from(answer.agree);
            self.tally.differed += u64::from(answer.agree == 0);
        }
    }

    /// The model's answer, which is the library's too.
    pub fn start(&mut self, subject: &Subject, plate: &[u8], position: usize) -> Step {
        let answer = subject.start(plate, position);
        let got = capi::start(subject.text, plate, position);
        let given = Given { position: Some(position), ..Given::default() };
        self.settle(6, answer.refusal, got == answer, || show(6, subject, plate, &given, &answer, &got));
        answer
    }

    pub fn report(&mut self, subject: &Subject, run: Run, plate: &[u8], to: usize) -> Step {
        let answer = subject.report(run, plate, to);
        let got = capi::report(run, subject.text, plate, to);
        let given = Given { run: Some(run), position: Some(to), ..Given::default() };
        self.settle(7, answer.refusal, got == answer, || show(7, subject, plate, &given, &answer, &got));
        self.at_rest(rests::reported(subject, run, answer.refusal));
        answer
    }

    pub fn good_moves(&mut self, subject: &Subject, length: usize) {
        let (answer, sheet) = subject.good_moves(length);
        let mut lent = Lent::new(length);
        let got = capi::good_moves(subject.text, lent.lend());
        let given = Given { lengths: &[length], ..Given::default() };
        self.settle(8, answer.refusal, got == answer && lent.holds(&sheet), || {
            show(8, subject, &[], &given, &(answer, escaped(&sheet)), &(got, escaped(lent.shown())))
        });
        for (count, seen) in self.tally.sheets.iter_mut().zip(sheets::sights(subject, length)) {
            *count += u64::from(seen);
        }
        if answer.refusal.number == 0 {
            listed(subject);
        }
    }

    /// Listing with room for the lines and no more, with one byte less, and with so many more.
    pub fn good_moves_by_room(&mut self, subject: &Subject, more: usize) {
        let room = sheets::room(subject);
        self.good_moves(subject, room);
        self.good_moves(subject, room + more);
        if room > 0 {
            self.good_moves(subject, room - 1);
        }
    }

    /// Ruin by the library, and by the fast solver of the timings.
    pub fn ruin(&mut self, way: &Way, length: usize) {
        let (answer, sheet) = model::ruin(&way.play, length);
        let (mut lent, mut lent_again) = (Lent::new(length), Lent::new(length));
        let got = capi::ruin(way.subject.text, way.choices, way.position, lent.lend());
        let given =
            Given { choices: way.choices, lengths: &[length], position: Some(way.position), ..Given::default() };
        self.settle(9, answer.refusal, got == answer && lent.holds(&sheet), || {
            show(9, way.subject, &[], &given, &(answer, escaped(&sheet)), &(got, escaped(lent.shown())))
        });
        for (count, seen) in self.tally.ways.iter_mut().zip(way.sights(length)) {
            *count += u64::from(seen);
        }
        let found = solver::ruin(way.subject.text, way.choices, way.position, lent_again.lend());
        assert!(found == answer && lent_again.holds(&sheet), "solver's ruin: {}", escaped(way.subject.text));
        ruined(way);
    }

    /// Ruin with room for the lines and no more, with one byte less, with a line less, and with so many bytes more.
    pub fn ruin_by_room(&mut self, way: &Way, more: usize) {
        let room = way.room();
        self.ruin(way, room);
        self.ruin(way, room + more);
        if room > 0 {
            self.ruin(way, room - 1);
            self.ruin(way, room - 12);
        }
    }

    /// The report of a house, and each of its lanes by the library's own single report. These are not counted. Gives the
    /// answer and the records after the call.
    pub fn house(&mut self, subject: &Subject, rows: Rows, plate: &[u8]) -> (House, Vec<Run>) {
        let (answer, after) = subject.report_house(rows.runs, rows.reports, plate);
        let mut lent = Lent::of(rows.runs);
        let got = capi::report_house(lent.lend(), rows.reports, subject.text, plate);
        let given = Given { runs: rows.runs, reports: rows.reports, ..Given::default() };
        self.settle(10, answer.refusal, got == answer && lent.holds(&after), || {
            show(10, subject, plate, &given, &(answer, &after), &(got, lent.shown()))
        });
        for (count, seen) in self.tally.houses.iter_mut().zip(rows.sights(subject, plate, &answer, &after)) {
            *count += u64::from(seen);
        }
        singly(subject, rows, plate, &answer, &after);
        (answer, after)
    }

    /// A small chart by its index, by the library and by the fast solver of the timings.
    pub fn small_chart(&mut self, wanted: Wanted, length: usize) {
        let Wanted { positions, index, text } = wanted;
        let (answer, written) = model::small_chart(text, length);
        let (mut lent, mut lent_again) = (Lent::new(length), Lent::new(length));
        let got = capi::small_chart(positions, index, lent.lend());
        let given = Given { lengths: &[length], small: Some((positions, index)), ..Given::default() };
        self.settle(12, answer.refusal, got == answer && lent.holds(&written), || {
            let subject = Subject::new(text.unwrap_or_default());
            show(12, &subject, &[], &given, &(answer, escaped(&written)), &(got, escaped(lent.shown())))
        });
        for (count, seen) in self.tally.small_charts.iter_mut().zip(wanted.sights(length)) {
            *count += u64::from(seen);
        }
        let found = solver::small_chart(positions, index, lent_again.lend());
        assert!(found == answer && lent_again.holds(&written), "solver's small chart: {positions} positions, {index}");
    }

    /// The small chart with room for it and no more, with one byte less, and with so many more.
    pub fn small_chart_by_room(&mut self, wanted: Wanted, more: usize) {
        let room = wanted.text.map_or(0, <[u8]>::len);
        self.small_chart(wanted, room);
        self.small_chart(wanted, room + more);
        if room > 0 {
            self.small_chart(wanted, room - 1);
        }
    }

    /// The index of a small chart, by the library and by the fast solver. Gives the answer.
    pub fn small_index(&mut self, subject: &Subject) -> Indexed {
        let answer = subject.small_index();
        let got = capi::small_index(subject.text);
        self.settle(13, answer.refusal, got == answer, || show(13, subject, &[], &Given::default(), &answer, &got));
        for (count, seen) in self.tally.small_indices.iter_mut().zip(indices::sights(subject)) {
            *count += u64::from(seen);
        }
        assert_eq!(solver::small_index(subject.text), answer, "solver's small index: {}", escaped(subject.text));
        answer
    }

    /// A positional controller is optimal exactly when all its choices at O are listed.
    pub fn controller(&mut self, subject: &Subject, chart: &Chart, choices: &[u16]) {
        let (_, worths) = subject.weigh(choices, chart.len());
        let listed = choices_listed(subject.good(chart), choices);
        let optimal = worths == subject.valuation(chart).values;
        assert_eq!(optimal, listed, "optimal exactly when listed: {choices:?} for {chart:?}");
        self.tally.listed += u64::from(listed);
        self.tally.unlisted += u64::from(!listed);
    }

    /// The fast solver of the timings set against the model. These are no calls of the library, so none is counted.
    pub fn solver(&mut self, subject: &Subject, plate: &[u8], choices: &[u16]) {
        let length = choices.len();
        let (answer, rows) = subject.value([length; 3]);
        let mut lent = [length; 3].map(Lent::new);
        let [a, b, c] = &mut lent;
        let valued = solver::value(subject.text, a.lend(), b.lend(), c.lend());
        assert!(valued == answer && hold(&lent, &rows), "solver's value: {}", escaped(subject.text));
        let (answer, text) = subject.write(22 * (length + 1));
        let mut lent = Lent::new(22 * (length + 1));
        let written = solver::write(subject.text, lent.lend());
        assert!(written == answer && lent.holds(&text), "solver's write: {}", escaped(subject.text));
        let checked = solver::check(subject.text, plate);
        assert_eq!(checked, subject.check(plate), "solver's check: {}", escaped(subject.text));
        let (answer, worths) = subject.weigh(choices, length);
        let mut lent = Lent::new(length);
        let weighed = solver::weigh(subject.text, choices, lent.lend());
        assert!(weighed == answer && lent.holds(&worths), "solver's weigh: {}", escaped(subject.text));
        let room = sheets::room(subject);
        for length in [room, room.saturating_sub(1)] {
            let (answer, sheet) = subject.good_moves(length);
            let mut lent = Lent::new(length);
            let listed = solver::good_moves(subject.text, lent.lend());
            assert!(listed == answer && lent.holds(&sheet), "solver's good moves: {}", escaped(subject.text));
        }
    }

    /// Counts a call of the job at this place among the jobs, or ends the program.
    fn settle(&mut self, job: usize, refusal: Refusal, same: bool, show: impl FnOnce()) {
        if !same {
            show();
            std::process::exit(1);
        }
        self.tally.calls += 1;
        self.tally.refusals[job][refusal.number as usize] += 1;
        if refusal.number == 14 {
            self.tally.conditions[usize::from(refusal.condition)] += 1;
        }
    }
}

/// What document 01 says of accepted plates: the values are right, and the choices make an optimal controller.
fn accepted(subject: &Subject, plate: &[u8]) {
    let chart = subject.chart().expect("the chart was taken");
    let right = &subject.valuation(chart).values;
    let (_, [values, choices, _]) = subject.read(plate, [chart.len(); 3]);
    assert_eq!(&values, right, "an accepted plate's values: {chart:?}");
    assert_eq!(&subject.weigh(&choices, chart.len()).1, right, "an accepted plate's choices: {chart:?}");
}

/// What is said of good moves: the plate's own choices are listed, and a controller that makes listed moves only is worth
/// the value everywhere, whatever it remembers.
fn listed(subject: &Subject) {
    let chart = subject.chart().expect("the chart was taken");
    let valuation = subject.valuation(chart);
    assert!(choices_listed(subject.good(chart), &valuation.choices), "the plate's choices are listed: {chart:?}");
    assert_eq!(subject.least_good_worths(chart), valuation.values, "listed moves keep the values: {chart:?}");
}

/// What is said of a way to ruin: there is one exactly where the worth is a number, and it has so many disturbances.
fn ruined(way: &Way) {
    let worth = |n: usize| way.subject.weigh(way.choices, n).1[way.position];
    match (&way.play, way.subject.chart()) {
        (Ok(play), Ok(chart)) => {
            let disturbances = play.iter().filter(|visit| visit.disturbed).count();
            assert_eq!(disturbances, usize::from(worth(chart.len())), "as many disturbances as the worth: {chart:?}");
        }
        (Err(Refusal { number: 19, .. }), Ok(chart)) => {
            assert_eq!(worth(chart.len()), NONE, "no way where the worth is ever: {chart:?}");
        }
        _ => {}
    }
}

/// What document 02 says of a house: each lane that reports becomes what a single report gives it and the others stay, or no
/// record changes and the lowest lane is answered that a single report refuses; and a report leaves no lane a smaller sum.
fn singly(subject: &Subject, rows: Rows, plate: &[u8], answer: &House, after: &[Run]) {
    let House { refusal, lane: refused, moved } = *answer;
    let (taken, at_lane) = (refusal.number == 0, matches!(refusal.number, 13 | 15 | 16 | 18));
    let fits = rows.runs.len() == rows.reports.len() && (1..=LANES).contains(&rows.runs.len());
    assert_eq!(refusal.number == 20, !fits, "20 exactly where the rows don't fit: {rows:?}");
    assert_eq!(moved, if taken { rows.reporting().count() } else { 0 }, "all that report move or none: {rows:?}");
    for (lane, (&before, &after)) in rows.runs.iter().zip(after).enumerate() {
        let silent = !taken || rows.reports[lane] == NONE;
        assert!(sum_kept(before, after) && (!silent || before == after), "lane {lane}: {before:?} to {after:?}");
    }
    for lane in rows.reporting().filter(|&lane| refusal.number != 20 && !(at_lane && lane > refused)) {
        let single = capi::report(rows.runs[lane], subject.text, plate, usize::from(rows.reports[lane]));
        let as_asked = match refusal.number {
            0 => single.refusal == refusal && single.run == after[lane],
            _ if at_lane && lane < refused => single.refusal.number == 0,
            14 => single.refusal == refusal || single.refusal.number == 13,
            _ => single.refusal == refusal,
        };
        assert!(as_asked, "lane {lane} of {rows:?}: {single:?} alone, {answer:?} in the house");
    }
}

/// Whether each choice at O is the target of a good move.
fn choices_listed(good: &[Vec<u16>], choices: &[u16]) -> bool {
    good.iter().zip(choices).all(|(targets, choice)| *choice == NONE || targets.contains(choice))
}

fn hold(lent: &[Lent<u16>; 3], rows: &[Vec<u16>; 3]) -> bool {
    lent.iter().zip(rows).all(|(lent, row)| lent.holds(row))
}

fn escaped(text: &[u8]) -> String {
    text.escape_ascii().to_string()
}

/// Prints a mismatch in one piece, since the other thread may print too.
fn show(job: usize, subject: &Subject, plate: &[u8], given: &Given, model: &dyn Debug, library: &dyn Debug) {
    let lines = |text: &[u8], length| {
        text.chunks(length).map(|line| format!("  {}\n", line.escape_ascii())).collect::<String>()
    };
    println!(
        "mismatch in {}\nchart\n{}plate\n{}choices {:?}, lengths {:?}, run {:?}, position {:?}, runs {:?}, reports {:?}, \
         positions and index {:?}\nmodel   {model:?}\nlibrary {library:?}",
        JOBS[job],
        lines(subject.text, 12),
        lines(plate, 22),
        given.choices,
        given.lengths,
        given.run,
        given.position,
        given.runs,
        given.reports,
        given.small,
    );
}
