//! The model: every job of document 01, put as plainly as the document puts it. Speed is of no concern here; the values
//! come from their definition and not from rounds.

mod check;
mod good;
mod house;
mod parse;
mod plate;
mod ruin;
mod run;
mod small;
mod values;
mod weigh;

use crate::capi::{Compared, FirstLine, House, Indexed, Listed, Reading, Refusal, Run, Step, Valued, Written};
use crate::chart::Chart;
use std::cell::OnceCell;

pub use house::LANES;
pub use plate::{plate_text, Plate};
pub use ruin::{through, Play, Visit, Ways};
pub use small::{charts_in_order, COUNTS};
pub use values::{summed, Valuation};

/// Three rows: values, choices, steps. They are empty where a job refuses.
pub type Rows = [Vec<u16>; 3];

/// A chart's text with what the model knows of it.
pub struct Subject<'a> {
    pub text: &'a [u8],
    parsed: Result<Chart, Refusal>,
    valuation: OnceCell<Valuation>,
    good: OnceCell<Vec<Vec<u16>>>,
}

/// A refusal that gives a line.
fn refused_at(number: u32, line: usize) -> Refusal {
    Refusal { number, line, ..Refusal::default() }
}

/// A refusal that gives nothing but its number.
fn refused(number: u32) -> Refusal {
    refused_at(number, 0)
}

impl<'a> Subject<'a> {
    pub fn new(text: &'a [u8]) -> Subject<'a> {
        Subject { text, parsed: parse::parse(text), valuation: OnceCell::new(), good: OnceCell::new() }
    }

    pub fn chart(&self) -> Result<&Chart, Refusal> {
        self.parsed.as_ref().map_err(|&refusal| refusal)
    }

    pub fn valuation(&self, chart: &Chart) -> &Valuation {
        self.valuation.get_or_init(|| Valuation::of(chart))
    }

    /// The targets of each position's good moves.
    pub fn good(&self, chart: &Chart) -> &[Vec<u16>] {
        self.good.get_or_init(|| good::targets(chart, &self.valuation(chart).values))
    }

    /// The least worth at each position of all controllers that make only good moves, whatever they remember.
    pub fn least_good_worths(&self, chart: &Chart) -> Vec<u16> {
        weigh::least_worths(chart, |v| &self.good(chart)[v])
    }

    /// Valuing, with rows of these lengths lent.
    pub fn value(&self, lengths: [usize; 3]) -> (Valued, Rows) {
        match self.valued(lengths) {
            Ok(valuation) => (
                Valued { refusal: Refusal::default(), rounds: valuation.first_line.rounds },
                [valuation.values.clone(), valuation.choices.clone(), valuation.steps.clone()],
            ),
            Err(refusal) => (Valued { refusal, ..Valued::default() }, Rows::default()),
        }
    }

    fn valued(&self, lengths: [usize; 3]) -> Result<&Valuation, Refusal> {
        let chart = self.chart()?;
        long_enough(chart, &lengths)?;
        Ok(self.valuation(chart))
    }

    /// Writing, with a buffer of this length lent.
    pub fn write(&self, length: usize) -> (Written, Vec<u8>) {
        match self.written(length) {
            Ok(text) => (Written { refusal: Refusal::default(), length: text.len() }, text),
            Err(refusal) => (Written { refusal, length: 0 }, Vec::new()),
        }
    }

    fn written(&self, length: usize) -> Result<Vec<u8>, Refusal> {
        let chart = self.chart()?;
        if length < 22 * (chart.len() + 1) {
            return Err(refused(10));
        }
        Ok(plate_text(&self.valuation(chart).plate()))
    }

    /// Reading, with rows of these lengths lent.
    pub fn read(&self, plate: &[u8], lengths: [usize; 3]) -> (Reading, Rows) {
        match self.plate_read(plate, lengths) {
            Ok(plate) => (
                Reading { refusal: Refusal::default(), first_line: plate.first_line },
                [plate.values, plate.choices, plate.steps],
            ),
            Err(refusal) => (Reading { refusal, first_line: FirstLine::default() }, Rows::default()),
        }
    }

    fn plate_read(&self, plate: &[u8], lengths: [usize; 3]) -> Result<Plate, Refusal> {
        let chart = self.chart()?;
        long_enough(chart, &lengths)?;
        plate::parse(chart.len(), plate)
    }

    /// Checking.
    pub fn check(&self, plate: &[u8]) -> Refusal {
        self.checked(plate).err().unwrap_or_default()
    }

    fn checked(&self, plate: &[u8]) -> Result<(), Refusal> {
        let chart = self.chart()?;
        check::accepted(chart, &plate::parse(chart.len(), plate)?)
    }

    /// Weighing, with a row of this length lent for the worths.
    pub fn weigh(&self, choices: &[u16], length: usize) -> (Refusal, Vec<u16>) {
        match self.weighed(choices, length) {
            Ok(worths) => (Refusal::default(), worths),
            Err(refusal) => (refusal, Vec::new()),
        }
    }

    fn weighed(&self, choices: &[u16], length: usize) -> Result<Vec<u16>, Refusal> {
        let chart = self.chart()?;
        long_enough(chart, &[choices.len(), length])?;
        weigh::legal(chart, choices)?;
        Ok(weigh::worths(chart, choices))
    }

    /// Comparing.
    pub fn compare(&self, plate: &[u8], choices: &[u16]) -> Compared {
        self.compared(plate, choices).unwrap_or_else(|refusal| Compared { refusal, ..Compared::default() })
    }

    fn compared(&self, plate: &[u8], choices: &[u16]) -> Result<Compared, Refusal> {
        let chart = self.chart()?;
        long_enough(chart, &[choices.len()])?;
        let plate = plate::parse(chart.len(), plate)?;
        weigh::legal(chart, choices)?;
        check::accepted(chart, &plate)?;
        let worths = weigh::worths(chart, choices);
        let differing = (0..chart.len()).find(|&v| plate.values[v] != worths[v]);
        Ok(match differing {
            None => Compared { agree: 1, ..Compared::default() },
            Some(position) => {
                Compared { position, value: plate.values[position], worth: worths[position], ..Compared::default() }
            }
        })
    }

    /// Start.
    pub fn start(&self, plate: &[u8], position: usize) -> Step {
        self.chart().and_then(|chart| run::start(chart, plate, position)).unwrap_or_else(|refusal| Step {
            refusal,
            run: Run::NONE,
            ..Step::default()
        })
    }

    /// Report.
    pub fn report(&self, run: Run, plate: &[u8], to: usize) -> Step {
        self.chart().and_then(|chart| run::report(chart, run, plate, to)).unwrap_or_else(|refusal| Step {
            refusal,
            run,
            ..Step::default()
        })
    }

    /// The report of a house, and the records after it.
    pub fn report_house(&self, runs: &[Run], reports: &[u16], plate: &[u8]) -> (House, Vec<Run>) {
        match house::report(self, runs, reports, plate) {
            Ok((moved, after)) => (House { moved, ..House::default() }, after),
            Err((lane, refusal)) => (House { refusal, lane, moved: 0 }, runs.to_vec()),
        }
    }

    /// Listing, with a buffer of this length lent.
    pub fn good_moves(&self, length: usize) -> (Listed, Vec<u8>) {
        match self.listed(length) {
            Ok((lines, sheet)) => (Listed { refusal: Refusal::default(), lines }, sheet),
            Err(refusal) => (Listed { refusal, lines: 0 }, Vec::new()),
        }
    }

    fn listed(&self, length: usize) -> Result<(usize, Vec<u8>), Refusal> {
        let good = self.good(self.chart()?);
        let lines = good.iter().map(Vec::len).sum();
        if length < 12 * lines {
            return Err(refused(10));
        }
        Ok((lines, good::sheet(good)))
    }

    /// The play that Ruin is to write, or why there is none, whatever the room for it.
    pub fn play_to_ruin(&self, choices: &[u16], position: usize) -> Result<Play, Refusal> {
        let chart = self.chart()?;
        long_enough(chart, &[choices.len()])?;
        weigh::legal(chart, choices)?;
        if position >= chart.len() {
            return Err(refused(13));
        }
        ruin::shortest(&Ways { chart, choices }, position as u16).ok_or(refused(19))
    }

    /// The index of a small chart.
    pub fn small_index(&self) -> Indexed {
        match self.chart().and_then(|chart| small::index(chart).ok_or(refused(21))) {
            Ok(index) => Indexed { refusal: Refusal::default(), index },
            Err(refusal) => Indexed { refusal, index: 0 },
        }
    }
}

/// The small chart with some index, with a buffer of this length lent: its text, if there is such a chart.
pub fn small_chart(text: Option<&[u8]>, length: usize) -> (Written, Vec<u8>) {
    match text.ok_or(refused(21)).and_then(|text| fitting(text.to_vec(), length)) {
        Ok(text) => (Written { refusal: Refusal::default(), length: text.len() }, text),
        Err(refusal) => (Written { refusal, length: 0 }, Vec::new()),
    }
}

/// Ruin, with a buffer of this length lent for its play.
pub fn ruin(play: &Result<Play, Refusal>, length: usize) -> (Listed, Vec<u8>) {
    let sheet = play.as_ref().map(|play| ruin::sheet(play)).map_err(|&refusal| refusal);
    match sheet.and_then(|sheet| fitting(sheet, length)) {
        Ok(sheet) => (Listed { refusal: Refusal::default(), lines: sheet.len() / 12 }, sheet),
        Err(refusal) => (Listed { refusal, lines: 0 }, Vec::new()),
    }
}

/// Refusal 10: a text fits into a buffer of this length.
fn fitting(text: Vec<u8>, length: usize) -> Result<Vec<u8>, Refusal> {
    if length < text.len() {
        return Err(refused(10));
    }
    Ok(text)
}

/// Refusal 10: each lent row has a number for each position.
fn long_enough(chart: &Chart, lengths: &[usize]) -> Result<(), Refusal> {
    if lengths.iter().any(|&length| length < chart.len()) {
        return Err(refused(10));
    }
    Ok(())
}
