//! What the jobs are given together: a good chart with its plate and choices, and damage to each of them.

use super::damage::{alter, hurt, hurt_chart, hurt_choices, mend_chart, mend_plate, resize, CHART, PLATE};
use super::damage::{hurt_chart_by_blanks, hurt_plate_by_blanks};
use super::random_choices;
use super::rest::hurt_chart_by_rest;
use crate::blanks::leave_out_some;
use crate::capi::{Run, NONE};
use crate::chart::{Chart, Position, POSITIONS};
use crate::model::{plate_text, Subject, LANES};
use crate::random::Random;
use crate::shapes::{drawn_or_rested, SHAPES};
use crate::sheets;

/// What is damaged, with the jobs that are tried on it, by their places among the jobs.
pub const KINDS: [(Kind, &[usize]); 8] = [
    (Kind::Chart, &[0, 1, 2, 3, 4, 5, 6, 7, 8]),
    (Kind::Rest, &[0, 1, 2, 3, 4, 5, 6, 7, 8]),
    (Kind::Blanks, &[0, 1, 2, 3, 4, 5, 6, 7, 8]),
    (Kind::PlateText, &[2, 3, 5, 6, 7]),
    (Kind::PlateNumbers, &[2, 3, 3, 5, 6, 7]),
    (Kind::Choices, &[4, 4, 5]),
    (Kind::Run, &[6, 7, 7]),
    (Kind::Lengths, &[0, 1, 2, 4, 5, 8]),
];

#[derive(Clone, Copy, PartialEq, Eq)]
pub enum Kind {
    Chart,
    /// A position of rest of the chart, or what becomes one.
    Rest,
    /// Blanks in the chart or in the plate.
    Blanks,
    PlateText,
    PlateNumbers,
    Choices,
    Run,
    Lengths,
}

/// What the jobs are given.
pub struct Setting {
    good: Chart,
    /// The values of its positions, and how many good moves it has.
    values: Vec<u16>,
    good_moves: usize,
    pub chart: Vec<u8>,
    pub plate: Vec<u8>,
    pub choices: Vec<u16>,
    odd_run: bool,
    odd_lengths: bool,
}

/// What calls are given besides: the lengths of lent rows and of the buffers for a plate and for a sheet of good moves, where a
/// run starts, a run and its report.
pub struct Besides {
    pub rows: [usize; 3],
    pub buffer: usize,
    pub sheet: usize,
    pub start: usize,
    pub run: Run,
    pub to: usize,
}

/// Mostly small charts, where each line matters; a few up to full size.
pub fn good_chart(random: &mut Random) -> Chart {
    let n = match random.below(1000) {
        0..=2 => random.between(41, POSITIONS),
        3..=99 => random.between(11, 40),
        _ => random.between(1, 10),
    };
    let shape = *random.pick(&SHAPES);
    drawn_or_rested(random, n, shape)
}

impl Setting {
    pub fn good(random: &mut Random) -> Setting {
        let good = good_chart(random);
        let mut setting = Setting::of(random, good);
        leave_out_some(random, &mut setting.chart);
        setting
    }

    /// A chart with its plate, and the plate's choices or others.
    pub fn of(random: &mut Random, good: Chart) -> Setting {
        let chart = good.text();
        let subject = Subject::new(&chart);
        let plate = plate_text(&subject.valuation(&good).plate());
        let choices = match random.chance(50) {
            true => subject.valuation(&good).choices.clone(),
            false => random_choices(random, &good),
        };
        let values = subject.valuation(&good).values.clone();
        let good_moves = sheets::room(&subject) / sheets::LINE;
        Setting { good, values, good_moves, chart, plate, choices, odd_run: false, odd_lengths: false }
    }

    pub fn damage(&mut self, random: &mut Random, kind: Kind) {
        match kind {
            Kind::Chart => self.damage_chart(random),
            Kind::Rest => hurt_chart_by_rest(random, &mut self.chart),
            Kind::Blanks if random.chance(80) => hurt_chart_by_blanks(random, &mut self.chart),
            Kind::Blanks => hurt_plate_by_blanks(random, &mut self.plate),
            Kind::PlateText => {
                for _ in 0..*random.pick(&[1, 1, 1, 2, 3]) {
                    hurt(random, &mut self.plate, PLATE);
                }
                if random.chance(2) {
                    self.plate.clear();
                }
            }
            Kind::PlateNumbers => self.damage_numbers(random),
            Kind::Choices => hurt_choices(random, &mut self.choices),
            Kind::Run => self.odd_run = true,
            Kind::Lengths => self.odd_lengths = true,
        }
    }

    fn damage_chart(&mut self, random: &mut Random) {
        for _ in 0..*random.pick(&[1, 1, 1, 2, 3]) {
            match random.chance(70) {
                true => hurt(random, &mut self.chart, CHART),
                false => hurt_chart(random, &mut self.chart),
            }
        }
        if random.chance(50) {
            mend_chart(&mut self.chart);
        }
        if random.chance(1) {
            resize(random, &mut self.chart);
        }
    }

    fn damage_numbers(&mut self, random: &mut Random) {
        let text = self.good.text();
        let mut plate = Subject::new(&text).valuation(&self.good).plate();
        for _ in 0..*random.pick(&[1, 1, 1, 2, 3]) {
            alter(random, &self.good, &mut plate);
        }
        if random.chance(60) {
            mend_plate(&mut plate);
        }
        self.plate = plate_text(&plate);
    }

    pub fn besides(&self, random: &mut Random) -> Besides {
        let n = self.good.len();
        let run = self.run(random);
        Besides {
            rows: [0; 3].map(|_| self.length(random, n, 1)),
            buffer: self.length(random, n + 1, PLATE),
            sheet: self.length(random, self.good_moves, sheets::LINE),
            start: self.start(random),
            run,
            to: self.went(random, run),
        }
    }

    /// How much is lent for `count` things of `size`.
    pub fn length(&self, random: &mut Random, count: usize, size: usize) -> usize {
        let exact = count * size;
        if !self.odd_lengths {
            return exact + random.below(3);
        }
        match random.below(8) {
            0 => 0,
            1 => exact.saturating_sub(1),
            2 => random.below(exact.max(1)),
            3 => exact + random.below(50),
            _ => exact,
        }
    }

    /// A position on the chart, or, for an odd run, perhaps past it: also where a cut to 16 or 32 bits would be on it.
    pub fn start(&self, random: &mut Random) -> usize {
        let n = self.good.len();
        let inside = random.below(n);
        if !self.odd_run || random.chance(40) {
            return inside;
        }
        *random.pick(&[n, n + 1, usize::from(NONE), inside + (1 << 16), inside + (1 << 32), usize::MAX])
    }

    /// The two rows of a house, mostly of a few lanes. Lengths that are odd may be none, too many or unequal.
    pub fn house(&self, random: &mut Random) -> (Vec<Run>, Vec<u16>) {
        let most = *random.pick(&[1, 2, 3, 5, LANES]);
        let lanes = random.between(1, most);
        let silent = *random.pick(&[20, 50, 80, 100]);
        let runs: Vec<Run> = (0..lanes).map(|_| self.run(random)).collect();
        let reports = runs.iter().map(|&run| match random.chance(silent) {
            true => NONE,
            false => self.went(random, run).min(usize::from(NONE)) as u16,
        });
        let mut rows = (runs.clone(), reports.collect());
        if self.odd_lengths {
            self.resize_rows(random, &mut rows);
        }
        rows
    }

    fn resize_rows(&self, random: &mut Random, (runs, reports): &mut (Vec<Run>, Vec<u16>)) {
        let (lanes, any) = (runs.len(), random.below(LANES + 8));
        let lengths = match random.below(10) {
            0 => (0, 0),
            1 => (0, lanes),
            2 => (lanes, 0),
            3 => (lanes, lanes - 1),
            4 => (lanes, lanes + 1),
            5 => (lanes, any),
            6 => (LANES + 1, LANES + 1),
            7 => (LANES + 1 + any, LANES + 1 + any),
            _ => (lanes, lanes),
        };
        runs.resize(lengths.0, runs[0]);
        reports.resize(lengths.1, reports[0]);
    }

    fn run(&self, random: &mut Random) -> Run {
        let position = random.below(self.good.len());
        if !self.odd_run {
            let (seen, initial) = (random.below(20) as u32, random.below(5) as u16);
            return Run { position, seen, initial, value: self.held(random, position) };
        }
        let any = random.word() as u32;
        let seen = *random.pick(&[0, 1, 99_997, 99_998, 99_999, 100_000, u32::MAX, any]);
        let position = if random.chance(70) { position } else { self.start(random) };
        Run { position, seen, initial: random.word() as u16, value: self.held(random, position) }
    }

    /// The value that a run holds: mostly that of its position, and else one off, "ever" or any number.
    fn held(&self, random: &mut Random, position: usize) -> u16 {
        let right = self.values.get(position).copied().unwrap_or(0);
        match random.below(20) {
            0 => right.wrapping_add(1),
            1 => right.wrapping_sub(1),
            2 => NONE,
            3 => random.word() as u16,
            _ => right,
        }
    }

    /// Where the machine went: mostly by a move of the position it was at.
    fn went(&self, random: &mut Random, run: Run) -> usize {
        let moves: Option<&Position> = self.good.positions.get(run.position);
        let by = |random: &mut Random, list: &[u16]| usize::from(*random.pick(list));
        match (random.below(10), moves) {
            (0..=4, Some(position)) if !position.disturbances.is_empty() => by(random, &position.disturbances),
            (0..=7, Some(position)) if !position.meant.is_empty() => by(random, &position.meant),
            (0..=8, _) => random.below(self.good.len()),
            _ => self.start(random),
        }
    }
}
