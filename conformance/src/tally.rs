//! What was tried: inputs, calls, how often each job gave each refusal, and what was seen of blanks, of good moves, of
//! positions of rest, of reports with other texts, of ways to ruin, of houses of lanes and of small charts.

use crate::{blanks, houses, indices, rests, sheets, swaps, ways};

/// The jobs, in the order in which the documents name them.
pub const JOBS: [&str; 14] = [
    "value", "write", "read", "check", "weigh", "compare", "start", "report", "good", "ruin", "house", "plain",
    "small", "index",
];

/// The job that is lent no chart to read, and so has no refusal of a chart.
const SMALL: usize = 12;

/// The refusals of the table, with 0 for none.
const NUMBERS: usize = 22;

/// The refusals from 10 to 16 and from 18 on that each job has.
#[rustfmt::skip]
const BEYOND: [&[usize]; JOBS.len()] = [
    &[10], &[10], &[10, 11], &[11, 14], &[10, 12], &[10, 11, 12, 14], &[11, 13, 14], &[11, 13, 14, 15, 16, 18], &[10],
    &[10, 12, 13, 19], &[11, 13, 14, 15, 16, 18, 20], &[10], &[10, 21], &[21],
];

/// Fewer sightings than this of a refusal or a condition are too few to count as a test of it.
const ENOUGH: u64 = 100;

#[derive(Clone, Default)]
pub struct Tally {
    pub inputs: u64,
    pub calls: u64,
    pub refusals: [[u64; NUMBERS]; JOBS.len()],
    /// The conditions of refusal 14, 1 to 6.
    pub conditions: [u64; 7],
    /// Comparisons that found the rows the same, and that found them different.
    pub agreed: u64,
    pub differed: u64,
    /// How often each of the sights of blanks was seen.
    pub blanks: [u64; blanks::SIGHTS.len()],
    /// Pairs of a chart with blank marks and the same with 0 that were taken, and that were refused.
    pub pairs_taken: u64,
    pub pairs_refused: u64,
    /// How often each of the sights of good moves was seen.
    pub sheets: [u64; sheets::SIGHTS.len()],
    /// Positional controllers all of whose choices are listed, and those with another choice.
    pub listed: u64,
    pub unlisted: u64,
    /// How often each of the sights of positions of rest was seen, in charts and in calls.
    pub rests: [u64; rests::CHARTS.len()],
    pub rest_calls: [u64; rests::CALLS.len()],
    /// How often each of the sights of reports with other texts was seen.
    pub swaps: [u64; swaps::SIGHTS.len()],
    /// How often each of the sights of ways to ruin was seen.
    pub ways: [u64; ways::SIGHTS.len()],
    /// How often each of the sights of houses was seen.
    pub houses: [u64; houses::SIGHTS.len()],
    /// How often each of the sights of small charts and of their indices was seen.
    pub small_charts: [u64; indices::CHARTS.len()],
    pub small_indices: [u64; indices::INDICES.len()],
}

impl Tally {
    pub fn add(&mut self, other: &Tally) {
        self.inputs += other.inputs;
        self.calls += other.calls;
        self.agreed += other.agreed;
        self.differed += other.differed;
        self.pairs_taken += other.pairs_taken;
        self.pairs_refused += other.pairs_refused;
        self.listed += other.listed;
        self.unlisted += other.unlisted;
        add_each(self.refusals.as_flattened_mut(), other.refusals.as_flattened());
        add_each(&mut self.conditions, &other.conditions);
        add_each(&mut self.blanks, &other.blanks);
        add_each(&mut self.sheets, &other.sheets);
        add_each(&mut self.rests, &other.rests);
        add_each(&mut self.rest_calls, &other.rest_calls);
        add_each(&mut self.swaps, &other.swaps);
        add_each(&mut self.ways, &other.ways);
        add_each(&mut self.houses, &other.houses);
        add_each(&mut self.small_charts, &other.small_charts);
        add_each(&mut self.small_indices, &other.small_indices);
    }

    /// Counts what a report with other texts shows.
    pub fn note_swap(&mut self, sights: [bool; swaps::SIGHTS.len()]) {
        self.swaps.iter_mut().zip(sights).for_each(|(count, seen)| *count += u64::from(seen));
    }

    /// Prints how often each job gave each refusal.
    pub fn print(&self) {
        print!("{:>8}", "refusal");
        JOBS.iter().for_each(|job| print!("{job:>10}"));
        println!();
        for number in 0..NUMBERS {
            let name = if number == 0 { "none".to_string() } else { number.to_string() };
            print!("{name:>8}");
            for job in 0..JOBS.len() {
                match has(job, number) {
                    true => print!("{:>10}", self.refusals[job][number]),
                    false => print!("{:>10}", "."),
                }
            }
            println!();
        }
        let conditions: Vec<String> = (1..7).map(|c| format!("{c}: {}", self.conditions[c])).collect();
        println!("conditions of refusal 14: {}", conditions.join(", "));
        println!("comparisons: {} the same, {} different", self.agreed, self.differed);
        print_sights("blanks", &blanks::SIGHTS, &self.blanks);
        println!("pairs of blank marks and 0: {} taken, {} refused", self.pairs_taken, self.pairs_refused);
        print_sights("good moves", &sheets::SIGHTS, &self.sheets);
        println!("controllers: {} with listed choices only, {} with others", self.listed, self.unlisted);
        print_sights("charts and R", &rests::CHARTS, &self.rests);
        print_sights("calls at R", &rests::CALLS, &self.rest_calls);
        print_sights("reports with other texts", &swaps::SIGHTS, &self.swaps);
        print_sights("ways to ruin", &ways::SIGHTS, &self.ways);
        print_sights("houses", &houses::SIGHTS, &self.houses);
        print_sights("small charts", &indices::CHARTS, &self.small_charts);
        print_sights("indices of charts", &indices::INDICES, &self.small_indices);
    }

    /// What was seen too seldom for this to be a test of it, if all counts of inputs were divided by `divisor`.
    pub fn missing(&self, divisor: usize) -> Vec<String> {
        let mut missing = Vec::new();
        let enough = (ENOUGH / divisor as u64).max(1);
        let mut want = |count: u64, name: String| {
            if count < enough {
                missing.push(format!("{name} was seen {count} times only"));
            }
        };
        for (job, name) in JOBS.iter().enumerate() {
            for number in (0..NUMBERS).filter(|&number| has(job, number)) {
                want(self.refusals[job][number], format!("{name} with refusal {number}"));
            }
        }
        for condition in 1..7 {
            want(self.conditions[condition], format!("condition {condition}"));
        }
        want(self.agreed, "agreement of worths and values".to_string());
        want(self.differed, "difference of worths and values".to_string());
        for (of, names, counts) in self.sights() {
            names.iter().zip(counts).for_each(|(name, &count)| want(count, format!("{of}, {name},")));
        }
        want(self.listed, "a controller with listed choices only".to_string());
        want(self.unlisted, "a controller with a choice that is not listed".to_string());
        want(self.pairs_taken, "a pair of blank marks and 0 that is taken".to_string());
        want(self.pairs_refused, "a pair of blank marks and 0 that is refused".to_string());
        missing
    }

    /// What is seen of inputs and calls beside the refusals.
    fn sights(&self) -> [Sights<'_>; 9] {
        [
            ("a blank", &blanks::SIGHTS, &self.blanks),
            ("a sheet of good moves", &sheets::SIGHTS, &self.sheets),
            ("a chart and R", &rests::CHARTS, &self.rests),
            ("a call at R", &rests::CALLS, &self.rest_calls),
            ("a report with other texts", &swaps::SIGHTS, &self.swaps),
            ("a way to ruin", &ways::SIGHTS, &self.ways),
            ("a house", &houses::SIGHTS, &self.houses),
            ("a small chart", &indices::CHARTS, &self.small_charts),
            ("an index", &indices::INDICES, &self.small_indices),
        ]
    }
}

/// Sights of one kind: the kind, their names and how often each was seen.
type Sights<'a> = (&'static str, &'static [&'static str], &'a [u64]);

fn add_each(sums: &mut [u64], parts: &[u64]) {
    sums.iter_mut().zip(parts).for_each(|(sum, part)| *sum += part);
}

fn print_sights(of: &str, names: &[&str], counts: &[u64]) {
    let sights: Vec<String> = names.iter().zip(counts).map(|(name, count)| format!("{name}: {count}")).collect();
    sights.chunks(4).for_each(|some| println!("{of}: {}", some.join(", ")));
}

/// Whether a job has a refusal. All that read a chart have 1 to 9 and 17.
fn has(job: usize, number: usize) -> bool {
    match number {
        0 => true,
        1..=9 | 17 => job != SMALL,
        _ => BEYOND[job].contains(&number),
    }
}
