//! The timings: the library, through its C interface, beside the fast solver in Rust, on the same inputs in one run. With
//! the word `ways` only the section in which the library's two ways of Valuing stand side by side.

use conformance::blanks::leave_out;
use conformance::capi::{self, Listed, Run};
use conformance::chart::{Chart, Owner, Position, MOVES, POSITIONS};
use conformance::measure::{stack, times};
use conformance::model::{Subject, LANES};
use conformance::random::Random;
use conformance::shapes::{
    all_good, blocks, console_chain, drawn, filled, lane_chain, rest_chain, rested, Reach, Shape,
};
use conformance::solver;
use conformance::stacks::{first_report, full_house, stacks};
use std::hint::black_box;
use std::process::ExitCode;

mod both_ways;
mod lines;
mod small;

const JOBS: [&str; 6] = ["value", "write", "check", "weigh", "good", "ruin"];

/// How many drawn plates, sheets or small charts take turns.
const TURNS: usize = 64;

/// The shape of the random charts with an even mix.
const EVEN: Shape = Shape { lane: 30, hazards: 5, meant: 8, disturbances: 8, reach: Reach::Anywhere };

/// What the jobs are given: a chart with its plate, the plate's choices, a run with a report, a full house with its reports, and
/// the position with the longest way to ruin; and what is to be answered, the count of good moves and that of the way's lines.
struct Input {
    chart: Vec<u8>,
    plate: Vec<u8>,
    choices: Vec<u16>,
    report: (Run, usize),
    house: ([Run; LANES], [u16; LANES]),
    good_moves: usize,
    position: usize,
    way: Listed,
}

impl Input {
    fn new(chart: &Chart) -> Input {
        let text = chart.text();
        let subject = Subject::new(&text);
        let (_, plate) = subject.write(22 * (chart.len() + 1));
        let choices = subject.valuation(chart).choices.clone();
        let (report, house) = (first_report(&subject, chart), full_house(&subject, chart));
        let good_moves = subject.good_moves(12 * MOVES).0.lines;
        let ruin = |position| solver::ruin(&text, &choices, position, &mut [0; 12 * POSITIONS]);
        // Where there is no way from anywhere, 19 is answered from every position.
        let position = (0..chart.len()).max_by_key(|&position| ruin(position).lines).expect("there is a position");
        let way = ruin(position);
        Input { plate, choices, report, house, good_moves, position, way, chart: text }
    }
}

/// What is lent for answers, used again at each call.
struct Lent {
    rows: [[u16; POSITIONS]; 3],
    plate: [u8; 22 * (POSITIONS + 1)],
    sheet: [u8; 12 * MOVES],
    way: [u8; 12 * POSITIONS],
}

impl Lent {
    fn new() -> Lent {
        let (plate, sheet) = ([0; 22 * (POSITIONS + 1)], [0; 12 * MOVES]);
        Lent { rows: [[0; POSITIONS]; 3], plate, sheet, way: [0; 12 * POSITIONS] }
    }
}

fn library(job: usize, input: &Input, lent: &mut Lent) {
    let input = black_box(input);
    let [values, choices, steps] = &mut lent.rows;
    match job {
        0 => assert_eq!(capi::value(&input.chart, values, choices, steps).refusal.number, 0),
        1 => assert_eq!(capi::write(&input.chart, &mut lent.plate).length, input.plate.len()),
        2 => assert_eq!(capi::check(&input.chart, &input.plate).number, 0),
        3 => assert_eq!(capi::weigh(&input.chart, &input.choices, values).number, 0),
        4 => assert_eq!(capi::good_moves(&input.chart, &mut lent.sheet).lines, input.good_moves),
        _ => assert_eq!(capi::ruin(&input.chart, &input.choices, input.position, &mut lent.way), input.way),
    }
    black_box(lent);
}

fn rust(job: usize, input: &Input, lent: &mut Lent) {
    let input = black_box(input);
    let [values, choices, steps] = &mut lent.rows;
    match job {
        0 => assert_eq!(solver::value(&input.chart, values, choices, steps).refusal.number, 0),
        1 => assert_eq!(solver::write(&input.chart, &mut lent.plate).length, input.plate.len()),
        2 => assert_eq!(solver::check(&input.chart, &input.plate).number, 0),
        3 => assert_eq!(solver::weigh(&input.chart, &input.choices, values).number, 0),
        4 => assert_eq!(solver::good_moves(&input.chart, &mut lent.sheet).lines, input.good_moves),
        _ => assert_eq!(solver::ruin(&input.chart, &input.choices, input.position, &mut lent.way), input.way),
    }
    black_box(lent);
}

/// Both programs on one input, after a look that they answer alike.
fn both(job: usize, input: &Input) -> [f64; 2] {
    let (mut one, mut other) = (Lent::new(), Lent::new());
    library(job, input, &mut one);
    rust(job, input, &mut other);
    let sheets_alike = one.plate == other.plate && one.sheet == other.sheet && one.way == other.way;
    assert!(one.rows == other.rows && sheets_alike, "the two answer alike");
    times([&mut || library(job, input, &mut one), &mut || rust(job, input, &mut other)])
}

/// Both programs on reading alone: Valuing reads the whole chart, and then refuses rows that are too short (10).
fn reading_alone(chart: &[u8]) -> [f64; 2] {
    let short = |number| assert_eq!(number, 10, "the chart is accepted, the rows are short");
    let mut library = || short(capi::value(black_box(chart), &mut [], &mut [], &mut []).refusal.number);
    let mut rust = || short(solver::value(black_box(chart), &mut [], &mut [], &mut []).refusal.number);
    times([&mut library, &mut rust])
}

fn shaped(n: usize, moves: usize, shape: Shape) -> Chart {
    filled(drawn(&mut Random::new(7), n, shape), moves, |_, _, _| true)
}

/// An even mix with a third of the positions at rest.
fn third_at_rest() -> Chart {
    let mut random = Random::new(7);
    let chart = drawn(&mut random, POSITIONS, EVEN);
    filled(rested(&mut random, chart, 33), MOVES, |_, _, _| true)
}

/// Each position with so many meant moves and, at O, so many disturbances, to different targets drawn at random.
fn dense(n: usize, meant: usize, disturbances: usize) -> Chart {
    let mut random = Random::new(11);
    let mut targets = |count: usize| {
        let mut list: Vec<u16> = (0..n as u16).collect();
        while list.len() > count {
            list.swap_remove(random.below(list.len()));
        }
        list.sort_unstable();
        list
    };
    let owner = |v: usize| if disturbances == 0 && v % 2 == 0 { Owner::Lane } else { Owner::Console };
    let mut position = |v: usize| Position {
        owner: owner(v),
        safe: v > 1,
        meant: targets(meant),
        disturbances: targets(disturbances),
    };
    Chart { positions: (0..n).map(&mut position).collect() }
}

#[rustfmt::skip]
fn kinds() -> Vec<(&'static str, Chart)> {
    let any = Reach::Anywhere;
    let shape = |lane, hazards, meant, disturbances, reach| Shape { lane, hazards, meant, disturbances, reach };
    let full = |shape| shaped(POSITIONS, MOVES, shape);
    vec![
        ("random, even mix", full(EVEN)),
        ("random, many unsafe", full(shape(50, 40, 12, 4, any))),
        ("random, many disturbances", full(shape(5, 1, 2, 14, any))),
        ("random, near targets", full(shape(10, 2, 8, 6, Reach::Near(6)))),
        ("chain of L, 512 rounds", lane_chain(POSITIONS, MOVES)),
        ("chain of O, 512 rounds", console_chain(POSITIONS, MOVES)),
        ("512 values", blocks(POSITIONS, MOVES, 1)),
        ("32 values, 16 steps each", blocks(POSITIONS, MOVES, 16)),
        ("all moves good", all_good(POSITIONS, MOVES)),
        ("random, a third at rest", third_at_rest()),
        ("512 values, all at rest", rest_chain(POSITIONS, MOVES)),
        ("64 positions, 64 meant each", dense(64, 64, 0)),
        ("64 positions, 32 and 32 each", dense(64, 32, 32)),
    ]
}

fn full_charts() {
    println!("\nCharts with 4,096 moves, 512 positions where not said otherwise. Microseconds a call.\n");
    println!("{:<32}{:<8}{:>10}{:>10}{:>8}", "chart", "job", "library", "Rust", "ratio");
    for (name, chart) in kinds() {
        let input = Input::new(&chart);
        assert_eq!(chart.moves(), MOVES, "{name}");
        for (job, title) in JOBS.iter().enumerate() {
            let [library, rust] = both(job, &input);
            println!("{name:<32}{title:<8}{library:>10.1}{rust:>10.1}{:>8.2}", library / rust);
        }
    }
}

fn reading() {
    println!("\nReading alone: Valuing with rows too short, refused once the chart is read. Microseconds a call.\n");
    println!("{:<40}{:>10}{:>10}{:>8}", "chart", "library", "Rust", "ratio");
    for (name, chart) in kinds().into_iter().chain(small_kinds()) {
        let mut text = chart.text();
        reading_row(name, &text);
        if name.ends_with("even mix") {
            leave_out(&mut text, |_| true);
            reading_row(&format!("{name}, blank marks"), &text);
        }
    }
}

fn reading_row(name: &str, chart: &[u8]) {
    let [library, rust] = reading_alone(chart);
    println!("{name:<40}{library:>10.2}{rust:>10.2}{:>8.2}", library / rust);
}

/// A report is one Checking and the look at the move; there is no second program to set it against.
fn reports() {
    println!("\nA report beside Checking of the same texts, both the library's. Microseconds a call.\n");
    println!("{:<40}{:>10}{:>10}{:>8}", "chart", "report", "check", "ratio");
    for (name, chart) in kinds().into_iter().chain(small_kinds()) {
        let input = &Input::new(&chart);
        let (run, to) = input.report;
        let taken = |number| assert_eq!(number, 0, "nothing was refused");
        let [report, check] = times([
            &mut || taken(capi::report(black_box(run), &input.chart, &input.plate, to).refusal.number),
            &mut || taken(capi::check(black_box(&input.chart), &input.plate).number),
        ]);
        println!("{name:<40}{report:>10.2}{check:>10.2}{:>8.2}", report / check);
    }
}

/// A full house all over the chart: it checks its plate once, so it should cost little more than one report.
fn houses() {
    println!(
        "\nA house of 64 lanes that all report beside a single report with the same texts, and beside 64 of these,"
    );
    println!("all the library's. Microseconds a call, and the multiple of one report's.\n");
    println!("{:<40}{:>10}{:>10}{:>12}{:>8}", "chart", "house", "report", "64 reports", "ratio");
    for (name, chart) in kinds().into_iter().chain(small_kinds()) {
        let input = &Input::new(&chart);
        let ((run, to), (runs, reports)) = (input.report, &input.house);
        let single = || assert_eq!(capi::report(black_box(run), &input.chart, &input.plate, to).refusal.number, 0);
        let mut lanes = *runs;
        let mut house = || {
            lanes.copy_from_slice(black_box(runs));
            assert_eq!(capi::report_house(&mut lanes, reports, &input.chart, &input.plate).moved, LANES);
        };
        let [house, report, all] = times([&mut house, &mut || single(), &mut || (0..LANES).for_each(|_| single())]);
        println!("{name:<40}{house:>10.2}{report:>10.2}{all:>12.2}{:>8.2}", house / report);
    }
}

/// A way to ruin, the longest of its chart, beside Valuing and Weighing.
fn ways_to_ruin() {
    println!(
        "\nThe longest way to ruin by the plate's choices, 0 lines where there is none, beside Valuing and Weighing"
    );
    println!("of the same chart, all the library's. Microseconds a call, and the multiple of Weighing's.\n");
    println!("{:<40}{:>7}{:>10}{:>10}{:>10}{:>8}", "chart", "lines", "ruin", "value", "weigh", "ratio");
    for (name, chart) in kinds().into_iter().chain(small_kinds()) {
        let input = Input::new(&chart);
        let [mut one, mut two, mut three] = [(); 3].map(|()| Lent::new());
        let (mut ruin, mut value) = (|| library(5, &input, &mut one), || library(0, &input, &mut two));
        let [ruin, value, weigh] = times([&mut ruin, &mut value, &mut || library(3, &input, &mut three)]);
        let lines = input.way.lines;
        println!("{name:<40}{lines:>7}{ruin:>10.2}{value:>10.2}{weigh:>10.2}{:>8.2}", ruin / weigh);
    }
}

fn small_kinds() -> [(&'static str, Chart); 2] {
    [("32 positions, even mix", shaped(32, 256, EVEN)), ("32 positions, chain", lane_chain(32, 256))]
}

fn growth() {
    println!("\nGrowth with the chart: n positions and 8 n moves. Microseconds a call, library / Rust.\n");
    print!("{:<10}{:>6}", "chart", "n");
    JOBS.iter().for_each(|job| print!("{job:>18}"));
    println!();
    for name in ["random", "chain"] {
        for n in [32, 64, 128, 256, 512] {
            let chart = if name == "chain" { lane_chain(n, 8 * n) } else { shaped(n, 8 * n, EVEN) };
            let input = Input::new(&chart);
            print!("{name:<10}{n:>6}");
            for job in 0..JOBS.len() {
                let [library, rust] = both(job, &input);
                print!("{:>18}", format!("{library:.1} / {rust:.1}"));
            }
            println!();
        }
    }
}

fn memory() {
    println!("\nStack of a call on a full chart, KiB. Neither program uses the heap.\n");
    println!("{:<8}{:>10}{:>10}", "job", "library", "Rust");
    let (_, chart) = kinds().swap_remove(0);
    let input = &Input::new(&chart);
    let kib = |bytes: usize| format!("{:.1}", bytes as f64 / 1024.0);
    for (title, library) in stacks(&input.chart) {
        let rust = JOBS.iter().position(|job| *job == title).map(|job| {
            let mut lent = Lent::new();
            kib(stack(|| rust(job, input, &mut lent)))
        });
        println!("{title:<8}{:>10}{:>10}", kib(library), rust.unwrap_or_default());
    }
}

fn main() -> ExitCode {
    let words: Vec<String> = std::env::args().skip(1).collect();
    if !words.is_empty() && words != ["ways"] {
        eprintln!("usage: timings [ways]");
        return ExitCode::from(2);
    }
    println!("The library through its C interface beside the fast solver in Rust, both built for release.");
    println!("Each call is a whole job from the chart's text or its index, but where lines alone are timed.");
    println!("Medians of batches that take turns.");
    println!("What is lent is not cleared between calls: answers are written over the last ones.");
    match words.is_empty() {
        true => all(),
        false => both_ways::both_ways(),
    }
    ExitCode::SUCCESS
}

fn all() {
    full_charts();
    both_ways::both_ways();
    reading();
    lines::lines();
    reports();
    houses();
    ways_to_ruin();
    small::small_charts();
    growth();
    memory();
}
