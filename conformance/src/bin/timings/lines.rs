//! Lines alone: rows of numbers set out as a plate's lines or a sheet's, without the job around it, by the library's
//! writers beside Rust's.

use crate::{EVEN, TURNS};
use conformance::capi::FirstLine;
use conformance::chart::{Chart, MOVES, POSITIONS};
use conformance::measure::{in_turn, times};
use conformance::random::Random;
use conformance::shapes::{all_good, blocks, drawn, filled, lane_chain};
use conformance::solver;
use conformance::solver::plate::{self, Plate};
use conformance::solver::sheet;
use std::hint::black_box;

#[rustfmt::skip]
extern "C" {
    fn timed_plate_lines(n: usize, header: FirstLine, values: *const u16, values_length: usize,
                         choices: *const u16, choices_length: usize, steps: *const u16, steps_length: usize,
                         out: *mut u8, out_length: usize);
    fn timed_pair_lines(letter: u8, count: usize, firsts: *const u16, firsts_length: usize,
                        seconds: *const u16, seconds_length: usize, lines: *mut u8, lines_length: usize);
}

/// What a plate's lines are written from.
struct Rows {
    n: usize,
    plate: Plate,
}

impl Rows {
    /// Those of a chart.
    fn of(chart: &Chart) -> Rows {
        let (n, mut plate) = (chart.len(), Plate::empty());
        let valued = solver::value(&chart.text(), &mut plate.values, &mut plate.choices, &mut plate.steps);
        assert_eq!(valued.refusal.number, 0, "the chart is accepted");
        plate.first_line = plate.summed(n, valued.rounds);
        Rows { n, plate }
    }

    /// Every number drawn.
    fn drawn(random: &mut Random) -> Rows {
        let mut plate = Plate::empty();
        for row in [&mut plate.values, &mut plate.choices, &mut plate.steps] {
            row.fill_with(|| random.below(512) as u16);
        }
        plate.first_line = plate.summed(POSITIONS, random.below(512) as u16);
        Rows { n: POSITIONS, plate }
    }

    fn library(&self, out: &mut [u8]) {
        let Plate { first_line, values, choices, steps } = &self.plate;
        assert!(self.n <= POSITIONS && out.len() >= plate::LINE * (self.n + 1), "there is room");
        // Each row has 512 numbers. That and the room is all that is asked for.
        unsafe {
            timed_plate_lines(
                self.n,
                *first_line,
                values.as_ptr(),
                values.len(),
                choices.as_ptr(),
                choices.len(),
                steps.as_ptr(),
                steps.len(),
                out.as_mut_ptr(),
                out.len(),
            )
        }
    }

    fn rust(&self, out: &mut [u8]) {
        self.plate.write(self.n, out);
    }
}

/// What a sheet's lines are written from.
struct Pairs {
    froms: Vec<u16>,
    tos: Vec<u16>,
}

impl Pairs {
    /// The meant moves of a chart, in its order.
    fn of(chart: &Chart) -> Pairs {
        let moves = |(from, targets): (usize, Vec<u16>)| targets.into_iter().map(move |to| (from as u16, to));
        let targets = chart.positions.iter().map(|position| position.meant.clone());
        let (froms, tos) = targets.enumerate().flat_map(moves).unzip();
        Pairs { froms, tos }
    }

    fn drawn(random: &mut Random) -> Pairs {
        let (froms, tos) = (0..MOVES).map(|_| (random.below(512) as u16, random.below(512) as u16)).unzip();
        Pairs { froms, tos }
    }

    fn library(&self, lines: &mut [u8]) {
        let Pairs { froms, tos } = self;
        assert!(froms.len() == tos.len() && lines.len() >= sheet::LINE * froms.len(), "there is room");
        unsafe {
            timed_pair_lines(
                b'G',
                froms.len(),
                froms.as_ptr(),
                froms.len(),
                tos.as_ptr(),
                tos.len(),
                lines.as_mut_ptr(),
                lines.len(),
            )
        }
    }

    fn rust(&self, lines: &mut [u8]) {
        sheet::put_lines(&self.froms, &self.tos, lines);
    }
}

/// Both writers on the things in turn, after a look that they write the same bytes, and all of them.
fn both<T>(things: &[T], size: usize, library: fn(&T, &mut [u8]), rust: fn(&T, &mut [u8])) -> [f64; 2] {
    for thing in things {
        let (mut one, mut other) = (vec![0; size], vec![1; size]);
        library(thing, &mut one);
        rust(thing, &mut other);
        assert!(one == other, "the two write alike");
    }
    let timed = |write: fn(&T, &mut [u8])| {
        let mut out = vec![0; size];
        in_turn(things, move |thing| {
            write(thing, &mut out);
            black_box(&mut out);
        })
    };
    times([&mut timed(library), &mut timed(rust)])
}

fn plates() -> Vec<(&'static str, Vec<Rows>)> {
    let mut random = Random::new(13);
    let mut mix = |n: usize| {
        let chart = drawn(&mut random, n, EVEN);
        let moves = chart.moves().max(8 * n);
        Rows::of(&filled(chart, moves, |_, _, _| true))
    };
    let mixes = (0..TURNS).map(|_| mix(POSITIONS)).collect();
    let small = (0..TURNS).map(|_| mix(32)).collect();
    let numbers = (0..TURNS).map(|_| Rows::drawn(&mut random)).collect();
    vec![
        ("plate, random, even mix", mixes),
        ("plate, chain of L", vec![Rows::of(&lane_chain(POSITIONS, MOVES))]),
        ("plate, 512 values", vec![Rows::of(&blocks(POSITIONS, MOVES, 1))]),
        ("plate, all numbers drawn", numbers),
        ("plate of 32 positions, even mix", small),
    ]
}

fn sheets() -> [(&'static str, Vec<Pairs>); 2] {
    let mut random = Random::new(17);
    [
        ("sheet, all numbers drawn", (0..TURNS).map(|_| Pairs::drawn(&mut random)).collect()),
        ("sheet, all moves good", vec![Pairs::of(&all_good(POSITIONS, MOVES))]),
    ]
}

/// Prints the section.
pub fn lines() {
    println!(
        "\nLines alone, from rows that are there: plates of 512 positions where not said otherwise, and sheets of"
    );
    println!("4,096 good moves. The drawn ones are {TURNS} that take turns. Microseconds a call.\n");
    println!("{:<40}{:>10}{:>10}{:>8}", "lines", "library", "Rust", "ratio");
    let row = |name, [library, rust]: [f64; 2]| {
        println!("{name:<40}{library:>10.2}{rust:>10.2}{:>8.2}", library / rust);
    };
    for (name, rows) in plates() {
        row(name, both(&rows, plate::LINE * (rows[0].n + 1), Rows::library, Rows::rust));
    }
    for (name, pairs) in sheets() {
        row(name, both(&pairs, sheet::LINE * MOVES, Pairs::library, Pairs::rust));
    }
}
