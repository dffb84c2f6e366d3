//! Small charts of three positions: the chart of an index, and the index of a chart, by the library and by Rust.

use crate::TURNS;
use conformance::blanks::leave_out;
use conformance::capi::{self, Indexed, Written};
use conformance::measure::{in_turn, times};
use conformance::model::COUNTS;
use conformance::random::Random;
use conformance::solver;
use std::hint::black_box;

const POSITIONS: usize = 3;

/// The bytes of the longest small chart.
const LONGEST: usize = 264;

/// An index and the text of its chart.
struct Numbered {
    index: usize,
    text: Vec<u8>,
}

impl Numbered {
    fn drawn(random: &mut Random) -> Numbered {
        let (index, mut text) = (random.below(COUNTS[POSITIONS - 1]), vec![0; LONGEST]);
        let written = solver::small_chart(POSITIONS, index, &mut text);
        text.truncate(written.length);
        Numbered { index, text }
    }

    fn with_blanks(&self) -> Numbered {
        let mut text = self.text.clone();
        leave_out(&mut text, |_| true);
        Numbered { index: self.index, text }
    }
}

/// A program that writes the charts in turn by their indices, after a look that each is written whole.
fn writing<'a>(charts: &'a [Numbered], write: fn(usize, usize, &mut [u8]) -> Written) -> impl FnMut() + 'a {
    let mut out = [0; LONGEST];
    for Numbered { index, text } in charts {
        assert_eq!(write(POSITIONS, *index, &mut out).length, text.len());
        assert!(out.starts_with(text), "the two write alike");
    }
    in_turn(charts, move |chart| {
        assert_eq!(write(POSITIONS, chart.index, &mut out).length, chart.text.len());
        black_box(&mut out);
    })
}

/// A program that finds the indices of the charts in turn.
fn indexing<'a>(charts: &'a [Numbered], index_of: fn(&[u8]) -> Indexed) -> impl FnMut() + 'a {
    in_turn(charts, move |chart| assert_eq!(index_of(&chart.text).index, chart.index))
}

/// Prints the section.
pub fn small_charts() {
    println!("\nSmall charts of 3 positions, {TURNS} drawn ones that take turns. Microseconds a call.\n");
    println!("{:<40}{:>10}{:>10}{:>8}", "job", "library", "Rust", "ratio");
    let row = |name, [library, rust]: [f64; 2]| {
        println!("{name:<40}{library:>10.3}{rust:>10.3}{:>8.2}", library / rust);
    };
    let mut random = Random::new(19);
    let charts: Vec<Numbered> = (0..TURNS).map(|_| Numbered::drawn(&mut random)).collect();
    let blank: Vec<Numbered> = charts.iter().map(Numbered::with_blanks).collect();
    let [mut library, mut rust] = [capi::small_chart, solver::small_chart].map(|write| writing(&charts, write));
    row("a chart by its index", times([&mut library, &mut rust]));
    for (name, charts) in [("the index of a chart", &charts), ("the index of a chart, blank marks", &blank)] {
        let [mut library, mut rust] =
            [capi::small_index, solver::small_index].map(|index_of| indexing(charts, index_of));
        row(name, times([&mut library, &mut rust]));
    }
}
