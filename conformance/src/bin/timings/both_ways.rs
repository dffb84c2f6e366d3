//! Valuing both ways: the library's filed way and its plain one side by side, and Rust's linear solver beside them.

use crate::{kinds, small_kinds};
use conformance::capi::{self, Valued, Valuing};
use conformance::chart::POSITIONS;
use conformance::measure::times;
use conformance::solver;
use std::hint::black_box;

/// The values, the choices and the steps.
type Rows = [[u16; POSITIONS]; 3];

fn call(value: Valuing, chart: &[u8], rows: &mut Rows) -> Valued {
    let [values, choices, steps] = black_box(rows);
    black_box(value(black_box(chart), values, choices, steps))
}

/// The filed way, the plain way and Rust's solver on one chart, after a look that all answer alike and give the same rows.
fn three(chart: &[u8]) -> [f64; 3] {
    let [mut filed, mut plain, mut rust] = [[[0; POSITIONS]; 3]; 3];
    let answer = call(capi::value, chart, &mut filed);
    assert_eq!(answer.refusal.number, 0, "the chart is accepted");
    assert!((call(capi::value_plain, chart, &mut plain), plain) == (answer, filed), "both ways answer alike");
    assert!((call(solver::value, chart, &mut rust), rust) == (answer, filed), "Rust answers alike");
    let mut again = rust;
    // The two ways share code. Rust has its turn before each, so that neither comes to what the other has just warmed up.
    let [filed, rust, plain, _] = times([
        &mut || _ = call(capi::value, chart, &mut filed),
        &mut || _ = call(solver::value, chart, &mut rust),
        &mut || _ = call(capi::value_plain, chart, &mut plain),
        &mut || _ = call(solver::value, chart, &mut again),
    ]);
    [filed, plain, rust]
}

/// Prints the section.
pub fn both_ways() {
    println!(
        "\nValuing the filed way, the plain way and by Rust's linear solver, in turns on the same chart. Charts of"
    );
    println!("32 positions have 256 moves, all others 4,096. Microseconds a call, and ratios.\n");
    println!(
        "{:<32}{:>10}{:>10}{:>10}{:>14}{:>14}{:>15}",
        "chart", "filed", "plain", "Rust", "filed / Rust", "plain / Rust", "plain / filed"
    );
    for (name, chart) in kinds().into_iter().chain(small_kinds()) {
        let [filed, plain, rust] = three(&chart.text());
        let ratios = format!("{:>14.2}{:>14.2}{:>15.2}", filed / rust, plain / rust, plain / filed);
        println!("{name:<32}{filed:>10.2}{plain:>10.2}{rust:>10.2}{ratios}");
    }
}
