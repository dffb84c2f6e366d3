//! The test: the library, through its C interface, against the model. It ends with status 1 at the first mismatch, and
//! also if a refusal, a condition, a use of blanks, a kind of sheet, a position of rest of some kind, a swap of texts of
//! some kind, a way to ruin of some kind, a house of some kind or a call on small charts of some kind was hardly ever seen, or
//! if a call wants more stack than the header says. A number as the argument divides the counts of inputs, for a quick look.

use conformance::blanks::leave_out;
use conformance::chart::{MOVES, POSITIONS};
use conformance::parts::{controllers, damaged, drawn, examples, houses, indexed, pairs, small, swapped, ways, Share};
use conformance::shapes::{all_good, blocks, lane_chain, rest_chain};
use conformance::stacks::{stacks, MOST};
use conformance::tally::Tally;
use std::process::ExitCode;
use std::thread;

const THREADS: usize = 2;

fn main() -> ExitCode {
    let divisor = std::env::args().nth(1).map_or(1, |word| word.parse().expect("a number to divide the counts by"));
    let mut total = Tally::default();
    println!("{:<58}{:>10}{:>10}", "part", "inputs", "calls");
    note(&mut total, "0  examples, edges, refusals and blanks of the documents", &examples::part());
    note(&mut total, "1  all charts of one to three positions", &shared(small::part, divisor));
    note(&mut total, "2  all controllers of small charts", &shared(controllers::part, divisor));
    note(&mut total, "3  pseudo-random charts, all jobs, with runs", &shared(drawn::part, divisor));
    note(&mut total, "4  damaged charts, plates, choices, runs and buffers", &shared(damaged::part, divisor));
    note(&mut total, "5  blank marks beside 0, all jobs but the index", &shared(pairs::part, divisor));
    note(&mut total, "6  runs with changing texts", &shared(swapped::part, divisor));
    note(&mut total, "7  ways to ruin", &shared(ways::part, divisor));
    note(&mut total, "8  houses of lanes", &shared(houses::part, divisor));
    note(&mut total, "9  all small charts by their index, and other charts", &shared(indexed::part, divisor));
    println!();
    total.print();
    let mut wrong = total.missing(divisor);
    wrong.extend(deep_calls());
    if wrong.is_empty() {
        println!(
            "every answer and all that was lent is as the model has it; no call wants more than {MOST} bytes of stack"
        );
        return ExitCode::SUCCESS;
    }
    wrong.iter().for_each(|line| println!("{line}"));
    ExitCode::FAILURE
}

/// The jobs that want more stack on a full chart than the header says, be its safe marks 0 or blank.
fn deep_calls() -> impl Iterator<Item = String> {
    let charts = [
        lane_chain(POSITIONS, MOVES),
        rest_chain(POSITIONS, MOVES),
        blocks(POSITIONS, MOVES, 16),
        all_good(POSITIONS, MOVES),
    ];
    let charts = charts.map(|chart| chart.text());
    let blank = charts.clone().map(|mut text| {
        leave_out(&mut text, |_| true);
        text
    });
    let deep = charts.into_iter().chain(blank).flat_map(|text| stacks(&text)).filter(|(_, bytes)| *bytes > MOST);
    deep.map(|(job, bytes)| format!("{job} wants {bytes} bytes of stack"))
}

fn note(total: &mut Tally, name: &str, tally: &Tally) {
    println!("{name:<58}{:>10}{:>10}", tally.inputs, tally.calls);
    total.add(tally);
}

/// A part in shares, one for each thread. A thread that fails fails the test.
fn shared(part: fn(Share) -> Tally, divisor: usize) -> Tally {
    let mut sum = Tally::default();
    thread::scope(|scope| {
        let share = |first| Share { first, shares: THREADS, divisor };
        let threads: Vec<_> = (0..THREADS).map(|first| scope.spawn(move || part(share(first)))).collect();
        for thread in threads {
            sum.add(&thread.join().expect("a share of the test ended early"));
        }
    });
    sum
}
