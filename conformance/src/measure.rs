//! Measuring programs side by side: the time of a call, and the stack that a call uses.

use std::hint::black_box;
use std::thread;
use std::time::{Duration, Instant};

/// How many batches of each program are timed, in turns.
const BATCHES: usize = 25;

/// How long a batch should take at least.
const BATCH: Duration = Duration::from_millis(1);

/// A program to measure: one call of it.
pub type Program<'a> = &'a mut dyn FnMut();

/// The microseconds that a call of each program takes: medians over batches that take turns, so that whatever else the
/// machine does meets all alike.
pub fn times<const N: usize>(mut programs: [Program; N]) -> [f64; N] {
    let calls = programs.each_mut().map(|program| batch_size(*program));
    let mut taken = [const { Vec::new() }; N];
    for _ in 0..BATCHES {
        for ((program, calls), taken) in programs.iter_mut().zip(calls).zip(&mut taken) {
            taken.push(batch(*program, calls));
        }
    }
    taken.map(median)
}

/// A program that takes the things in turn: the same one again and again would teach the processor its branches.
pub fn in_turn<'a, T>(things: &'a [T], mut call: impl FnMut(&T) + 'a) -> impl FnMut() + 'a {
    let mut turns = things.iter().cycle();
    move || call(black_box(turns.next().expect("there is a thing")))
}

/// How many calls make a batch. Finding it out warms up the program too.
fn batch_size(program: Program) -> usize {
    let mut calls = 1;
    while batch(program, calls) * (calls as f64) < BATCH.as_secs_f64() * 1e6 {
        calls *= 2;
    }
    calls
}

/// The microseconds of one call, from a batch of them.
fn batch(program: Program, calls: usize) -> f64 {
    let begin = Instant::now();
    for _ in 0..calls {
        program();
    }
    begin.elapsed().as_secs_f64() * 1e6 / calls as f64
}

fn median(mut numbers: Vec<f64>) -> f64 {
    numbers.sort_by(f64::total_cmp);
    numbers[numbers.len() / 2]
}

/// The stack of the thread on which a program's use is measured, and how much of it is painted.
const STACK: usize = 8 << 20;
const PAINTED: usize = 4 << 20;

/// What is left unpainted just below the measuring function's frame, for the painter's own frame.
const UNPAINTED: usize = 1 << 9;

const PAINT: u64 = 0xa5c3_965a_3c69_a5c3;

/// The bytes of stack that a call uses: the stack of a fresh thread is painted, and afterwards the deepest place without
/// paint is looked for.
pub fn stack(program: impl FnOnce() + Send) -> usize {
    thread::scope(|scope| {
        let painted = thread::Builder::new().stack_size(STACK).spawn_scoped(scope, || painted_call(program));
        painted.expect("a thread").join().expect("the program ends")
    })
}

#[inline(never)]
fn painted_call(program: impl FnOnce()) -> usize {
    let mark = 0u64;
    let top = black_box(&raw const mark) as usize;
    paint(top);
    program();
    top - deepest(top)
}

// Both functions below reach for memory of this thread's stack under their own frames. That stack is larger than what
// is painted, so all of it is there, and nothing else uses it at that time.

#[inline(never)]
fn paint(top: usize) {
    for address in (top - PAINTED..top - UNPAINTED).step_by(8) {
        unsafe { (address as *mut u64).write_volatile(PAINT) };
    }
}

/// The lowest address without paint.
#[inline(never)]
fn deepest(top: usize) -> usize {
    let mut places = (top - PAINTED..top - UNPAINTED).step_by(8);
    let gone = places.find(|&address| unsafe { (address as *const u64).read_volatile() } != PAINT);
    gone.unwrap_or(top - UNPAINTED)
}
