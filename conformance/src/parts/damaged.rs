//! Part 4: damaged charts, plates, choices, runs and buffers, one damage at a time and several together, so that the
//! refusals and their order are tried.

use super::setting::{Setting, KINDS};
use super::Share;
use crate::model::Subject;
use crate::random::Random;
use crate::tally::Tally;
use crate::trial::Trial;

const INPUTS: usize = 480_000;

pub fn part(share: Share) -> Tally {
    let mut trial = Trial::default();
    for input in share.of(INPUTS) {
        let mut random = Random::new(0x4000_0000 + input as u64);
        one(&mut trial, &mut random, input);
    }
    trial.tally
}

fn one(trial: &mut Trial, random: &mut Random, input: usize) {
    // The threads take inputs in turns; halving lets each of them meet every kind.
    let (kind, jobs) = KINDS[input / 2 % KINDS.len()];
    let mut setting = Setting::good(random);
    setting.damage(random, kind);
    if random.chance(25) {
        let (second, _) = *random.pick(&KINDS);
        setting.damage(random, second);
    }
    let subject = Subject::new(&setting.chart);
    trial.input(&subject);
    for _ in 0..3 {
        let job = *random.pick(jobs);
        call(trial, random, &subject, &setting, job);
    }
    trial.solver(&subject, &setting.plate, &setting.choices);
}

fn call(trial: &mut Trial, random: &mut Random, subject: &Subject, setting: &Setting, job: usize) {
    let (plate, choices) = (&setting.plate, &setting.choices);
    let besides = setting.besides(random);
    match job {
        0 => trial.value(subject, besides.rows),
        1 => trial.write(subject, besides.buffer),
        2 => trial.read(subject, plate, besides.rows),
        3 => trial.check(subject, plate),
        4 => trial.weigh(subject, choices, besides.rows[0]),
        5 => trial.compare(subject, plate, choices),
        6 => {
            trial.start(subject, plate, besides.start);
        }
        7 => {
            trial.report(subject, besides.run, plate, besides.to);
        }
        _ => trial.good_moves(subject, besides.sheet),
    }
}
