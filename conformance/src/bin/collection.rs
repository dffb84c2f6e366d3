//! Writes a folder like the collection: four hundred charts of the greatest size with their plates beside them. Of twenty
//! one has a damaged chart, one a plate with other numbers, one a plate with damaged text, and one no plate. Every run
//! writes the same bytes. The folder must not be there before.

use conformance::chart::{Chart, MOVES, POSITIONS};
use conformance::model::{plate_text, Subject};
use conformance::parts::damage::{alter, hurt, hurt_chart, CHART, PLATE};
use conformance::random::Random;
use conformance::shapes::{blocks, console_chain, drawn, filled, lane_chain, SHAPES};
use conformance::solver;
use std::path::Path;
use std::{env, fs, io, process};

const CHARTS: usize = 400;

fn main() -> io::Result<()> {
    let Some(name) = env::args().nth(1) else {
        eprintln!("usage: collection FOLDER");
        process::exit(2);
    };
    let folder = Path::new(&name);
    fs::create_dir(folder)?;
    for number in 0..CHARTS {
        let (chart, plate) = sheets(number);
        let stem = folder.join(format!("lane{number:03}"));
        fs::write(stem.with_extension("chart"), chart)?;
        if let Some(plate) = plate {
            fs::write(stem.with_extension("plate"), plate)?;
        }
    }
    Ok(())
}

/// The texts of a chart and its plate, damaged or left out by the number.
fn sheets(number: usize) -> (Vec<u8>, Option<Vec<u8>>) {
    let mut random = Random::new(0x5000_0000 + number as u64);
    let chart = chart(&mut random, number);
    let mut text = chart.text();
    let mut plate = written(&text);
    match number % 20 {
        3 => {
            hurt(&mut random, &mut text, CHART);
            hurt_chart(&mut random, &mut text);
        }
        8 => plate = altered(&mut random, &chart),
        13 => hurt(&mut random, &mut plate, PLATE),
        18 => return (text, None),
        _ => {}
    }
    (text, Some(plate))
}

/// All have 512 positions and 4,096 moves. Of twenty, three have as many rounds as there can be.
fn chart(random: &mut Random, number: usize) -> Chart {
    match number % 20 {
        5 => lane_chain(POSITIONS, MOVES),
        10 => console_chain(POSITIONS, MOVES),
        15 => blocks(POSITIONS, MOVES, 1 + number % 32),
        _ => filled(drawn(random, POSITIONS, SHAPES[number % SHAPES.len()]), MOVES, |_, _, _| true),
    }
}

fn written(chart: &[u8]) -> Vec<u8> {
    let mut plate = vec![0; PLATE * (POSITIONS + 1)];
    assert_eq!(solver::write(chart, &mut plate).length, plate.len());
    plate
}

/// The chart's plate with other numbers that its form allows.
fn altered(random: &mut Random, chart: &Chart) -> Vec<u8> {
    let mut plate = Subject::new(&chart.text()).valuation(chart).plate();
    alter(random, chart, &mut plate);
    plate_text(&plate)
}
