//! The run: its start, and a report of where the machine went.

use super::plate::{self, Plate};
use super::{check, refused};
use crate::capi::{Advice, Refusal, Run, Step};
use crate::chart::{Chart, Owner};

/// The most disturbances that a run counts.
const COUNTED: u32 = 99_999;

pub fn start(chart: &Chart, plate: &[u8], position: usize) -> Result<Step, Refusal> {
    let plate = plate::parse(chart.len(), plate)?;
    if position >= chart.len() {
        return Err(refused(13));
    }
    check::accepted(chart, &plate)?;
    let value = plate.values[position];
    Ok(holding(&plate, Run { position, seen: 0, initial: value, value }))
}

pub fn report(chart: &Chart, run: Run, plate: &[u8], to: usize) -> Result<Step, Refusal> {
    let plate = plate::parse(chart.len(), plate)?;
    if run.position >= chart.len() || to >= chart.len() {
        return Err(refused(13));
    }
    check::accepted(chart, &plate)?;
    if run.value != plate.values[run.position] {
        return Err(refused(18));
    }
    let position = &chart.positions[run.position];
    let meant = position.meant.contains(&(to as u16));
    let chosen = usize::from(plate.choices[run.position]) == to;
    let follows = match position.owner {
        Owner::Lane => meant,
        Owner::Console => meant && chosen,
        Owner::Nobody => false,
    };
    if follows {
        return Ok(holding(&plate, Run { position: to, value: plate.values[to], ..run }));
    }
    if !position.disturbances.contains(&(to as u16)) {
        return Err(refused(15));
    }
    if run.seen >= COUNTED {
        return Err(refused(16));
    }
    Ok(holding(&plate, Run { position: to, seen: run.seen + 1, value: plate.values[to], ..run }))
}

/// The answer with a run at its position.
fn holding(plate: &Plate, run: Run) -> Step {
    let advice = Advice { choice: plate.choices[run.position], value: plate.values[run.position] };
    Step { refusal: Refusal::default(), run, advice }
}
