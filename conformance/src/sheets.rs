//! Sheets of good moves: what a call shows of the rule by which they are listed, and of the room for them.

use crate::chart::Owner;
use crate::model::Subject;

/// The bytes of a sheet's line.
pub const LINE: usize = 12;

/// What a call with a good chart may show. A program that lists by the best target's value, that leaves out unsafe
/// positions or that looks at other moves than the listed for the room errs where one of these is seen.
pub const SIGHTS: [&str; 6] = [
    "no line",
    "a meant move at O left out",
    "targets of several values at one position",
    "moves of an unsafe position",
    "room for the lines and no more",
    "room for all but one byte",
];

/// Which of these a call shows that is lent so many bytes.
pub fn sights(subject: &Subject, length: usize) -> [bool; SIGHTS.len()] {
    let Ok(chart) = subject.chart() else {
        return [false; SIGHTS.len()];
    };
    let (values, good) = (&subject.valuation(chart).values, subject.good(chart));
    let several = |list: &Vec<u16>| list.iter().any(|&to| values[usize::from(to)] != values[usize::from(list[0])]);
    let console = || chart.positions.iter().zip(good).filter(|(position, _)| position.owner == Owner::Console);
    let room = room(subject);
    [
        room == 0,
        console().any(|(position, list)| list.len() < position.meant.len()),
        good.iter().any(several),
        console().any(|(position, _)| !position.safe),
        length == room,
        length + 1 == room,
    ]
}

/// The bytes of a chart's sheet, 0 for a text that is no chart.
pub fn room(subject: &Subject) -> usize {
    let lines = |good: &[Vec<u16>]| good.iter().map(Vec::len).sum::<usize>();
    subject.chart().map_or(0, |chart| LINE * lines(subject.good(chart)))
}
