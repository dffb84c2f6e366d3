//! Ways to ruin: what a call shows of the rule by which the play is picked, of the room for it, and of the order of refusals.

use crate::capi::{Refusal, NONE};
use crate::chart::{Chart, Owner};
use crate::model::{through, Play, Subject, Visit, Ways};

/// The bytes of a line.
pub const LINE: usize = 12;

/// What a call may show. A program that picks by another rule, that leads by other choices, or that tests in another order errs
/// where one of these is seen.
pub const SIGHTS: [&str; 26] = [
    "one line",
    "through all positions",
    "taken where the value is ever",
    "not the way by the plate's choices",
    "meant moves and disturbances",
    "more disturbances on fewer moves",
    "a lower position on more moves",
    "a higher position on as many moves",
    "the lane could stay",
    "into a chosen target that is disturbed too",
    "disturbed into a meant target",
    "through R",
    "room for the lines and no more",
    "room for all but one byte",
    "room for a line too few",
    "room for a line more",
    "more choices than positions",
    "10 where a choice is illegal",
    "12 where the position is off the chart",
    "12 where it would be 19",
    "12 with no room",
    "13 where a cut position is on the chart",
    "13 with no room",
    "19 with no room",
    "19 with room",
    "a refusal of the chart with no choices",
];

/// How many of the sights are about the rule, and about the room.
const RULE: usize = 12;
const ROOM: usize = 4;

/// What a call is given but for its buffer, the play that the model has for it, and what that play shows of the rule.
pub struct Way<'a> {
    pub subject: &'a Subject<'a>,
    pub choices: &'a [u16],
    pub position: usize,
    pub play: Result<Play, Refusal>,
    rule: [bool; RULE],
}

impl<'a> Way<'a> {
    pub fn new(subject: &'a Subject<'a>, choices: &'a [u16], position: usize) -> Way<'a> {
        let play = subject.play_to_ruin(choices, position);
        let rule = match (&play, subject.chart()) {
            (Ok(play), Ok(chart)) => rule(subject, &Ways { chart, choices }, play),
            _ => [false; RULE],
        };
        Way { subject, choices, position, play, rule }
    }

    /// The bytes of the lines, 0 where the call is refused whatever its buffer.
    pub fn room(&self) -> usize {
        self.play.as_ref().map_or(0, |play| LINE * play.len())
    }

    /// Which of the sights a call shows that is lent so many bytes.
    pub fn sights(&self, length: usize) -> [bool; SIGHTS.len()] {
        let mut sights = [false; SIGHTS.len()];
        let room = self.room();
        match (&self.play, self.subject.chart()) {
            (Ok(_), Ok(chart)) => {
                // Where the lines don't fit nothing is seen of them.
                let written = length >= room;
                sights[..RULE].copy_from_slice(&self.rule.map(|seen| written && seen));
                let lengths = [length == room, length + 1 == room, length + LINE == room, length == room + LINE];
                sights[RULE..RULE + ROOM].copy_from_slice(&lengths);
                sights[RULE + ROOM] = written && self.choices.len() > chart.len();
            }
            (Err(refusal), Ok(chart)) => {
                sights[RULE + ROOM + 1..SIGHTS.len() - 1].copy_from_slice(&self.refused(chart, refusal.number, length));
            }
            _ => sights[SIGHTS.len() - 1] = self.choices.is_empty(),
        }
        sights
    }

    /// Where another order of the refusals would give another.
    fn refused(&self, chart: &Chart, number: u32, length: usize) -> [bool; 8] {
        let off_chart = self.position >= chart.len();
        // What would be answered if choices that are missing were the plate's, and then if all were.
        let best = &self.subject.valuation(chart).choices;
        let missing = || [self.choices, &best[self.choices.len()..]].concat();
        let by =
            |choices: &[u16]| self.subject.play_to_ruin(choices, self.position).err().map(|refusal| refusal.number);
        let no_room = length < LINE;
        [
            number == 10 && by(&missing()) == Some(12),
            number == 12 && off_chart,
            number == 12 && by(best) == Some(19),
            number == 12 && no_room,
            number == 13 && (self.position & 0xffff) < chart.len(),
            number == 13 && no_room,
            number == 19 && no_room,
            number == 19 && !no_room,
        ]
    }
}

/// What a play shows of the rule.
fn rule(subject: &Subject, ways: &Ways, play: &Play) -> [bool; RULE] {
    let valuation = subject.valuation(ways.chart);
    let start = play[0].position;
    let moves = || play.windows(2).map(|pair| (pair[0].position, pair[1]));
    let at = |v: u16| &ways.chart.positions[usize::from(v)];
    let costs = ways.costs();
    let cost = |v: u16| costs[usize::from(v)].expect("there is a way from each of its positions");
    // Whether a play could go on to some other position than it does.
    let instead = |test: &dyn Fn(u16, Visit, Visit) -> bool| {
        moves().any(|(v, to)| ways.next(v).into_iter().any(|other| test(v, to, other)))
    };
    let as_cheap = |v: u16, other: Visit| through(other, &costs).is_some_and(|(seen, _)| seen == cost(v).0);
    [
        play.len() == 1,
        play.len() == ways.chart.len() && play.len() > 1,
        valuation.values[usize::from(start)] == NONE,
        subject.play_to_ruin(&valuation.choices, usize::from(start)).as_ref() != Ok(play),
        moves().any(|(_, to)| to.disturbed) && moves().any(|(_, to)| !to.disturbed),
        fewest_moves(ways, start) < play.len() - 1,
        instead(&|v, to, other| other.position < to.position && as_cheap(v, other)),
        instead(&|v, to, other| other.position > to.position && through(other, &costs) == Some(cost(v))),
        moves().any(|(v, _)| at(v).owner == Owner::Lane && at(v).meant.contains(&v)),
        moves().any(|(v, to)| !to.disturbed && at(v).disturbances.contains(&to.position)),
        moves().any(|(v, to)| to.disturbed && at(v).meant.contains(&to.position)),
        moves().any(|(v, _)| at(v).owner == Owner::Nobody),
    ]
}

/// The fewest moves to an unsafe position from one that has a way there, however many disturbances they are.
fn fewest_moves(ways: &Ways, position: u16) -> usize {
    let unsafe_at = |v: &u16| !ways.chart.positions[usize::from(*v)].safe;
    let mut reached = vec![false; ways.chart.len()];
    let mut front = vec![position];
    let mut moves = 0;
    while !front.iter().any(unsafe_at) {
        let next = front.iter().flat_map(|&v| ways.next(v)).map(|visit| visit.position);
        front = next.filter(|&to| !std::mem::replace(&mut reached[usize::from(to)], true)).collect();
        moves += 1;
    }
    moves
}
