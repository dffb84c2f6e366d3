//! Ruin: the shortest way to an unsafe position under given choices, in two ways. On small charts all plays are listed, and the
//! three criteria are applied to the list as document 02 (order 6) has them; on all charts the least costs are found first. The
//! second way is held to the first wherever both are taken.

use crate::chart::{push_line, Chart, Owner};

/// Charts of at most so many positions have few enough plays to list them all.
const LISTED: usize = 5;

/// A position of a play, and whether a disturbance led there.
#[derive(Clone, Copy, Debug, PartialEq, Eq)]
pub struct Visit {
    pub position: u16,
    pub disturbed: bool,
}

pub type Play = Vec<Visit>;

/// What a play costs: disturbances, then moves.
type Cost = (usize, usize);

/// The plays of the positional controller that makes these choices.
pub struct Ways<'a> {
    pub chart: &'a Chart,
    pub choices: &'a [u16],
}

impl Ways<'_> {
    /// Where a play can go on from a position, each target once, rising. At O a disturbance into the chosen target is no
    /// disturbance: the controller itself goes there.
    pub fn next(&self, from: u16) -> Vec<Visit> {
        let position = &self.chart.positions[usize::from(from)];
        let meant: &[u16] = match position.owner {
            Owner::Console => &self.choices[usize::from(from)..=usize::from(from)],
            Owner::Lane | Owner::Nobody => &position.meant,
        };
        let disturbances = position.disturbances.iter().filter(|to| !meant.contains(to));
        let mut next: Vec<Visit> = meant.iter().map(|&position| Visit { position, disturbed: false }).collect();
        next.extend(disturbances.map(|&position| Visit { position, disturbed: true }));
        next.sort_by_key(|visit| visit.position);
        next
    }

    fn is_safe(&self, position: u16) -> bool {
        self.chart.positions[usize::from(position)].safe
    }

    /// All plays from a position with at most so many moves. A play goes on after an unsafe position too.
    fn plays(&self, position: u16, moves: usize) -> Vec<Play> {
        let mut plays = vec![vec![Visit { position, disturbed: false }]];
        let mut longest = 0;
        for _ in 0..moves {
            let longer: Vec<Play> = plays[longest..].iter().flat_map(|play| self.longer(play)).collect();
            longest = plays.len();
            plays.extend(longer);
        }
        plays
    }

    /// The plays that go on from this one by a move.
    fn longer(&self, play: &Play) -> Vec<Play> {
        let next = self.next(play[play.len() - 1].position);
        next.into_iter().map(|visit| [play.as_slice(), &[visit]].concat()).collect()
    }

    /// The least cost of an unsafe play from each position, none where there is none: lowered as long as some move lowers one.
    pub fn costs(&self) -> Vec<Option<Cost>> {
        let positions = 0..self.chart.len() as u16;
        let next: Vec<Vec<Visit>> = positions.clone().map(|v| self.next(v)).collect();
        let mut costs: Vec<Option<Cost>> = positions.map(|v| (!self.is_safe(v)).then_some((0, 0))).collect();
        let mut lowered = true;
        while lowered {
            lowered = false;
            for v in 0..costs.len() {
                let least = next[v].iter().filter_map(|&visit| through(visit, &costs)).min();
                if least.is_some_and(|least| costs[v].is_none_or(|old| least < old)) {
                    costs[v] = least;
                    lowered = true;
                }
            }
        }
        costs
    }
}

/// The least cost of an unsafe play that goes on so.
pub fn through(visit: Visit, costs: &[Option<Cost>]) -> Option<Cost> {
    costs[usize::from(visit.position)].map(|(seen, moves)| (seen + usize::from(visit.disturbed), moves + 1))
}

/// The play that is asked for; none where no play is unsafe.
pub fn shortest(ways: &Ways, position: u16) -> Option<Play> {
    let play = by_costs(ways, position);
    if ways.chart.len() <= LISTED {
        assert_eq!(play, of_all(ways, position), "the two ways: {:?} with {:?}", ways.chart, ways.choices);
    }
    play
}

/// Of all unsafe plays one with fewest disturbances, of these one with fewest moves, of these the one with the lower position at
/// the first difference. A play that comes back to a position has more moves than it needs, so the one that is asked for has
/// fewer moves than there are positions.
fn of_all(ways: &Ways, position: u16) -> Option<Play> {
    let plays = ways.plays(position, ways.chart.len() - 1);
    let ruined = plays.into_iter().filter(|play| play.iter().any(|visit| !ways.is_safe(visit.position)));
    ruined.min_by_key(|play| {
        let disturbances = play.iter().filter(|visit| visit.disturbed).count();
        let positions: Vec<u16> = play.iter().map(|visit| visit.position).collect();
        (disturbances, play.len(), positions)
    })
}

/// From each position to the lowest that is on a cheapest way: these all have the same length.
fn by_costs(ways: &Ways, position: u16) -> Option<Play> {
    let costs = ways.costs();
    costs[usize::from(position)]?;
    let mut play = vec![Visit { position, disturbed: false }];
    let mut v = position;
    while ways.is_safe(v) {
        let cheapest = |visit: &Visit| through(*visit, &costs) == costs[usize::from(v)];
        let visit = ways.next(v).into_iter().find(cheapest).expect("some move is on a cheapest way");
        play.push(visit);
        v = visit.position;
    }
    Some(play)
}

/// A line for each position of a play.
pub fn sheet(play: &[Visit]) -> Vec<u8> {
    let mut sheet = Vec::with_capacity(12 * play.len());
    for visit in play {
        push_line(&mut sheet, b'W', usize::from(visit.position), usize::from(visit.disturbed));
    }
    sheet
}
