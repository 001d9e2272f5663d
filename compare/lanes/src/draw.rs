//! The plans that are asked queries of one kind, the queries, and the lengths of the lists that are lent for them.

use crate::answer::{lengths, MOST, ROOM};
use compare_common::draw::arc;
use kartsodi_oracle::gen::queries::caller_queries;
use kartsodi_oracle::gen::{family_case, plans, Case};
use kartsodi_oracle::network::RoadNetwork;
use kartsodi_oracle::reader::{Plan, Query};
use kartsodi_oracle::rng::Rng;
use std::iter::once;

#[derive(Debug, Clone, Copy, PartialEq)]
pub enum Kind {
    Pose,
    Nearest,
    Route,
    Advance,
    Beside,
}

pub fn kind_of(word: &str) -> Option<Kind> {
    Some(match word {
        "pose" => Kind::Pose,
        "nearest" => Kind::Nearest,
        "route" => Kind::Route,
        "advance" => Kind::Advance,
        "beside" => Kind::Beside,
        _ => return None,
    })
}

fn is(kind: Kind, query: &Query) -> bool {
    match query {
        Query::Pose { .. } => kind == Kind::Pose,
        Query::Nearest { .. } => kind == Kind::Nearest,
        Query::Route { .. } => kind == Kind::Route,
        Query::Advance { .. } => kind == Kind::Advance,
        Query::Beside { .. } => kind == Kind::Beside,
    }
}

/// The oracle's plans. For a route and an advance, each eighth is followed by one of the family whose answers are the longest, so that many are
/// longer than the program's lists.
pub fn cases(kind: Kind, seed: u64) -> impl Iterator<Item = Case> {
    let longest = move |index: u64| match kind {
        Kind::Route => family_case("long", seed, index),
        Kind::Advance => family_case("keys", seed, index),
        _ => None,
    };
    let more = move |index: u64| if index % 8 == 7 { longest(index) } else { None };
    (0..).zip(plans(seed, usize::MAX)).flat_map(move |(index, case)| once(case).chain(more(index)))
}

/// The queries of this kind that stand in the file or beside it, then drawn ones, `count` or more in all. A route's two points are asked for
/// their nearest lane too, since the families put them where the answer turns.
pub fn queries(rng: &mut Rng, kind: Kind, case: &Case, plan: &Plan, network: Option<&RoadNetwork>, count: usize) -> Vec<Query> {
    let given: Vec<Query> = plan.queries.iter().chain(&case.queries).copied().collect();
    let mut asked: Vec<Query> = given.iter().filter(|q| is(kind, q)).copied().collect();
    if kind == Kind::Nearest {
        for query in &given {
            if let Query::Route { from, to } = *query {
                asked.extend([from, to].map(|point| Query::Nearest { point }));
            }
        }
    }
    if let (Kind::Pose, Some(network)) = (kind, network) {
        while asked.len() < count && !plan.lanes.is_empty() {
            let number = plan.lanes[rng.below(plan.lanes.len())].number;
            let lane = network.lanes.iter().find(|lane| lane.id.0 == usize::from(number)).expect("the plan has it");
            asked.push(Query::Pose { lane: lane.id.0, s: arc(rng, &lane.center.cumulative) });
        }
    }
    while asked.len() < count {
        asked.extend(caller_queries(rng, plan, 16).iter().filter(|q| is(kind, q)));
        if kind == Kind::Advance {
            asked.extend(from_a_link(rng, plan));
        }
    }
    asked
}

/// An advance from the lane of a link, if it has a place: mostly a lane with many links, so that many branches follow.
fn from_a_link(rng: &mut Rng, plan: &Plan) -> Option<Query> {
    let link = plan.links.get(rng.below(plan.links.len().max(1)))?;
    let place = plan.places.iter().find(|place| place.lane == link.from)?;
    let section = plan.sections.iter().find(|s| (s.road, s.index) == (place.road, place.index))?;
    let s = section.start + (section.end - section.start) * rng.unit();
    let distance = rng.pick(&[10.0, 20.0, 40.0, -40.0]) * rng.unit();
    Some(Query::Advance { lane: link.from.into(), s, offset: 0.0, distance })
}

/// Lengths of the lists for an answer that fills `need`: mostly those of `plan-run`, else the most, just enough, one short, any, or none.
pub fn room(rng: &mut Rng, need: [usize; 4]) -> [usize; 4] {
    match rng.below(8) {
        0 => need,
        1 => {
            let mut room = need;
            let k = rng.below(4);
            room[k] = room[k].saturating_sub(1);
            room
        }
        2 => rng.pick(&[ROOM, lengths(MOST)]).map(|most| rng.below(most + 1)),
        3 if rng.once_in(4) => [0; 4],
        4 | 5 => lengths(MOST),
        _ => ROOM,
    }
}
