//! Queries from the caller: those that a file cannot hold, and those that it can with other fields.

use super::sketch::{ask_advance, ask_beside, point_near, rough_length, route};
use crate::reader::{Plan, Query};
use crate::rng::Rng;

/// `count` queries for a plan, which may have been refused.
pub fn caller_queries(rng: &mut Rng, plan: &Plan, count: usize) -> Vec<Query> {
    (0..count).map(|_| caller_query(rng, plan)).collect()
}

fn caller_query(rng: &mut Rng, plan: &Plan) -> Query {
    match rng.below(8) {
        0..=2 => Query::Nearest { point: place(rng, plan) },
        3 | 4 => pose(rng, plan),
        5 => route(place(rng, plan), place(rng, plan)),
        6 => ask_advance(rng, plan),
        _ => match ask_beside(rng, plan) {
            Query::Beside { lane, s, side } if rng.once_in(4) => {
                Query::Beside { lane, s, side: side + rng.pick(&[1, 2, 254]) }
            }
            query => query,
        },
    }
}

/// A point near a lane, far from all, or with an odd coordinate.
fn place(rng: &mut Rng, plan: &Plan) -> [f32; 3] {
    let reach = rng.pick(&[0.0, 1.0, 10.0, 1_000.0, 1e7, 1e20]);
    let mut point = point_near(rng, plan, reach);
    if rng.once_in(8) {
        point[rng.below(3)] = rng.odd_f32();
    }
    point
}

/// A lane and a distance along it: at its ends, between them, off them, or odd.
fn pose(rng: &mut Rng, plan: &Plan) -> Query {
    if plan.lanes.is_empty() || rng.once_in(16) {
        return Query::Pose { lane: rng.pick(&[0, 1, 65_535, 65_536, usize::MAX]), s: 1.0 };
    }
    let lane = &plan.lanes[rng.below(plan.lanes.len())];
    let length = rough_length(lane) as f32;
    let s = match rng.below(6) {
        0 => 0.0,
        1 => length,
        2 => rng.odd_f32(),
        3 => -1.0,
        _ => length * rng.unit() as f32,
    };
    Query::Pose { lane: usize::from(lane.number), s }
}
