//! The plan files that are timed: a small junction, 256 lanes, and files full of queries.

use compare_common::plans::town;
use kartsodi_oracle::gen::sketch::{advance, beside, point_near, route};
use kartsodi_oracle::reader::{scan, Plan, Query};
use kartsodi_oracle::rng::Rng;
use kartsodi_oracle::write::Records;

/// The most bytes of a plan file.
const MOST: usize = 65_536;

pub fn all() -> Vec<(&'static str, Vec<u8>)> {
    let junction = std::fs::read("examples/junction.plan").expect("bench-run is run in the project's root");
    let mut wide = town(256);
    wide.queries = (0..3).map(|k| [a_route, an_advance, a_beside][k](&mut Rng::new(5), &wide)).collect();
    let mixed = |rng: &mut Rng, plan: &Plan| [a_route, an_advance, a_beside][rng.below(3)](rng, plan);
    vec![
        ("small junction", junction),
        ("256 lanes", Records::from(&wide).bytes()),
        ("64 lanes, routes", full(town(64), a_route)),
        ("64 lanes, advances", full(town(64), an_advance)),
        ("64 lanes, besides", full(town(64), a_beside)),
        ("256 lanes, all kinds", full(town(256), mixed)),
    ]
}

pub fn queries(file: &[u8]) -> usize {
    scan(file).map_or(0, |plan| plan.queries.len())
}

/// A plan with as many queries as its file can hold.
fn full(plan: Plan, ask: impl Fn(&mut Rng, &Plan) -> Query) -> Vec<u8> {
    let mut rng = Rng::new(6);
    let mut records = Records::from(&plan);
    let mut length = records.bytes().len();
    loop {
        records.query(&ask(&mut rng, &plan));
        length += records.0[records.0.len() - 1].len();
        if length > MOST {
            records.0.pop();
            return records.bytes();
        }
    }
}

fn a_route(rng: &mut Rng, plan: &Plan) -> Query {
    route(point_near(rng, plan, 2.0), point_near(rng, plan, 2.0))
}

/// 200 m on, by every branch, from anywhere.
fn an_advance(rng: &mut Rng, plan: &Plan) -> Query {
    advance(rng.below(plan.lanes.len()) as u16, 60.0 * rng.unit(), 0.0, 200.0)
}

fn a_beside(rng: &mut Rng, plan: &Plan) -> Query {
    beside(rng.below(plan.lanes.len()) as u16, 60.0 * rng.unit(), rng.below(2) as u8)
}
