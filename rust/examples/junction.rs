//! Asks each query once over a plan file, as c/example.c does: `cargo run --example junction ../examples/junction.plan`.
//! Its output is examples/junction.calls.

use kartsodi::{Advance, LaneId, LanePosition, Plan, Point, Refusal, Side, Vector};
use std::error::Error;

struct Shown([f32; 3]);

impl std::fmt::Display for Shown {
    fn fmt(&self, f: &mut std::fmt::Formatter<'_>) -> std::fmt::Result {
        let [x, y, z] = self.0;
        write!(f, "({x:.2}, {y:.2}, {z:.2})")
    }
}

fn point(p: Point) -> Shown {
    Shown([p.x, p.y, p.z])
}

fn vector(v: Vector) -> Shown {
    Shown([v.x, v.y, v.z])
}

fn pose(plan: &mut Plan, lane: LaneId, s: f32) -> Result<(), Refusal> {
    let at = plan.pose(lane, s)?;
    println!("pose: {s:.2} m along lane {} is {}, heading {}", lane.0, point(at.position), vector(at.heading));
    Ok(())
}

fn nearest(plan: &mut Plan, p: Point) -> Result<(), Refusal> {
    let found = plan.nearest_lane(p)?;
    let at = found.projection;
    println!("nearest lane: of {}, lane {} at {:.2} m, {:.2} m to its left", point(p), found.lane.0, at.s, at.offset);
    Ok(())
}

fn route(plan: &mut Plan, from: Point, to: Point) {
    match plan.route(from, to) {
        Err(refusal) => println!("route: refused with {}", refusal.number()),
        Ok(route) => {
            let chain: Vec<String> = route.chain.iter().map(|lane| lane.0.to_string()).collect();
            println!("route: cost {:.2}, by lanes {}; {} points", route.length, chain.join(" "), route.points.len());
            for p in route.points {
                println!("  {}", point(p));
            }
        }
    }
}

fn advance(plan: &mut Plan, from: LanePosition, distance: f64) -> Result<(), Refusal> {
    let moved = plan.advance(from, distance)?;
    println!("advance: {distance:.2} m from lane {} at {:.2}, {} keys", from.lane.0, from.s, moved.keys);
    for end in moved.positions {
        match end {
            Advance::Reached(at) => println!("  lane {} at {:.2}", at.lane.0, at.s),
            Advance::DeadEnd { at, short } => {
                println!("  lane {} at {:.2}, a dead end, {short:.2} m short", at.lane.0, at.s)
            }
        }
    }
    Ok(())
}

fn beside(plan: &mut Plan, lane: LaneId, s: f64, side: Side) {
    let name = if side == Side::Left { "left" } else { "right" };
    match plan.beside(lane, s, side) {
        Err(refusal) => println!("beside: refused with {}", refusal.number()),
        Ok(at) => println!("beside: {name} of lane {} at {s:.2} is lane {} at {:.2}", lane.0, at.lane.0, at.s),
    }
}

fn main() -> Result<(), Box<dyn Error>> {
    let name = std::env::args().nth(1).ok_or("usage: junction PLAN")?;
    let mut plan = Plan::new(&std::fs::read(name)?)?;
    let west = Point { x: -30.0, y: -5.0, z: 0.0 };
    let north = Point { x: 1.75, y: 30.0, z: 0.0 };
    pose(&mut plan, LaneId(4), 5.0)?;
    nearest(&mut plan, west)?;
    route(&mut plan, west, north);
    route(&mut plan, north, west);
    advance(&mut plan, LanePosition { lane: LaneId(1), s: 20.0, offset: 0.0 }, 60.0)?;
    beside(&mut plan, LaneId(1), 20.0, Side::Right);
    beside(&mut plan, LaneId(1), 20.0, Side::Left);
    Ok(())
}
