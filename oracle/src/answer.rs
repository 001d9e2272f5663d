//! The public queries over a plan, with the numbers that refuse them: 9 to 15, and a file's own.

use crate::advance::Advance;
use crate::bake::bake;
use crate::coords::Point;
use crate::geometry::{Pose, Projection};
use crate::network::{LaneId, RoadNetwork};
use crate::reader::{check, scan, Plan, Query, LAST_SIDE};
use crate::road::LanePosition;

/// How long the lists for an answer are; an answer that does not fit them is refused with 14.
#[derive(Debug, Clone, Copy)]
pub struct Room {
    /// Lanes of a route's chain.
    pub lanes: usize,
    /// Points of a route.
    pub points: usize,
    /// Positions of an advance.
    pub positions: usize,
}

impl Room {
    /// That of `plan-run`.
    pub const PLAN_RUN: Room = Room { lanes: 257, points: 4_096, positions: 256 };
}

/// How many keys an advance may enter.
pub const MOST_KEYS: usize = 1_024;

/// Whether the source's originals run beside their second copies.
#[derive(Debug, Clone, Copy, PartialEq)]
pub enum Originals {
    Compared,
    /// For timing: each query is answered once.
    NotRun,
}

#[derive(Debug, Clone)]
pub struct Route {
    pub chain: Vec<LaneId>,
    pub points: Vec<Point>,
    /// The search's cost; 0 for one lane.
    pub length: f32,
}

#[derive(Debug, Clone)]
pub struct Advanced {
    pub keys: usize,
    pub positions: Vec<Advance>,
}

/// An answer, or the number that refuses it.
#[derive(Debug, Clone)]
pub enum Answer {
    Nearest(Result<(LaneId, Projection), u8>),
    Pose(Result<Pose, u8>),
    Route(Result<Route, u8>),
    Advance(Result<Advanced, u8>),
    Beside(Result<LanePosition, u8>),
}

/// A file, read once, ready for any number of queries.
pub struct Loaded {
    /// The records, or a number from 2 to 6.
    plan: Result<Plan, u8>,
    /// The network, or a number from 2 to 8.
    network: Result<RoadNetwork, u8>,
}

impl Loaded {
    pub fn new(file: &[u8]) -> Self {
        let plan = scan(file);
        let network = match &plan {
            Ok(plan) => check(plan).map(|()| bake(plan)),
            Err(number) => Err(*number),
        };
        Self { plan, network }
    }

    /// The records of an accepted file, or a number from 2 to 8.
    pub fn plan(&self) -> Result<&Plan, u8> {
        match (&self.plan, &self.network) {
            (Ok(plan), Ok(_)) => Ok(plan),
            (_, Err(number)) | (Err(number), _) => Err(*number),
        }
    }

    pub fn network(&self) -> Result<&RoadNetwork, u8> {
        self.network.as_ref().map_err(|number| *number)
    }

    /// What `plan-run` must answer.
    pub fn answer(&self, query: &Query) -> Answer {
        self.answer_with(query, Room::PLAN_RUN, Originals::Compared)
    }

    /// The same with other room, and with the originals or without.
    pub fn answer_with(&self, query: &Query, room: Room, originals: Originals) -> Answer {
        let network = self.network();
        match *query {
            Query::Nearest { point } => Answer::Nearest(network.and_then(|net| nearest(net, point))),
            Query::Pose { lane, s } => Answer::Pose(network.and_then(|net| pose(net, lane, s))),
            Query::Route { from, to } => Answer::Route(network.and_then(|net| route(net, from, to, room, originals))),
            Query::Advance { lane, s, offset, distance } => {
                let from = LanePosition { lane: LaneId(lane), s, offset };
                Answer::Advance(network.and_then(|net| advance(net, from, distance, room, originals)))
            }
            // A caller's side is tried after the file's records, and before what the whole file gets.
            Query::Beside { side, .. } if side > LAST_SIDE => {
                Answer::Beside(Err(self.plan.as_ref().err().copied().unwrap_or(5)))
            }
            Query::Beside { lane, s, side } => {
                let at = LanePosition { lane: LaneId(lane), s, offset: 0.0 };
                Answer::Beside(network.and_then(|net| beside(net, at, side)))
            }
        }
    }
}

pub fn nearest(net: &RoadNetwork, point: [f32; 3]) -> Result<(LaneId, Projection), u8> {
    if !point.iter().all(|c| c.is_finite()) {
        return Err(9);
    }
    net.nearest_lane(Point::from_array(point)).ok_or(10)
}

pub fn pose(net: &RoadNetwork, lane: usize, s: f32) -> Result<Pose, u8> {
    let lane = net.lane(LaneId(lane)).ok_or(12)?;
    Ok(lane.center.pose_at(s))
}

pub fn route(net: &RoadNetwork, from: [f32; 3], to: [f32; 3], room: Room, originals: Originals) -> Result<Route, u8> {
    if !from.iter().chain(&to).all(|c| c.is_finite()) {
        return Err(9);
    }
    let (from, to) = (Point::from_array(from), Point::from_array(to));
    let at = |point| net.nearest_lane(point).map(|(lane, nearest)| (lane, nearest.s)).ok_or(10);
    let (start, goal) = (at(from)?, at(to)?);
    let found = net.lane_path_cost(start, goal);
    if originals == Originals::Compared {
        let chain = found.as_ref().map(|(chain, _)| chain);
        assert!(net.lane_path(start, goal).as_ref() == chain, "the second copy of lane_path differs");
    }
    let (chain, length) = found.ok_or(11)?;
    let points = net.sample_route_up_to(room.points, &chain, start.1, goal.1);
    if chain.len() > room.lanes || points.len() > room.points {
        return Err(14);
    }
    // The copy came to its end, so the original does too, in the same time.
    if originals == Originals::Compared {
        let original = net.route(from, to).expect("the source finds the route too");
        assert!(same_points(&original, &points), "the second copy of sample_route differs");
    }
    Ok(Route { chain, points, length })
}

pub fn advance(
    net: &RoadNetwork,
    from: LanePosition,
    distance: f64,
    room: Room,
    originals: Originals,
) -> Result<Advanced, u8> {
    if net.centerline_s(from).is_none() {
        return Err(12);
    }
    if !distance.is_finite() {
        return Err(13);
    }
    let (positions, keys) = net.advance_keys(MOST_KEYS, from, distance);
    if keys > MOST_KEYS || positions.len() > room.positions {
        return Err(14);
    }
    if originals == Originals::Compared {
        assert!(same_ends(&net.advance(from, distance), &positions), "the second copy of advance differs");
    }
    Ok(Advanced { keys, positions })
}

pub fn beside(net: &RoadNetwork, at: LanePosition, side: u8) -> Result<LanePosition, u8> {
    if net.centerline_s(at).is_none() {
        return Err(12);
    }
    let found = if side == 0 { net.left_of(at) } else { net.right_of(at) };
    found.ok_or(15)
}

fn same_points(a: &[Point], b: &[Point]) -> bool {
    let bits = |p: &Point| p.to_array().map(f32::to_bits);
    a.iter().map(bits).eq(b.iter().map(bits))
}

fn same_ends(a: &[Advance], b: &[Advance]) -> bool {
    let bits = |end: &Advance| match *end {
        Advance::Reached(at) => (at.lane, at.s.to_bits(), at.offset.to_bits(), None),
        Advance::DeadEnd { at, short } => (at.lane, at.s.to_bits(), at.offset.to_bits(), Some(short.to_bits())),
    };
    a.iter().map(bits).eq(b.iter().map(bits))
}
