//! What the families have in common: lanes, links, places and queries drawn onto a plan.

use crate::reader::{LaneRecord, LinkRecord, PlaceRecord, Plan, Query, SectionRecord};
use crate::rng::Rng;

pub const DRIVING: u8 = 1;
pub const FORWARD: u8 = 0;
pub const BACKWARD: u8 = 1;
pub const BOTH: u8 = 2;
pub const SUCCESSOR: u8 = 0;
pub const PREDECESSOR: u8 = 1;
pub const NEIGHBOUR: u8 = 2;

/// A driving lane that runs forward.
pub fn lane(number: u16, points: &[[f32; 3]]) -> LaneRecord {
    LaneRecord { number, kind: DRIVING, direction: FORWARD, points: points.to_vec(), ends: None }
}

pub fn link(from: u16, role: u8, to: u16) -> LinkRecord {
    LinkRecord { from, role, to }
}

pub fn route(from: [f32; 3], to: [f32; 3]) -> Query {
    Query::Route { from, to }
}

pub fn advance(lane: u16, s: f64, offset: f64, distance: f64) -> Query {
    Query::Advance { lane: usize::from(lane), s, offset, distance }
}

pub fn beside(lane: u16, s: f64, side: u8) -> Query {
    Query::Beside { lane: usize::from(lane), s, side }
}

/// A section with its own stations' ends as its own, and one lane placed in it.
pub fn place_alone(plan: &mut Plan, lane: u16, road: u16, stations: &[f64]) {
    let (start, end) = (stations[0], stations[stations.len() - 1]);
    plan.sections.push(SectionRecord { road, index: 0, start, end, stations: stations.to_vec() });
    plan.places.push(PlaceRecord { lane, road, index: 0, od_id: -1 });
}

/// Lane numbers that are not in file order, with small and large ones.
pub fn numbers(rng: &mut Rng, count: usize) -> Vec<u16> {
    let mut numbers: Vec<u16> = match rng.below(3) {
        0 => (0..count as u16).collect(),
        1 => (0..count as u16).map(|i| u16::MAX - 7 * i).collect(),
        _ => (1..=count as u16).map(|i| i * 11).collect(),
    };
    if !rng.once_in(3) {
        rng.shuffle(&mut numbers);
    }
    numbers
}

pub fn direction(rng: &mut Rng) -> u8 {
    rng.pick(&[FORWARD, FORWARD, FORWARD, BACKWARD, BACKWARD, BOTH])
}

/// The length of a lane, near enough to draw distances by.
pub fn rough_length(lane: &LaneRecord) -> f64 {
    let step = |pair: &[[f32; 3]]| -> f64 {
        let square = |i: usize| (f64::from(pair[1][i]) - f64::from(pair[0][i])).powi(2);
        (square(0) + square(1) + square(2)).sqrt()
    };
    lane.points.windows(2).map(step).sum()
}

/// Where a lane is entered and left in its travel direction.
fn travel_ends(lane: &LaneRecord) -> ([f32; 3], [f32; 3]) {
    let (first, last) = (lane.points[0], lane.points[lane.points.len() - 1]);
    if lane.direction == BACKWARD {
        (last, first)
    } else {
        (first, last)
    }
}

/// Successors and predecessors wherever one lane ends and another begins at the same point.
pub fn link_by_ends(plan: &mut Plan) {
    let mut links = Vec::new();
    for from in &plan.lanes {
        for to in plan.lanes.iter().filter(|to| to.number != from.number) {
            let (begin, end) = travel_ends(from);
            let (other_begin, other_end) = travel_ends(to);
            let two_way = |lane: &LaneRecord| lane.direction == BOTH;
            let joins = end == other_begin
                || (two_way(from) && begin == other_begin)
                || (two_way(to) && end == other_end)
                || (two_way(from) && two_way(to) && begin == other_end);
            if joins {
                links.push(link(from.number, SUCCESSOR, to.number));
                links.push(link(to.number, PREDECESSOR, from.number));
            }
        }
    }
    plan.links.extend(links);
}

/// Links of any role between any lanes, some of them to lanes that the plan lacks.
pub fn link_at_random(rng: &mut Rng, plan: &mut Plan, count: usize) {
    for _ in 0..count {
        let from = plan.lanes[rng.below(plan.lanes.len())].number;
        let to = match rng.below(12) {
            0 => rng.next() as u16,
            1 => from,
            _ => plan.lanes[rng.below(plan.lanes.len())].number,
        };
        let role = rng.pick(&[SUCCESSOR, SUCCESSOR, SUCCESSOR, PREDECESSOR, PREDECESSOR, NEIGHBOUR]);
        plan.links.push(link(from, role, to));
    }
}

/// Sections for most lanes; lanes with equally many points share one.
pub fn place_lanes(rng: &mut Rng, plan: &mut Plan) {
    for at in 0..plan.lanes.len() {
        let (number, count) = (plan.lanes[at].number, plan.lanes[at].points.len());
        if rng.once_in(10) || plan.places.len() == 256 {
            continue;
        }
        let section = match plan.sections.iter().rev().find(|s| s.stations.len() == count) {
            Some(section) if rng.once_in(2) => section.clone(),
            _ if plan.sections.len() < 64 => new_section(rng, plan, count, rough_length(&plan.lanes[at])),
            _ => continue,
        };
        let taken: Vec<i32> = (plan.places.iter())
            .filter(|p| (p.road, p.index) == (section.road, section.index))
            .map(|p| p.od_id)
            .collect();
        let od_id = free_lane_id(rng, &taken);
        plan.places.push(PlaceRecord { lane: number, road: section.road, index: section.index, od_id });
    }
}

/// A section that the plan does not have yet, its stations spread over `length`, sometimes off start and end.
fn new_section(rng: &mut Rng, plan: &mut Plan, count: usize, length: f64) -> SectionRecord {
    let (road, index) = loop {
        let (road, index) = (rng.pick(&[0, 1, 2, 5, 300]), rng.below(70) as u16);
        if !plan.sections.iter().any(|s| (s.road, s.index) == (road, index)) {
            break (road, index);
        }
    };
    let stations = stations(rng, count, length.clamp(1.0, 100_000.0));
    let (first, last) = (stations[0], stations[count - 1]);
    let (start, end) = match rng.below(6) {
        0 => (first + (last - first) * 0.25, last + 3.0),
        1 => ((first - 2.0).max(0.0), first + (last - first) * 0.75),
        2 => (0.0, 1_048_576.0),
        3 => (first, first),
        _ => (first, last),
    };
    let section = SectionRecord { road, index, start, end, stations };
    plan.sections.push(section.clone());
    section
}

/// Rising stations: even, uneven, or close together.
pub fn stations(rng: &mut Rng, count: usize, length: f64) -> Vec<f64> {
    let start = rng.pick(&[0.0, 0.0, 8.0, 1000.25]);
    let step = length / (count - 1) as f64;
    let style = rng.below(4);
    let mut s = start;
    let mut stations = vec![s];
    for _ in 1..count {
        s += match style {
            0 => step * (0.1 + rng.unit()),
            1 => 1e-3 * (0.1 + rng.unit()),
            _ => step,
        };
        stations.push(s);
    }
    stations
}

/// An OpenDRIVE lane number that is not taken, mostly near zero.
fn free_lane_id(rng: &mut Rng, taken: &[i32]) -> i32 {
    loop {
        let id = match rng.below(20) {
            0 => rng.next() as i32,
            1 => rng.pick(&[i32::MIN, i32::MAX, 0]),
            _ => rng.below(11) as i32 - 5,
        };
        if !taken.contains(&id) {
            return id;
        }
    }
}

/// A point on a lane, at it, or anywhere near.
pub fn point_near(rng: &mut Rng, plan: &Plan, reach: f32) -> [f32; 3] {
    let Some(lane) = (!plan.lanes.is_empty()).then(|| &plan.lanes[rng.below(plan.lanes.len())]) else {
        return [rng.spread(reach), rng.spread(reach), 0.0];
    };
    let i = rng.below(lane.points.len() - 1);
    let (a, b) = (lane.points[i], lane.points[i + 1]);
    let anywhere = rng.unit() as f32;
    let t = rng.pick(&[0.0, 0.25, 0.5, 1.0, anywhere]);
    let on = [0, 1, 2].map(|k| a[k] + (b[k] - a[k]) * t);
    match rng.below(3) {
        0 => on,
        1 => on.map(|c| c + rng.spread(reach)),
        _ => [on[0] + rng.spread(reach), on[1] + rng.spread(reach), on[2]],
    }
}

/// Queries of the three kinds that a file holds.
pub fn ask(rng: &mut Rng, plan: &mut Plan, count: usize, reach: f32) {
    for _ in 0..count {
        let query = match rng.below(4) {
            0 | 1 => route(point_near(rng, plan, reach), point_near(rng, plan, reach)),
            2 => ask_advance(rng, plan),
            _ => ask_beside(rng, plan),
        };
        plan.queries.push(query);
    }
}

/// An advance from a placed lane, over a distance that often ends exactly at a lane's end.
pub fn ask_advance(rng: &mut Rng, plan: &Plan) -> Query {
    let (lane, s) = position(rng, plan);
    let offset = match rng.below(8) {
        0 => rng.odd_f64(),
        1 => -1.5,
        2 => 0.25 * rng.unit(),
        _ => 0.0,
    };
    advance(lane, s, offset, distance(rng, plan))
}

pub fn ask_beside(rng: &mut Rng, plan: &Plan) -> Query {
    let (lane, s) = position(rng, plan);
    beside(lane, s, rng.below(2) as u8)
}

/// A lane, mostly a placed one, and a station of it, mostly within its section.
fn position(rng: &mut Rng, plan: &Plan) -> (u16, f64) {
    if plan.places.is_empty() || rng.once_in(16) {
        let known = (!plan.lanes.is_empty()).then(|| plan.lanes[rng.below(plan.lanes.len())].number);
        return (known.unwrap_or(rng.next() as u16), rng.odd_f64());
    }
    let place = &plan.places[rng.below(plan.places.len())];
    let section = plan.sections.iter().find(|s| (s.road, s.index) == (place.road, place.index));
    let Some(section) = section else {
        return (place.lane, 0.0);
    };
    let station = section.stations[rng.below(section.stations.len())];
    let between = section.start + (section.end - section.start) * rng.unit();
    let s = match rng.below(10) {
        0 => section.start,
        1 => section.end,
        2 => section.start.next_down(),
        3 => section.end.next_up(),
        4 | 5 => station,
        6 => rng.odd_f64(),
        _ => between,
    };
    (place.lane, s)
}

/// A distance: nothing, a few metres, a sum of lane lengths, that plus or minus a little, or an odd one.
fn distance(rng: &mut Rng, plan: &Plan) -> f64 {
    let mut length = 0.0;
    for _ in 0..rng.below(4) {
        if !plan.lanes.is_empty() {
            length += f64::from(rough_length(&plan.lanes[rng.below(plan.lanes.len())]) as f32);
        }
    }
    let size = match rng.below(10) {
        0 => 0.0,
        1 | 2 => length,
        3 => length.next_up(),
        4 => length + 0.0004,
        5 => length * rng.unit(),
        6 => rng.odd_f64(),
        7 => length + 100.0 * rng.unit(),
        _ => 16.0 * rng.unit(),
    };
    if rng.once_in(3) {
        -size
    } else {
        size
    }
}
