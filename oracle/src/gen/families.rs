//! Random plans, one family for each kind of case.

use super::sketch::*;
use crate::bake::bake;
use crate::reader::{LaneRecord, PlaceRecord, Plan, SectionRecord};
use crate::rng::Rng;

/// Streets between random crossings.
pub fn town(rng: &mut Rng) -> Plan {
    let crossings: Vec<[f32; 3]> =
        (0..rng.between(2, 7)).map(|_| [rng.spread(100.0), rng.spread(100.0), rng.spread(5.0)]).collect();
    streets(rng, &crossings, 6.0)
}

/// Streets between crossings of a lattice: equal lengths, points on cell borders.
pub fn grid(rng: &mut Rng) -> Plan {
    let step = rng.pick(&[1.0, 8.0, 16.0, 30.0, 3.0]);
    let crossings: Vec<[f32; 3]> =
        (0..rng.between(2, 8)).map(|_| [step * rng.below(5) as f32, step * rng.below(4) as f32, 0.0]).collect();
    streets(rng, &crossings, 0.0)
}

/// Lanes between the crossings, bent by `bend`, linked where they meet.
fn streets(rng: &mut Rng, crossings: &[[f32; 3]], bend: f32) -> Plan {
    let mut plan = Plan::default();
    let count = rng.between(1, 14);
    for number in numbers(rng, count) {
        let (a, b) = (rng.pick(crossings), rng.pick(crossings));
        let pieces = rng.pick(&[1, 1, 2, 3, 4, 5, 8, 9]);
        let mut points: Vec<[f32; 3]> = Vec::new();
        for i in 0..=pieces {
            let t = i as f32 / pieces as f32;
            let inner = bend * f32::from(u8::from(i != 0 && i != pieces));
            points.push([0, 1, 2].map(|k| a[k] + (b[k] - a[k]) * t + rng.spread(inner)));
        }
        // The last point meets the crossing exactly, so that lanes join there.
        points[pieces] = b;
        let kind = if rng.once_in(6) { rng.below(28) as u8 } else { DRIVING };
        plan.lanes.push(LaneRecord { direction: direction(rng), kind, ..lane(number, &points) });
    }
    link_by_ends(&mut plan);
    plan.links.truncate(1_000);
    if rng.once_in(2) {
        let extra = rng.below(12);
        link_at_random(rng, &mut plan, extra);
    }
    place_lanes(rng, &mut plan);
    let asked = rng.between(2, 10);
    ask(rng, &mut plan, asked, 4.0);
    plan
}

/// Lanes side by side, with neighbours; points midway between two are asked for.
pub fn parallel(rng: &mut Rng) -> Plan {
    let mut plan = Plan::default();
    let apart = rng.pick(&[3.5, 4.0, 1.0, 0.1]);
    let (count, pieces) = (rng.between(2, 8), rng.pick(&[1, 2, 4, 5, 9]));
    let length = rng.pick(&[8.0, 29.0, 30.0, 31.0, 60.0, 200.0]);
    let all = numbers(rng, count);
    for (i, &number) in all.iter().enumerate() {
        let points: Vec<[f32; 3]> =
            (0..=pieces).map(|k| [length * k as f32 / pieces as f32, apart * i as f32, 0.0]).collect();
        plan.lanes.push(LaneRecord { direction: direction(rng), ..lane(number, &points) });
    }
    for pair in all.windows(2) {
        plan.links.push(link(pair[0], NEIGHBOUR, pair[1]));
        if rng.once_in(2) {
            plan.links.push(link(pair[1], NEIGHBOUR, pair[0]));
        }
        if rng.once_in(3) {
            plan.links.push(link(pair[0], SUCCESSOR, pair[1]));
        }
    }
    place_lanes(rng, &mut plan);
    let midway = |rng: &mut Rng| {
        let y = apart * (rng.below(2 * count) as f32) / 2.0;
        [length * rng.unit() as f32, y, 0.0]
    };
    for _ in 0..rng.between(2, 6) {
        plan.queries.push(route(midway(rng), midway(rng)));
    }
    ask(rng, &mut plan, 3, apart);
    plan
}

/// Roads over roads: the same plan view at several heights.
pub fn stacked(rng: &mut Rng) -> Plan {
    let mut plan = town(rng);
    plan.queries.clear();
    let floors = rng.between(1, 3);
    let ground = plan.lanes.clone();
    for floor in 1..=floors {
        for lane in &ground {
            let number = lane.number.wrapping_add(10_000 * floor as u16);
            let rise = 5.0 * floor as f32;
            let points = lane.points.iter().map(|p| [p[0], p[1], p[2] + rise]).collect();
            plan.lanes.push(LaneRecord { number, points, ..lane.clone() });
        }
    }
    let extra = rng.below(20);
    link_at_random(rng, &mut plan, extra);
    for _ in 0..rng.between(2, 8) {
        let height = |rng: &mut Rng, p: [f32; 3]| [p[0], p[1], p[2] + 2.5 * rng.below(5) as f32];
        let (from, to) = (point_near(rng, &plan, 1.0), point_near(rng, &plan, 1.0));
        plan.queries.push(route(height(rng, from), height(rng, to)));
    }
    plan
}

/// Points that stand twice or hardly apart: segments around 1e-9 squared and 1e-6 long, lanes that turn back.
pub fn repeated(rng: &mut Rng) -> Plan {
    let mut plan = Plan::default();
    let apart = [0.0, 1e-7, 9.9e-7, 1e-6, 1.1e-6, 3.1e-5, 3.17e-5, 1e-4, 9e-4, 1e-3, 1.1e-3, 1.0, 2.0, -2.0];
    let count = rng.between(1, 6);
    for number in numbers(rng, count) {
        let mut at = [rng.below(9) as f32, rng.below(3) as f32, 0.0];
        let mut points = vec![at];
        for _ in 0..rng.between(1, 12) {
            let axis = rng.pick(&[0, 0, 0, 1, 2]);
            at[axis] += rng.pick(&apart);
            points.push(if rng.once_in(3) { points[rng.below(points.len())] } else { at });
        }
        plan.lanes.push(LaneRecord { direction: direction(rng), ..lane(number, &points) });
    }
    finish(rng, plan, 2.0)
}

/// Links, places and queries for lanes that were drawn without any.
fn finish(rng: &mut Rng, mut plan: Plan, reach: f32) -> Plan {
    let links = rng.below(3 * plan.lanes.len());
    link_at_random(rng, &mut plan, links);
    place_lanes(rng, &mut plan);
    let asked = rng.between(2, 10);
    ask(rng, &mut plan, asked, reach);
    plan
}

/// A square of cells whose borders are exact, with lanes and queries on the borders.
pub fn borders(rng: &mut Rng) -> Plan {
    let mut plan = Plan::default();
    let side = rng.pick(&[0.25, 1.0, 4.0, 8.0, 64.0, 4096.0]);
    let spot = |rng: &mut Rng| side * rng.below(9) as f32 / 8.0;
    let count = rng.pick(&[2, 8, 18, 32, 33]);
    for number in numbers(rng, count) {
        let a = [spot(rng), spot(rng), 0.0];
        let b = if rng.once_in(3) { a } else { [spot(rng), spot(rng), 0.0] };
        plan.lanes.push(lane(number, &[a, b]));
    }
    let corner = plan.lanes.len() - 1;
    plan.lanes[corner].points = vec![[0.0, 0.0, 0.0], [side, side, 0.0]];
    let mut plan = finish(rng, plan, side / 8.0);
    for _ in 0..6 {
        let (from, to) = ([spot(rng), spot(rng), 0.0], [spot(rng), spot(rng), 0.0]);
        plan.queries.push(route(from, to));
    }
    plan
}

/// Lanes without length on the borders of the grid's own cells, to the last bit, and queries there.
pub fn cells(rng: &mut Rng) -> Plan {
    let (w, h) = (rng.pick(&[0.7, 3.3, 10.0, 77.7]), rng.pick(&[0.0, 0.7, 5.1]));
    let count = rng.between(4, 30);
    let corners = [[0.0, 0.0, 0.0], [w, h, 0.0]];
    let lanes: Vec<LaneRecord> = numbers(rng, count).iter().map(|&number| lane(number, &corners)).collect();
    let mut plan = Plan { lanes, ..Plan::default() };
    // The cells depend on the corners and the number of spans alone.
    let grid = bake(&plan).index.grid;
    let spot = |rng: &mut Rng| {
        let on = |rng: &mut Rng, most: f32, cells: usize| {
            let border = rng.below(cells.min(12) + 1) as f32 * grid.cell;
            let near = rng.pick(&[border, border, border, border.next_up(), border.next_down()]);
            near.clamp(0.0, most)
        };
        [on(rng, w, grid.cols), on(rng, h, grid.rows), 0.0]
    };
    for i in 0..count - 1 {
        let at = spot(rng);
        plan.lanes[i].points = vec![at, at];
    }
    rng.shuffle(&mut plan.lanes);
    for _ in 0..16 {
        let at = spot(rng);
        plan.queries.push(route(at, at));
    }
    plan
}

/// Coordinates at and near the ends of their range.
pub fn extreme(rng: &mut Rng) -> Plan {
    let ends = [4096.0, -4096.0, 4095.9998, -4095.9998, 2048.0, 0.0, 1e-3, -1e-3];
    let mut plan = Plan::default();
    let count = rng.between(1, 10);
    for number in numbers(rng, count) {
        let spot = |rng: &mut Rng| {
            let anywhere = rng.spread(4096.0);
            if rng.once_in(3) {
                anywhere
            } else {
                rng.pick(&ends)
            }
        };
        let points: Vec<[f32; 3]> = (0..rng.between(2, 10)).map(|_| [spot(rng), spot(rng), spot(rng)]).collect();
        plan.lanes.push(LaneRecord { direction: direction(rng), ..lane(number, &points) });
    }
    finish(rng, plan, 5_000.0)
}

/// Zeros of both signs, subnormals and other very small numbers.
pub fn zeros(rng: &mut Rng) -> Plan {
    let small =
        [0.0, -0.0, f32::from_bits(1), -f32::from_bits(1), f32::MIN_POSITIVE, 1e-30, -1e-20, 1e-19, 3e-5, 1.0, -1.0];
    let mut plan = Plan::default();
    let count = rng.between(1, 6);
    for number in numbers(rng, count) {
        let points: Vec<[f32; 3]> = (0..rng.between(2, 6)).map(|_| [0; 3].map(|_| rng.pick(&small))).collect();
        plan.lanes.push(LaneRecord { direction: direction(rng), ..lane(number, &points) });
    }
    let mut plan = finish(rng, plan, 1.0);
    for _ in 0..4 {
        let spot = |rng: &mut Rng| [0; 3].map(|_| rng.pick(&small));
        plan.queries.push(route(spot(rng), spot(rng)));
    }
    plan
}

/// Lanes of many kilometres, whose sampling passes the list, and short trips on them.
pub fn long(rng: &mut Rng) -> Plan {
    let mut plan = Plan::default();
    let count = rng.between(1, 4);
    for number in numbers(rng, count) {
        let end = rng.pick(&[4096.0, 4000.0, 2047.5, 1023.75]);
        let points: Vec<[f32; 3]> = (0..rng.pick(&[2, 3, 5, 40, 300]))
            .map(|i| {
                let side = if i % 2 == 0 { -end } else { end };
                [side, i as f32 * rng.pick(&[0.0, 0.5, 4.0]), rng.pick(&[0.0, 0.0, side])]
            })
            .collect();
        plan.lanes.push(LaneRecord { direction: direction(rng), ..lane(number, &points) });
    }
    let mut plan = finish(rng, plan, 3.0);
    for _ in 0..3 {
        let from = point_near(rng, &plan, 0.0);
        let hop = rng.pick(&[0.0, 1.0, 20.0, -20.0]);
        plan.queries.push(route(from, [from[0] + hop, from[1], from[2]]));
    }
    plan
}

/// Lanes without length, alone and in rings, among others.
pub fn pointlike(rng: &mut Rng) -> Plan {
    let mut plan = Plan::default();
    let count = rng.between(2, 8);
    let all = numbers(rng, count);
    for &number in &all {
        let at = [rng.below(4) as f32 * 2.0, 0.0, 0.0];
        let other = if rng.once_in(3) { [at[0] + 2.0, 0.0, 0.0] } else { at };
        let pieces = rng.between(1, 3);
        let points: Vec<[f32; 3]> = (0..=pieces).map(|i| if i == pieces { other } else { at }).collect();
        plan.lanes.push(LaneRecord { direction: direction(rng), ..lane(number, &points) });
    }
    for i in 0..count {
        plan.links.push(link(all[i], SUCCESSOR, all[(i + 1) % count]));
        plan.links.push(link(all[(i + 1) % count], PREDECESSOR, all[i]));
    }
    finish(rng, plan, 1.0)
}

/// A star of two-way and one-way lanes that meet at one point, for advances through it.
pub fn star(rng: &mut Rng) -> Plan {
    let mut plan = Plan::default();
    let count = rng.between(2, 7);
    for number in numbers(rng, count) {
        let arm = [rng.spread(20.0).round(), rng.spread(20.0).round(), 0.0];
        let points = if rng.once_in(2) { [arm, [0.0; 3]] } else { [[0.0; 3], arm] };
        let direction = rng.pick(&[FORWARD, BACKWARD, BOTH, BOTH]);
        plan.lanes.push(LaneRecord { direction, ..lane(number, &points) });
    }
    link_by_ends(&mut plan);
    let extra = rng.below(4);
    link_at_random(rng, &mut plan, extra);
    place_lanes(rng, &mut plan);
    for _ in 0..rng.between(3, 10) {
        let query = ask_advance(rng, &plan);
        plan.queries.push(query);
    }
    ask(rng, &mut plan, 3, 2.0);
    plan
}

/// A ring of lanes: goals behind the start are reached round it.
pub fn ring(rng: &mut Rng) -> Plan {
    let mut plan = Plan::default();
    let count = rng.between(1, 6);
    let all = numbers(rng, count);
    let backward = rng.once_in(3);
    for (i, &number) in all.iter().enumerate() {
        let corner = |k: usize| {
            let turn = k as f64 / count as f64 * std::f64::consts::TAU;
            [(20.0 * turn.cos()) as f32, (20.0 * turn.sin()) as f32, 0.0]
        };
        let (a, b) = (corner(i), corner(i + 1));
        let middle = [a[0] * 0.5 + b[0] * 0.5 + 1.0, a[1] * 0.5 + b[1] * 0.5, 0.0];
        let mut points = vec![a, middle, b];
        if backward {
            points.reverse();
        }
        let direction = if backward { BACKWARD } else { FORWARD };
        plan.lanes.push(LaneRecord { direction, ..lane(number, &points) });
        plan.links.push(link(number, SUCCESSOR, all[(i + 1) % count]));
        plan.links.push(link(all[(i + 1) % count], PREDECESSOR, number));
    }
    if rng.once_in(2) {
        let extra = rng.below(4);
        link_at_random(rng, &mut plan, extra);
    }
    place_lanes(rng, &mut plan);
    for _ in 0..rng.between(3, 8) {
        let at = rng.below(count);
        let points = plan.lanes[at].points.clone();
        let on = |rng: &mut Rng| {
            let t = rng.unit() as f32;
            [0, 1, 2].map(|k| points[0][k] + (points[1][k] - points[0][k]) * t)
        };
        plan.queries.push(route(on(rng), on(rng)));
    }
    ask(rng, &mut plan, 3, 2.0);
    plan
}

/// Layers of lanes of equal length, fully linked: many chains of one cost, told apart by number alone.
pub fn ties(rng: &mut Rng) -> Plan {
    let mut plan = Plan::default();
    let (layers, wide) = (rng.between(2, 5), rng.between(1, 4));
    let all = numbers(rng, layers * wide);
    let length = rng.pick(&[8.0, 30.0, 15.0, 29.999998, 30.000002, 0.5]);
    for (i, &number) in all.iter().enumerate() {
        let (layer, row) = (i / wide, i % wide);
        let x = length * layer as f32;
        let y = 3.0 * row as f32;
        plan.lanes.push(lane(number, &[[x, y, 0.0], [x + length, y, 0.0]]));
    }
    for i in 0..layers * wide {
        for j in 0..layers * wide {
            let next_layer = i / wide + 1 == j / wide;
            if next_layer && !rng.once_in(5) {
                plan.links.push(link(all[i], SUCCESSOR, all[j]));
            }
            if i != j && (next_layer || i / wide == j / wide) && rng.once_in(4) {
                plan.links.push(link(all[i], NEIGHBOUR, all[j]));
            }
        }
    }
    rng.shuffle(&mut plan.links);
    if rng.once_in(3) {
        plan.links.push(link(all[layers * wide - 1], SUCCESSOR, all[0]));
    }
    for _ in 0..rng.between(2, 6) {
        let row = 3.0 * rng.below(wide) as f32;
        let from = [length * 0.25, 3.0 * rng.below(wide) as f32, 0.0];
        plan.queries.push(route(from, [length * (layers as f32 - 0.5), row, 0.0]));
    }
    ask(rng, &mut plan, 2, 1.0);
    plan
}

/// Costs that stop growing: long lanes first, then lanes shorter than half a step of the sum.
pub fn absorbed(rng: &mut Rng) -> Plan {
    let mut plan = Plan::default();
    let count = rng.between(3, 7);
    let all = numbers(rng, count);
    for (i, &number) in all.iter().enumerate() {
        let points: Vec<[f32; 3]> = if i == 0 {
            (0..rng.pick(&[100, 300])).map(|k| [if k % 2 == 0 { -4096.0 } else { 4096.0 }, 0.0, 4096.0]).collect()
        } else {
            let size = rng.pick(&[1e-4, 1e-3, 0.01, 0.1, 0.0]);
            vec![[i as f32, 1.0, 0.0], [i as f32 + size, 1.0, 0.0]]
        };
        plan.lanes.push(lane(number, &points));
    }
    for i in 0..count {
        for j in 0..count {
            if i != j && !rng.once_in(3) {
                plan.links.push(link(all[i], rng.pick(&[SUCCESSOR, SUCCESSOR, NEIGHBOUR]), all[j]));
            }
        }
    }
    for _ in 0..3 {
        let from = [4095.0 * rng.unit() as f32, 0.0, 4096.0];
        plan.queries.push(route(from, [rng.between(1, count - 1) as f32, 1.0, 0.0]));
        plan.queries
            .push(route([rng.between(1, count - 1) as f32, 1.0, 0.0], [rng.between(1, count - 1) as f32, 1.0, 0.0]));
    }
    plan
}

/// Few lanes and many links, most of them to lanes that the plan lacks or to the lane itself.
pub fn missing(rng: &mut Rng) -> Plan {
    let mut plan = town(rng);
    for _ in 0..rng.between(1, 20) {
        let from = plan.lanes[rng.below(plan.lanes.len())].number;
        let to = if rng.once_in(3) { from } else { rng.next() as u16 };
        plan.links.insert(rng.below(plan.links.len() + 1), link(from, rng.below(3) as u8, to));
    }
    ask(rng, &mut plan, 4, 4.0);
    plan
}

/// Sections whose start and end are not their first and last station, and advances within them.
pub fn off_stations(rng: &mut Rng) -> Plan {
    let mut plan = Plan::default();
    let count = rng.between(1, 5);
    let all = numbers(rng, count);
    for (i, &number) in all.iter().enumerate() {
        let pieces = rng.between(1, 6);
        let points: Vec<[f32; 3]> =
            (0..=pieces).map(|k| [8.0 * i as f32 + 8.0 * k as f32 / pieces as f32, rng.spread(0.5), 0.0]).collect();
        plan.lanes.push(LaneRecord { direction: direction(rng), ..lane(number, &points) });
        let length = rng.pick(&[8.0, 4.0, 100.0, 1e-9]);
        let stations = stations(rng, pieces + 1, length);
        let (low, high) = (stations[0] * rng.unit(), stations[pieces] + 10.0 * rng.unit());
        let mut ends = [low, high, stations[0], stations[pieces], low + (high - low) * rng.unit()];
        rng.shuffle(&mut ends);
        let (start, end) = (ends[0].min(ends[1]), ends[0].max(ends[1]));
        plan.sections.push(SectionRecord { road: i as u16, index: 3, start, end, stations });
        plan.places.push(PlaceRecord { lane: number, road: i as u16, index: 3, od_id: -(i as i32) });
        plan.links.push(link(number, SUCCESSOR, all[(i + 1) % count]));
        plan.links.push(link(all[(i + 1) % count], PREDECESSOR, number));
    }
    for _ in 0..rng.between(4, 10) {
        let query = if rng.once_in(5) { ask_beside(rng, &plan) } else { ask_advance(rng, &plan) };
        plan.queries.push(query);
    }
    plan
}

/// Queries with any bits on a small plan.
pub fn odd_queries(rng: &mut Rng) -> Plan {
    let mut plan = town(rng);
    for _ in 0..rng.between(4, 10) {
        let spot = |rng: &mut Rng, plan: &Plan| {
            let mut p = point_near(rng, plan, 10.0);
            if !rng.once_in(3) {
                p[rng.below(3)] = rng.odd_f32();
            }
            p
        };
        let number = plan.lanes[rng.below(plan.lanes.len())].number;
        let query = match rng.below(3) {
            0 => route(spot(rng, &plan), spot(rng, &plan)),
            1 => advance(number, rng.odd_f64(), rng.odd_f64(), rng.odd_f64()),
            _ => beside(number, rng.odd_f64(), rng.below(2) as u8),
        };
        plan.queries.push(query);
    }
    plan
}

/// Loops and fans whose keys and positions come near 1,024 and 256, from both sides.
pub fn keys(rng: &mut Rng) -> Plan {
    let mut plan = Plan::default();
    let fan = rng.pick(&[1, 2, 3, 40, 126, 127, 128, 129, 253]);
    let feeders = rng.between(1, 3);
    // Feeders of different lengths lead into one fan, so that each of its lanes is entered once for each.
    for i in 0..feeders {
        let y = i as f32;
        let start: f32 = 8.0 - rng.pick(&[8.0, 4.0, 7.0, 7.9996]) + if i == 0 { -1.0 } else { 0.0 };
        plan.lanes.push(lane(i as u16 + 1, &[[start.min(7.9), y, 0.0], [8.0, y, 0.0]]));
    }
    plan.lanes
        .push(LaneRecord { direction: rng.pick(&[FORWARD, BOTH]), ..lane(0, &[[-8.0, 0.0, 0.0], [0.0, 0.0, 0.0]]) });
    for i in 0..feeders {
        plan.links.push(link(0, SUCCESSOR, i as u16 + 1));
        plan.links.push(link(i as u16 + 1, SUCCESSOR, 0));
    }
    for i in 0..fan.min(252) {
        let number = i as u16 + 10;
        plan.lanes.push(lane(number, &[[8.0, i as f32, 0.0], [16.0, i as f32, 0.0]]));
        for j in 0..feeders {
            plan.links.push(link(j as u16 + 1, SUCCESSOR, number));
        }
        if rng.once_in(40) {
            plan.links.push(link(number, SUCCESSOR, 0));
        }
    }
    plan.sections.push(SectionRecord { road: 0, index: 0, start: 0.0, end: 20.0, stations: vec![0.0, 8.0] });
    let count = plan.lanes.len();
    for i in 0..count.min(256) {
        if !rng.once_in(50) {
            plan.places.push(PlaceRecord { lane: plan.lanes[i].number, road: 0, index: 0, od_id: i as i32 });
        }
    }
    for _ in 0..rng.between(2, 5) {
        let far = rng.pick(&[4.0, 10.0, 16.5, 20.0, 24.0, 40.0, 100.0, 8200.0, 8200.5, 1e6, 1e15, 1e300]);
        plan.queries.push(advance(rng.pick(&[0, 0, 1]), rng.pick(&[0.0, 2.0, 8.0]), rng.pick(&[0.0, 0.5]), far));
    }
    plan
}

/// As many lanes, points, links, stations and places as the file's size allows.
pub fn full(rng: &mut Rng) -> Plan {
    let mut plan = Plan::default();
    let count = rng.pick(&[256, 255, 200]);
    let each = rng.between(2, 12);
    let scale = rng.pick(&[4096.0, 300.0, 20.0]);
    for number in numbers(rng, count) {
        let start = [rng.spread(scale), rng.spread(scale), rng.spread(10.0)];
        let points: Vec<[f32; 3]> =
            (0..each).map(|_| start.map(|c| (c + rng.spread(scale / 10.0)).clamp(-4096.0, 4096.0))).collect();
        plan.lanes.push(LaneRecord { direction: direction(rng), ..lane(number, &points) });
    }
    let links = rng.pick(&[256, 600, 1_200]);
    link_at_random(rng, &mut plan, links);
    place_lanes(rng, &mut plan);
    ask(rng, &mut plan, 12, scale / 2.0);
    plan
}

/// All lanes on one line: a grid of one row and up to 1,024 columns.
pub fn line(rng: &mut Rng) -> Plan {
    let mut plan = Plan::default();
    let count = rng.pick(&[1, 2, 3, 20, 60]);
    let axis = rng.below(2);
    let scale = rng.pick(&[1.0, 100.0, 4096.0]);
    for number in numbers(rng, count) {
        let spot = |rng: &mut Rng| {
            let mut p = [0.0; 3];
            p[axis] = if rng.once_in(2) { rng.spread(scale) } else { scale * rng.below(9) as f32 / 8.0 };
            p
        };
        let points: Vec<[f32; 3]> = (0..rng.between(2, 7)).map(|_| spot(rng)).collect();
        plan.lanes.push(LaneRecord { direction: direction(rng), ..lane(number, &points) });
    }
    finish(rng, plan, scale)
}

/// Lanes that end at one distance from the query but for the rounding of each, so that the order in which spans
/// are visited decides: on a circle about it, at one point far from it, or on both sides of it on a line.
pub fn last_bit(rng: &mut Rng) -> Plan {
    let mut plan = Plan::default();
    let centre = if rng.once_in(2) { [0.0; 3] } else { [rng.spread(30.0), rng.spread(30.0), 0.0] };
    let scale = rng.pick(&[20.0, 60.0, 100.3, 200.0, 0.03]) * (0.5 + rng.unit() as f32);
    let style = rng.below(3);
    let count = rng.between(4, 20);
    for number in numbers(rng, count) {
        let points = last_bit_points(rng, centre, scale, style);
        plan.lanes.push(lane(number, &points));
    }
    plan.queries.push(route(centre, centre));
    for _ in 0..12 {
        let aside = scale * 0.1;
        let near = [centre[0] + rng.spread(aside), centre[1] + rng.spread(aside), rng.spread(0.01)];
        let far = [centre[0] - scale * 10.0 * rng.unit() as f32, centre[1] - scale * 10.0 * rng.unit() as f32, 0.0];
        plan.queries.push(if rng.once_in(2) { route(near, near) } else { route(far, far) });
    }
    plan
}

/// One lane of `last_bit`: it comes from farther out and ends at five times `scale` from the centre.
fn last_bit_points(rng: &mut Rng, centre: [f32; 3], scale: f32, style: usize) -> Vec<[f32; 3]> {
    let circle = [[3.0, 4.0], [4.0, 3.0], [5.0, 0.0], [0.0, 5.0]];
    let sign = |rng: &mut Rng| rng.pick(&[1.0, -1.0]);
    let end = match style {
        0 => rng.pick(&circle).map(|c: f32| c * scale * sign(rng)),
        1 => [scale * 3.0, scale * 4.0],
        _ => [5.0 * scale * sign(rng), 0.0],
    };
    // The farther out a lane starts, the more of its end's bits are lost on the way there.
    let out = 1.5 + 6.0 * rng.unit() as f32;
    let mut start = [end[0] * out, end[1] * out, rng.spread(0.1)];
    if style != 2 {
        start = [start[0] + rng.spread(scale), start[1] + rng.spread(scale), start[2]];
    }
    let pieces = rng.pick(&[1, 1, 2, 4, 5, 9]);
    let goal = [centre[0] + end[0], centre[1] + end[1], 0.0];
    let on = |k: usize| {
        let t = k as f32 / pieces as f32;
        [0, 1, 2].map(|i| (centre[i] + start[i] + (goal[i] - start[i]) * t).clamp(-4096.0, 4096.0))
    };
    let mut points: Vec<[f32; 3]> = (0..pieces).map(on).collect();
    points.push(goal);
    if rng.once_in(4) {
        points.reverse();
    }
    points
}

/// Chains with about as many points as the list holds.
pub fn sampled(rng: &mut Rng) -> Plan {
    let mut plan = Plan::default();
    let count = rng.between(1, 3);
    let all = numbers(rng, count);
    let length = 8190.0 / count as f32 + rng.pick(&[0.0, -0.5, 0.5, -2.0, 2.0, 1e-3]);
    for (i, &number) in all.iter().enumerate() {
        let side = if i % 2 == 0 { 1.0 } else { -1.0 };
        let (a, b) = ([-side * length / 2.0, 4.0 * i as f32, 0.0], [side * length / 2.0, 4.0 * i as f32, 0.0]);
        plan.lanes.push(LaneRecord { direction: rng.pick(&[FORWARD, FORWARD, BOTH]), ..lane(number, &[a, b]) });
        if i > 0 {
            plan.links.push(link(all[i - 1], rng.pick(&[SUCCESSOR, SUCCESSOR, NEIGHBOUR]), number));
        }
    }
    let last = count - 1;
    let side = if last % 2 == 0 { 1.0 } else { -1.0 };
    for _ in 0..2 {
        let from = [-length / 2.0 + rng.pick(&[0.0, 1.0, 2.0]), 0.0, 0.0];
        let to = [side * (length / 2.0 - rng.pick(&[0.0, 1.0, 2.0])), 4.0 * last as f32, 0.0];
        plan.queries.push(route(from, to));
    }
    plan
}

/// Lanes with tangents of any bits, and those of the other types.
pub fn tangents(rng: &mut Rng) -> Plan {
    let mut plan = town(rng);
    for lane in &mut plan.lanes {
        let vector = |rng: &mut Rng| {
            if rng.once_in(2) {
                [rng.spread(2.0), rng.spread(2.0), rng.spread(1.0)]
            } else {
                [0; 3].map(|_| rng.odd_f32())
            }
        };
        lane.ends = Some([vector(rng), vector(rng)]);
    }
    plan
}
