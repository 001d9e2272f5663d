//! Plans that stand exactly on a threshold of the code, with the caller's queries that show it.

use super::sketch::*;
use super::Case;
use crate::reader::{LaneRecord, Plan, Query};
use crate::write::Records;

pub fn cases() -> Vec<Case> {
    let mut cases = vec![
        short_segment(),
        short_squared_segment(),
        kept_points(),
        minus_zero_fraction(),
        past_the_end(),
        half_millimetre(),
        odd_nans(),
        zero_distances(),
        samples_a_millimetre_apart(),
        advance_by_nothing(),
        vanished_segments(),
        ring_stop(),
        short_span(),
    ];
    cases.extend(last_bits());
    cases
}

fn case(name: &str, plan: &Plan, queries: Vec<Query>) -> Case {
    Case { name: format!("edge-{name}"), file: Records::from(plan).bytes(), queries }
}

/// A pair of floats whose squares, rounded and added, are exactly `sum`.
fn legs(sum: f32) -> [f32; 2] {
    let long = sum.sqrt();
    let candidates = (0..64).map(|down| f32::from_bits(long.to_bits() - down));
    for x in candidates {
        for part in 0..4_096 {
            let y = long * part as f32 / 65_536.0;
            if x * x + y * y == sum {
                return [x, y];
            }
        }
    }
    [long, 0.0]
}

/// Segments one bit below, at and above 1e-6 m: up to there the fraction is 0.
fn short_segment() -> Case {
    let limit = 1e-6f32;
    let mut plan = Plan::default();
    let mut queries = Vec::new();
    for (number, x) in [(1, limit.next_down()), (2, limit), (3, limit.next_up())] {
        plan.lanes.push(lane(number, &[[0.0; 3], [x, 0.0, 0.0], [x, f32::from(number), 0.0]]));
        for s in [0.0, x / 2.0, x.next_down(), x] {
            queries.push(Query::Pose { lane: usize::from(number), s });
        }
    }
    case("segment-of-1e-6", &plan, queries)
}

/// Segments whose squared length is one bit around 1e-9: up to there the projection stays at the start.
fn short_squared_segment() -> Case {
    let limit = 1e-9f32;
    let mut plan = Plan::default();
    let mut queries = Vec::new();
    for (number, sum) in [(1, limit.next_down()), (2, limit), (3, limit.next_up())] {
        let ([x, y], z) = (legs(sum), f32::from(number));
        plan.lanes.push(lane(number, &[[0.0, 0.0, z], [x, y, z]]));
        queries.extend([x / 2.0, x, 1.0].map(|x| Query::Nearest { point: [x, y, z] }));
    }
    case("squared-segment-of-1e-9", &plan, queries)
}

/// Points whose squared distance is one bit around 1e-6: up to there the second is dropped.
fn kept_points() -> Case {
    let limit = 1e-6f32;
    let mut plan = Plan::default();
    for (number, sum) in [(1, limit.next_down()), (2, limit), (3, limit.next_up())] {
        let ([x, y], z) = (legs(sum), f32::from(number));
        plan.lanes.push(lane(number, &[[0.0, 0.0, z], [x, y, z]]));
        plan.queries.push(route([0.0, 0.0, z], [x, y, z]));
    }
    case("points-a-millimetre-apart", &plan, Vec::new())
}

/// A fraction of minus zero stays so, and shows in the sign of the nearest point.
fn minus_zero_fraction() -> Case {
    let plan = Plan { lanes: vec![lane(1, &[[-0.0; 3], [-1.0; 3]])], ..Plan::default() };
    let points = [[-0.0; 3], [0.0; 3], [0.0, -0.0, 0.0], [1.0; 3]];
    case("minus-zero-fraction", &plan, points.map(|point| Query::Nearest { point }).to_vec())
}

/// Advances whose rounded sum passes the lane's length, and those that come just short of it.
fn past_the_end() -> Case {
    let mut plan = Plan::default();
    // A length with an odd last bit: one and a half bits from the start, the room's rounding passes it.
    let length = f32::from_bits(0x4100_0003);
    let stations = [0.0, 4.0, f64::from(length)];
    for (number, direction) in [(1, FORWARD), (2, BOTH)] {
        let points = [[0.0; 3], [4.0, 0.0, 0.0], [length, 0.0, 0.0]];
        plan.lanes.push(LaneRecord { direction, ..lane(number, &points) });
        place_alone(&mut plan, number, number, &stations);
        for step in 0..24 {
            let s = f64::from(step) * 2f64.powi(-22);
            plan.queries.push(advance(number, s, 0.0, 9.0));
        }
    }
    case("past-the-end", &plan, Vec::new())
}

/// Metres left of 62.5 mm and 63 mm are one key: halves are rounded away from zero.
fn half_millimetre() -> Case {
    let mut plan = Plan::default();
    let shorter = 1.0 - 2f32.powi(-11);
    plan.lanes.push(lane(1, &[[0.0; 3], [8.0, 0.0, 0.0]]));
    plan.lanes.push(lane(2, &[[8.0, 0.0, 0.0], [9.0, 0.0, 0.0]]));
    plan.lanes.push(lane(3, &[[8.0, 1.0, 0.0], [8.0 + shorter, 1.0, 0.0]]));
    plan.lanes.push(lane(4, &[[9.0, 0.0, 0.0], [17.0, 0.0, 0.0]]));
    plan.links = [(1, 2), (1, 3), (2, 4), (3, 4)].map(|(from, to)| link(from, SUCCESSOR, to)).to_vec();
    for number in 1..=4 {
        place_alone(&mut plan, number, number, &[0.0, 8.0]);
    }
    plan.queries = [9.0625, 9.0615, 9.0005].map(|metres| advance(1, 0.0, 0.0, metres)).to_vec();
    case("half-millimetre", &plan, Vec::new())
}

/// NaNs of several bits are printed as one.
fn odd_nans() -> Case {
    let mut plan = Plan { lanes: vec![lane(1, &[[0.0; 3], [8.0, 0.0, 0.0]])], ..Plan::default() };
    place_alone(&mut plan, 1, 0, &[0.0, 8.0]);
    let nans = [0xFFF8_0000_0000_0001, 0x7FF0_0000_0000_0001, 0x7FFF_FFFF_FFFF_FFFF, 0xFFF8_0000_0000_0000u64];
    plan.queries = nans.map(|bits| advance(1, 2.0, f64::from_bits(bits), 3.0)).to_vec();
    let poses = [0x7FC0_0001, 0xFFC0_0000, 0x7F80_0001].map(|bits| Query::Pose { lane: 1, s: f32::from_bits(bits) });
    case("odd-nans", &plan, poses.to_vec())
}

/// Distances of either zero, on lanes of each direction.
fn zero_distances() -> Case {
    let mut plan = Plan::default();
    for (number, direction) in [(1, FORWARD), (2, BACKWARD), (3, BOTH)] {
        plan.lanes.push(LaneRecord { direction, ..lane(number, &[[0.0; 3], [8.0, f32::from(number), 0.0]]) });
        plan.links.push(link(number, SUCCESSOR, 1));
        plan.links.push(link(number, PREDECESSOR, 2));
        place_alone(&mut plan, number, number, &[0.0, 8.0]);
        for s in [0.0, 3.0, 8.0] {
            plan.queries.push(advance(number, s, 0.5, 0.0));
            plan.queries.push(advance(number, s, 0.5, -0.0));
        }
    }
    case("zero-distances", &plan, Vec::new())
}

/// Trips of about a millimetre far from the origin, where rounding decides whether the second point is kept.
fn samples_a_millimetre_apart() -> Case {
    let mut plan = Plan::default();
    let far = 4_000.0;
    plan.lanes.push(lane(1, &[[far, far, far], [far + 3.0, far + 5.0, far + 7.0]]));
    for step in 0..60 {
        let along = step as f32 * 0.05;
        let at = |d: f32| [far + 3.0 * d, far + 5.0 * d, far + 7.0 * d];
        plan.queries.push(route(at(along), at(along + 1.0 / 9_000.0)));
    }
    case("samples-a-millimetre-apart", &plan, Vec::new())
}

/// An advance by 0 from a station does not come back to it: both roundings that can move it do.
fn advance_by_nothing() -> Case {
    let up = 1.0 + 3.0 * 2f32.powi(-23);
    let bit = 2f64.powi(-49);
    let mut plan = Plan::default();
    plan.lanes.push(lane(1, &[[0.0; 3], [1.0, 0.0, 0.0], [1.0, up, 0.0], [1.0, up, 5.0]]));
    let stations = [0.0, 1.5 * bit, 8.0 + 3.0 * bit, 13.0];
    place_alone(&mut plan, 1, 0, &stations);
    plan.queries = stations.map(|s| advance(1, s, 0.0, 0.0)).to_vec();
    case("advance-by-nothing", &plan, Vec::new())
}

/// A hundred pieces too short for the rounded sum of lengths: 3 mm lie between two neighbouring floats of s, and
/// a trip over them of less than 1e-4 m of s is sampled once.
fn vanished_segments() -> Case {
    let (long, short) = (600.0f32, 2.9e-5);
    let mut points = vec![[0.0; 3]];
    points.extend((0..=100).map(|k| [long, k as f32 * short, 0.0]));
    points.push([long, 1.0, 0.0]);
    let mut plan = Plan { lanes: vec![lane(1, &points)], ..Plan::default() };
    let before = [long.next_down(), 0.0, 0.0];
    for k in [0, 50, 100] {
        plan.queries.push(route(before, points[1 + k]));
    }
    plan.queries.push(route(points[1], points[102]));
    let stations = [long.next_down(), long, long.next_up()];
    case("vanished-segments", &plan, stations.map(|s| Query::Pose { lane: 1, s }).to_vec())
}

/// Last lanes left one bit below, at and above 1e-4 m from where they are entered: from there on there is a second
/// sample. The first lies within 1 mm of the last point kept and is dropped; the second does not.
fn short_span() -> Case {
    let limit = 1e-4f32;
    let mut plan = Plan::default();
    plan.lanes.push(lane(1, &[[-8.0, 0.0, 0.0], [-0.000_99, 0.0, 0.0]]));
    plan.lanes.push(lane(2, &[[0.0; 3], [1.0, 0.0, 0.0]]));
    plan.links.push(link(1, SUCCESSOR, 2));
    let goals = [limit.next_down(), limit, limit.next_up()];
    plan.queries = goals.map(|x| route([-4.0, 0.0, 0.0], [x, 0.0, 0.0])).to_vec();
    case("span-of-1e-4", &plan, Vec::new())
}

/// Two lanes at the distance at which the rings stop, one of them a ring too far out by rounding. It was found
/// among the family's plans.
fn ring_stop() -> Case {
    let found = super::family_case("cells", 1, 3461).expect("the family is listed");
    Case { name: "edge-ring-stop".to_string(), ..found }
}

/// Plans in which the order of visiting spans decides, found among their family's.
fn last_bits() -> impl Iterator<Item = Case> {
    [18, 34, 36, 40, 50, 80, 1850].into_iter().filter_map(|index| {
        let found = super::family_case("last-bit", 1, index)?;
        Some(Case { name: format!("edge-last-bit-{index}"), ..found })
    })
}
