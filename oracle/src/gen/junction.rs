//! The junction cases of document 01, and the findings of document 03, as plans.

use super::sketch::*;
use super::Case;
use crate::reader::{LaneRecord, PlaceRecord, Plan, Query, SectionRecord};
use crate::write::Records;

const START: [f32; 3] = [0.0, 0.0, 0.0];
const END: [f32; 3] = [8.0, 0.0, 0.0];

/// Lane 1 unless said: from (0,0,0) to (8,0,0).
fn usual(number: u16) -> LaneRecord {
    lane(number, &[START, END])
}

fn at(x: f32) -> [f32; 3] {
    [x, 0.0, 0.0]
}

pub fn cases() -> Vec<Case> {
    let mut cases = vec![
        case("printed", printed()),
        case("empty", Plan::default()),
        case("empty-route", Plan { queries: vec![route(START, END)], ..Plan::default() }),
        case("equal-costs", equal_costs()),
        case("successor-and-neighbour", successor_and_neighbour()),
        case("closed-chain", closed_chain(true)),
        case("closed-chain-without-link", closed_chain(false)),
        case("advance", advances()),
        case("sides", sides()),
        case("midway", midway()),
        case("box-test", box_test()),
        case("zero-length-key", zero_length_key()),
        case("length-plus-zero", length_plus_zero()),
        case("keys-1024", loop_keys(8200.0)),
        case("keys-1025", loop_keys(8200.5)),
        case("positions-256", fan_positions(128, 0)),
        case("positions-257", fan_positions(128, 1)),
        case("points-4096", straight(8190.0)),
        case("points-4097", straight(8190.001)),
        case("chain-257", closed_ring(256)),
        case("long-lane-short-trip", long_lane()),
        case("one-row-of-1024", one_row()),
        case("offset-nan", offset_nan()),
        case("change-of-lane", change_of_lane()),
        case("far-points", far_points()),
        case("nothing-advanced", nothing_advanced()),
        case("all-types", all_types()),
        case("nothing-drives", nothing_drives()),
        case("refused-queries", refused_queries()),
        case("empty-queries", Plan { queries: refused_queries().queries, ..Plan::default() }),
        case("longest-answer", longest_answer()),
    ];
    cases.push(queries_first());
    for metres in [0.0, 6.0, 6.5, 20.0, -2.0, -3.0] {
        let mut plan = advances();
        plan.queries = vec![advance(1, 2.0, 0.0, metres)];
        cases.push(case(&format!("advance-{metres}"), plan));
    }
    cases
}

fn case(name: &str, plan: Plan) -> Case {
    Case { name: format!("junction-{name}"), file: Records::from(&plan).bytes(), queries: caller_queries() }
}

/// Queries that only the caller asks, of each of these plans: its two ends, its sides, a side that is none.
fn caller_queries() -> Vec<Query> {
    let mut queries: Vec<Query> = [-1.0, 0.0, 2.0, 8.0, 9.0, f32::NAN].map(|s| Query::Pose { lane: 1, s }).to_vec();
    let points = [START, at(4.0), [4.0, 1.0, 0.0], [20.0, -3.0, 2.0], [f32::INFINITY, 0.0, 0.0]];
    queries.extend(points.map(|point| Query::Nearest { point }));
    queries.extend([0, 1, 2, 255].map(|side| Query::Beside { lane: 1, s: 2.0, side }));
    queries.push(Query::Pose { lane: 70_000, s: 0.0 });
    queries
}

fn printed() -> Plan {
    Plan {
        lanes: vec![usual(1), lane(2, &[END, at(16.0)])],
        links: vec![link(1, SUCCESSOR, 2)],
        queries: vec![route(at(2.0), at(12.0))],
        ..Plan::default()
    }
}

/// Costs 8 and 8 to lanes 2 and 3, both leading to 4.
fn equal_costs() -> Plan {
    let beside = |number: u16, y: f32| lane(number, &[[8.0, y, 0.0], [16.0, y, 0.0]]);
    Plan {
        lanes: vec![usual(1), beside(2, 1.0), beside(3, -1.0), lane(4, &[at(16.0), at(24.0)])],
        links: vec![link(1, SUCCESSOR, 2), link(1, SUCCESSOR, 3), link(2, SUCCESSOR, 4), link(3, SUCCESSOR, 4)],
        queries: vec![route(at(2.0), at(20.0))],
        ..Plan::default()
    }
}

/// A 32 m lane with the goal as successor and neighbour.
fn successor_and_neighbour() -> Plan {
    Plan {
        lanes: vec![lane(1, &[START, at(32.0)]), lane(2, &[at(32.0), at(40.0)])],
        links: vec![link(1, SUCCESSOR, 2), link(1, NEIGHBOUR, 2)],
        queries: vec![route(at(2.0), at(36.0))],
        ..Plan::default()
    }
}

/// A lane with itself as successor, from s 6 to s 2.
fn closed_chain(linked: bool) -> Plan {
    Plan {
        lanes: vec![usual(1)],
        links: if linked { vec![link(1, SUCCESSOR, 1)] } else { Vec::new() },
        queries: vec![route(at(6.0), at(2.0))],
        ..Plan::default()
    }
}

/// Stations 0, 8, then a successor with 8, 16.
fn advances() -> Plan {
    let mut plan = Plan {
        lanes: vec![usual(1), lane(2, &[END, at(16.0)])],
        links: vec![link(1, SUCCESSOR, 2)],
        ..Plan::default()
    };
    place_alone(&mut plan, 1, 0, &[0.0, 8.0]);
    place_alone(&mut plan, 2, 1, &[8.0, 16.0]);
    plan.queries = [6.0, 6.5, 20.0].map(|metres| advance(1, 2.0, 0.0, metres)).to_vec();
    plan
}

/// Lanes 1 (Backward), -1, -2, in file order 7, 8, 9.
fn sides() -> Plan {
    let mut plan =
        Plan { lanes: vec![LaneRecord { direction: BACKWARD, ..usual(7) }, usual(8), usual(9)], ..Plan::default() };
    place_alone(&mut plan, 7, 0, &[0.0, 8.0]);
    plan.places[0].od_id = 1;
    for (lane, od_id) in [(8, -1), (9, -2)] {
        plan.places.push(PlaceRecord { lane, road: 0, index: 0, od_id });
    }
    plan.queries =
        [(8, 0), (8, 1), (7, 0), (7, 1), (9, 0), (9, 1)].map(|(lane, side)| beside(lane, 4.0, side)).to_vec();
    plan
}

/// A point midway between two parallel lanes takes the first span.
fn midway() -> Plan {
    let high = lane(5, &[[0.0, 2.0, 0.0], [8.0, 2.0, 0.0]]);
    Plan { lanes: vec![high, usual(3)], queries: vec![route([2.0, 1.0, 0.0], [6.0, 1.0, 0.0])], ..Plan::default() }
}

/// Document 03, point 31: two lanes at one squared distance, one of them behind its box.
fn box_test() -> Plan {
    let points = |bits: &[[u32; 3]]| -> Vec<[f32; 3]> { bits.iter().map(|p| p.map(f32::from_bits)).collect() };
    let a = points(&[[0x451F_7800, 0xC3EF_A05A, 0x414F_E673], [0x440C_FA9C, 0xB942_7246, 0x3F73_5C5A]]);
    let b = points(&[
        [0x42D7_FEFC, 0xC510_8000, 0xC420_60F1],
        [0x440C_F5F4, 0x3A6F_26B6, 0xC403_DFFF],
        [0x440C_FA95, 0x3A2F_DFCE, 0x3B89_6807],
    ]);
    let c = points(&[[0xC4F3_C48C, 0xC554_0002, 0xC435_77FA], [0xC375_06D9, 0xC522_65F5, 0xC4B5_4003]]);
    let point = [0xC574_6842, 0x44A6_2545, 0xBD4A_3792].map(f32::from_bits);
    Plan { lanes: vec![lane(1, &a), lane(2, &b), lane(3, &c)], queries: vec![route(point, point)], ..Plan::default() }
}

/// A lane of length zero entered from either end has one key.
fn zero_length_key() -> Plan {
    let mut plan = Plan {
        lanes: vec![
            usual(1),
            LaneRecord { direction: BOTH, ..lane(2, &[END, END]) },
            LaneRecord { direction: BACKWARD, ..lane(3, &[END, END]) },
        ],
        links: vec![link(1, SUCCESSOR, 2), link(1, SUCCESSOR, 3), link(2, SUCCESSOR, 3), link(3, SUCCESSOR, 2)],
        ..Plan::default()
    };
    place_alone(&mut plan, 1, 0, &[0.0, 8.0]);
    place_alone(&mut plan, 2, 1, &[0.0, 1.0]);
    place_alone(&mut plan, 3, 2, &[0.0, 1.0]);
    plan.queries = vec![advance(1, 2.0, 0.0, 10.0), advance(2, 0.5, 0.0, 1.0), advance(2, 0.5, 0.0, 0.0)];
    plan
}

/// A search whose cost is plus zero.
fn length_plus_zero() -> Plan {
    Plan {
        lanes: vec![lane(1, &[START, START]), lane(2, &[START, END])],
        links: vec![link(1, SUCCESSOR, 2)],
        queries: vec![route(START, at(4.0)), route(START, START)],
        ..Plan::default()
    }
}

/// The printed plan with its records from last to first.
fn queries_first() -> Case {
    let mut records = Records::from(&printed());
    records.0.reverse();
    Case { file: records.bytes(), ..case("queries-first", printed()) }
}

/// One lane that leads into itself.
fn loop_keys(metres: f64) -> Plan {
    let mut plan = Plan { lanes: vec![usual(1)], links: vec![link(1, SUCCESSOR, 1)], ..Plan::default() };
    place_alone(&mut plan, 1, 0, &[0.0, 8.0]);
    plan.queries = vec![advance(1, 0.0, 0.0, metres)];
    plan
}

/// Two feeders of different lengths into one fan, and `more` lanes that only one of them reaches.
fn fan_positions(fan: u16, more: u16) -> Plan {
    let mut plan = Plan::default();
    plan.lanes.push(usual(1));
    plan.lanes.push(lane(2, &[END, at(16.0)]));
    plan.lanes.push(lane(3, &[at(12.0), at(16.0)]));
    plan.links.extend([link(1, SUCCESSOR, 2), link(1, SUCCESSOR, 3)]);
    plan.sections.push(SectionRecord { road: 0, index: 0, start: 0.0, end: 8.0, stations: vec![0.0, 8.0] });
    for i in 0..fan - 6 + more {
        let number = 100 + i;
        plan.lanes.push(lane(number, &[[16.0, f32::from(i), 0.0], [48.0, f32::from(i), 0.0]]));
        plan.links.push(link(2, SUCCESSOR, number));
        plan.links.push(link(3, SUCCESSOR, number));
    }
    // The rest is reached by one feeder each way, twelve positions in all.
    for i in 0..12 - more {
        let number = 400 + i;
        plan.lanes.push(lane(number, &[[16.0, -f32::from(i), 0.0], [48.0, -f32::from(i), 0.0]]));
        plan.links.push(link(2, SUCCESSOR, number));
    }
    for (i, lane) in plan.lanes.iter().enumerate() {
        plan.places.push(PlaceRecord { lane: lane.number, road: 0, index: 0, od_id: i as i32 });
    }
    plan.queries = vec![advance(1, 0.0, 0.0, 30.0)];
    plan
}

/// One straight lane, sampled every 2 m from end to end.
fn straight(length: f32) -> Plan {
    let (a, b) = (at(-length / 2.0), at(length / 2.0));
    Plan { lanes: vec![lane(1, &[a, b])], queries: vec![route(a, b)], ..Plan::default() }
}

/// A ring of lanes in which a goal just behind the start is reached round all of it.
fn closed_ring(count: u16) -> Plan {
    let mut plan = Plan::default();
    for i in 0..count {
        let (a, b) = (at(f32::from(i) * 4.0), at(f32::from(i) * 4.0 + 4.0));
        plan.lanes.push(lane(i, &[a, b]));
        plan.links.push(link(i, SUCCESSOR, (i + 1) % count));
    }
    plan.queries = vec![route(at(42.0), at(41.0)), route(at(42.0), at(43.0))];
    plan
}

/// A lane of a thousand kilometres; a trip of 20 m on it fits, its whole length does not.
fn long_lane() -> Plan {
    let points: Vec<[f32; 3]> = (0..128).map(|i| [if i % 2 == 0 { -4096.0 } else { 4096.0 }, i as f32, 0.0]).collect();
    let (first, last) = (points[0], points[127]);
    let near = [first[0] + 20.0, first[1], 0.0];
    Plan {
        lanes: vec![lane(1, &points)],
        queries: vec![route(first, near), route(first, last), route(near, first)],
        ..Plan::default()
    }
}

/// Lanes on one line over the whole range: 1,024 cells in one row.
fn one_row() -> Plan {
    let mut plan = Plan::default();
    for i in 0..40u16 {
        plan.lanes.push(lane(i, &[at(-4096.0 + f32::from(i)), at(4096.0 - f32::from(i))]));
    }
    plan.queries = vec![route(at(-4095.5), at(4095.5)), route([0.0, 100.0, 0.0], [50.0, -3.0, 1.0])];
    plan
}

fn offset_nan() -> Plan {
    let mut plan = advances();
    plan.queries = [f64::NAN, f64::INFINITY, -0.0, 1e300].map(|offset| advance(1, 2.0, offset, 3.0)).to_vec();
    plan
}

/// A change of lane goes at most 10 m on, and less where the lane ends before.
fn change_of_lane() -> Plan {
    let upper = |number: u16| lane(number, &[[0.0, 3.0, 0.0], [40.0, 3.0, 0.0]]);
    Plan {
        lanes: vec![lane(1, &[START, at(40.0)]), upper(2), LaneRecord { direction: BACKWARD, ..upper(3) }],
        links: vec![link(1, NEIGHBOUR, 2), link(2, NEIGHBOUR, 1), link(3, NEIGHBOUR, 1)],
        queries: vec![
            route(at(3.0), [30.0, 3.0, 0.0]),
            route(at(35.0), [38.0, 3.0, 0.0]),
            route(at(40.0), [38.0, 3.0, 0.0]),
            route([20.0, 3.0, 0.0], at(30.0)),
        ],
        ..Plan::default()
    }
}

/// Points so far out that squares overflow take the first point of the first span.
fn far_points() -> Plan {
    let mut plan = printed();
    let far = [[3e38, 0.0, 0.0], [0.0, -3e38, 3e38], [1.8e19, 1.8e19, 0.0], [2e6, 2e6, 0.0]];
    plan.queries = far.map(|p| route(p, at(12.0))).to_vec();
    plan
}

/// An accepted advance that is empty: the next lane has no place.
fn nothing_advanced() -> Plan {
    let mut plan = advances();
    plan.sections.pop();
    plan.places.pop();
    plan.queries = vec![advance(1, 2.0, 0.0, 7.0), advance(2, 9.0, 0.0, 1.0)];
    plan.queries.push(Query::Beside { lane: 2, s: 9.0, side: 0 });
    plan
}

/// One lane of each type, one beside the other; only Driving is found.
fn all_types() -> Plan {
    let mut plan = Plan::default();
    for kind in 0..28u8 {
        let y = f32::from(kind);
        let line = lane(u16::from(kind), &[[0.0, y, 0.0], [8.0, y, 0.0]]);
        plan.lanes.push(LaneRecord { kind, ..line });
        plan.queries.push(route([1.0, y, 0.0], [2.0, y, 0.0]));
    }
    plan
}

/// Number 10 where there are lanes, and 9 before it; a lane that does not drive has its positions all the same.
fn nothing_drives() -> Plan {
    let mut plan = Plan { lanes: vec![LaneRecord { kind: 0, ..usual(1) }], ..Plan::default() };
    place_alone(&mut plan, 1, 0, &[0.0, 8.0]);
    plan.queries = vec![route(at(2.0), at(6.0)), route(at(2.0), at(f32::NAN)), advance(1, 2.0, 0.0, 3.0)];
    plan
}

/// Each way in which a query is refused, between two that are answered: no field of an answer stays in the next.
fn refused_queries() -> Plan {
    let mut plan = advances();
    plan.lanes.push(lane(3, &[[0.0, 50.0, 0.0], [8.0, 50.0, 0.0]]));
    let answered = [route(at(2.0), at(12.0)), advance(1, 2.0, -1.5, 20.0)];
    plan.queries = answered.to_vec();
    let odd = [f32::NAN, f32::INFINITY, f32::NEG_INFINITY];
    for (k, odd) in odd.into_iter().chain(odd).enumerate() {
        let mut ends = [at(2.0), at(12.0)];
        ends[k / 3][k % 3] = odd;
        plan.queries.push(route(ends[0], ends[1]));
    }
    plan.queries.push(route(at(12.0), at(2.0)));
    // Lane 9 is not in the plan, lane 3 has no place; lane 1 goes from 0 to 8.
    let beyond = 8f64.next_up();
    for (lane, s) in [(9, 2.0), (3, 2.0), (1, -1e-300), (1, beyond), (1, f64::NAN), (2, 7.0)] {
        plan.queries.extend([advance(lane, s, 0.0, 3.0), advance(lane, s, 0.0, f64::NAN), beside(lane, s, 0)]);
    }
    plan.queries.extend([f64::NAN, f64::INFINITY, f64::NEG_INFINITY].map(|metres| advance(1, 2.0, -1.5, metres)));
    plan.queries.extend([beside(1, 2.0, 0), beside(1, 2.0, 1)]);
    plan.queries.extend(answered);
    plan
}

/// The most lanes and points that an answer has, lane numbers of five digits; then one point more. The ring goes out and
/// comes back 3 m beside.
fn longest_answer() -> Plan {
    let mut plan = Plan::default();
    let number = |i: u16| u16::MAX - i % 256;
    let spot = |k: u16, y: f32| [32.0 * f32::from(k) - 2048.0, y, 0.0];
    for i in 0..256 {
        let ends = if i < 128 { [spot(i, 0.0), spot(i + 1, 0.0)] } else { [spot(256 - i, 3.0), spot(255 - i, 3.0)] };
        plan.lanes.push(lane(number(i), &ends));
        plan.links.push(link(number(i), SUCCESSOR, number(i + 1)));
    }
    plan.queries = vec![route(at(18.0), at(12.0)), route(at(17.5), at(12.0))];
    plan
}
