//! The junction cases of the request, asked through the safe functions, and the refusals.

use kartsodi::lent;
use kartsodi::{Advance, LaneId, LanePosition, Plan, Point, Refusal, Room, Side};

const FORWARD: u8 = 0;
const BACKWARD: u8 = 1;
const DRIVING: u8 = 1;

/// A plan file, record by record.
#[derive(Default)]
struct File(Vec<u8>);

impl File {
    fn record(mut self, kind: u16, payload: &[u8]) -> Self {
        self.0.extend((payload.len() as u32).to_le_bytes());
        self.0.extend(kind.to_le_bytes());
        self.0.extend(payload);
        self
    }

    /// A lane along x through these places.
    fn lane(self, number: u16, direction: u8, xs: &[f32]) -> Self {
        self.lane_of(number, DRIVING, direction, xs)
    }

    fn lane_of(self, number: u16, kind: u8, direction: u8, xs: &[f32]) -> Self {
        let mut payload = number.to_le_bytes().to_vec();
        payload.extend([kind, direction, 0]);
        payload.extend((xs.len() as u16).to_le_bytes());
        payload.extend(xs.iter().flat_map(|x| [*x, 0.0, 0.0]).flat_map(f32::to_le_bytes));
        self.record(1, &payload)
    }

    fn successor(self, from: u16, to: u16) -> Self {
        self.link(from, 0, to)
    }

    fn link(self, from: u16, role: u8, to: u16) -> Self {
        let ([a, b], [c, d]) = (from.to_le_bytes(), to.to_le_bytes());
        self.record(2, &[a, b, role, c, d])
    }

    /// Section 0 of a road, from its first station to its last.
    fn section(self, road: u16, stations: &[f64]) -> Self {
        let mut payload = road.to_le_bytes().to_vec();
        payload.extend([0; 2]);
        payload.extend([stations[0], stations[stations.len() - 1]].iter().flat_map(|s| s.to_le_bytes()));
        payload.extend((stations.len() as u16).to_le_bytes());
        payload.extend(stations.iter().flat_map(|s| s.to_le_bytes()));
        self.record(3, &payload)
    }

    fn place(self, lane: u16, road: u16, number: i32) -> Self {
        let mut payload = lane.to_le_bytes().to_vec();
        payload.extend(road.to_le_bytes());
        payload.extend([0; 2]);
        payload.extend(number.to_le_bytes());
        self.record(4, &payload)
    }

    fn plan(&self) -> Plan {
        Plan::new(&self.0).unwrap()
    }
}

/// One lane from 0 to 8.
fn one() -> File {
    File::default().lane(1, FORWARD, &[0.0, 8.0])
}

/// The printed case: two lanes one after the other, with a place each.
fn two() -> File {
    let lanes = one().lane(2, FORWARD, &[8.0, 16.0]).successor(1, 2);
    lanes.section(1, &[0.0, 8.0]).section(2, &[8.0, 16.0]).place(1, 1, -1).place(2, 2, -1)
}

/// Three lanes of one section, the first Backward.
fn three() -> File {
    let lanes = one().lane(2, FORWARD, &[0.0, 8.0]).lane(3, BACKWARD, &[0.0, 8.0]);
    lanes.section(1, &[0.0, 8.0]).place(3, 1, 1).place(1, 1, -1).place(2, 1, -2)
}

fn x(x: f32) -> Point {
    Point { x, y: 0.0, z: 0.0 }
}

fn at(lane: usize, s: f64) -> LanePosition {
    LanePosition { lane: LaneId(lane), s, offset: 0.0 }
}

#[test]
fn printed_case() {
    let route = two().plan().route(x(2.0), x(12.0)).unwrap();
    assert_eq!(route.chain, [LaneId(1), LaneId(2)]);
    assert_eq!(route.points, [2.0, 4.0, 6.0, 8.0, 10.0, 12.0].map(x));
    assert_eq!(route.length, 8.0);
}

#[test]
fn closed_chain() {
    let route = one().successor(1, 1).plan().route(x(6.0), x(2.0)).unwrap();
    assert_eq!((route.chain, route.points), (vec![LaneId(1); 2], vec![x(6.0), x(8.0)]));
    assert_eq!(one().plan().route(x(6.0), x(2.0)), Err(Refusal::NoWay));
}

#[test]
fn one_lane() {
    let route = one().plan().route(x(2.0), x(6.0)).unwrap();
    assert_eq!((route.chain, route.length), (vec![LaneId(1)], 0.0));
}

#[test]
fn successor_and_neighbour() {
    let file = File::default().lane(1, FORWARD, &[0.0, 32.0]).lane(2, FORWARD, &[32.0, 40.0]);
    assert_eq!(file.successor(1, 2).link(1, 2, 2).plan().route(x(2.0), x(36.0)).unwrap().length, 30.0);
}

#[test]
fn advances() {
    let mut plan = two().plan();
    for (distance, keys, end) in [
        (6.0, 0, Advance::Reached(at(1, 8.0))),
        (6.5, 1, Advance::Reached(at(2, 8.5))),
        (20.0, 1, Advance::DeadEnd { at: at(2, 16.0), short: 6.0 }),
    ] {
        let moved = plan.advance(at(1, 2.0), distance).unwrap();
        assert_eq!((moved.keys, moved.positions), (keys, vec![end]));
    }
}

#[test]
fn lanes_beside() {
    let mut plan = three().plan();
    assert_eq!(plan.beside(LaneId(1), 2.0, Side::Left), Ok(at(3, 2.0)));
    assert_eq!(plan.beside(LaneId(1), 2.0, Side::Right), Ok(at(2, 2.0)));
    assert_eq!(plan.beside(LaneId(3), 2.0, Side::Left), Ok(at(1, 2.0)));
    assert_eq!(plan.beside(LaneId(3), 2.0, Side::Right), Err(Refusal::NoneBeside));
}

#[test]
fn poses() {
    let mut plan = one().plan();
    for (s, there) in [(2.0, 2.0), (-1.0, 0.0), (9.0, 8.0)] {
        let pose = plan.pose(LaneId(1), s).unwrap();
        assert_eq!((pose.position, pose.heading.x), (x(there), 1.0));
    }
    assert_eq!(plan.pose(LaneId(2), 2.0), Err(Refusal::NotOnALane));
}

#[test]
fn refused_files() {
    let number = |file: &[u8]| Plan::new(file).map_or_else(Refusal::number, |_| 0);
    let whole = two().0;
    assert_eq!(number(&[]), 0);
    assert_eq!(number(&whole), 0);
    assert_eq!(number(&[0; 65537]), 2);
    assert_eq!(number(&whole[..whole.len() - 1]), 3);
    assert_eq!(number(&File::default().record(9, &[]).0), 4);
    assert_eq!(number(&File::default().lane(1, FORWARD, &[0.0]).0), 5);
    assert_eq!(number(&(0..257).fold(File::default(), |file, n| file.lane(n, FORWARD, &[0.0, 8.0])).0), 6);
    assert_eq!(number(&one().lane(1, FORWARD, &[0.0, 8.0]).0), 7);
    assert_eq!(number(&one().successor(2, 1).0), 8);
}

#[test]
fn refused_queries() {
    let mut plan = two().plan();
    for bad in [f32::NAN, f32::INFINITY] {
        assert_eq!(plan.nearest_lane(x(bad)), Err(Refusal::NotAPoint));
        assert_eq!(plan.route(x(2.0), x(bad)), Err(Refusal::NotAPoint));
    }
    assert_eq!(plan.advance(at(3, 2.0), 1.0), Err(Refusal::NotOnALane));
    assert_eq!(plan.advance(at(1, 9.0), f64::NAN), Err(Refusal::NotOnALane));
    assert_eq!(plan.advance(at(1, 2.0), f64::NAN), Err(Refusal::NotADistance));
    for mut idle in [Plan::new(&[]).unwrap(), File::default().lane_of(1, 0, FORWARD, &[0.0, 8.0]).plan()] {
        assert_eq!(idle.nearest_lane(x(2.0)), Err(Refusal::NoneDrives));
        assert_eq!(idle.route(x(2.0), x(6.0)), Err(Refusal::NoneDrives));
    }
}

#[test]
fn room() {
    let file = two().0;
    let ask = |lanes, points, positions| {
        let mut plan = Plan::with_room(&file, Room { lanes, points, positions }).unwrap();
        (plan.route(x(2.0), x(12.0)).err(), plan.advance(at(1, 2.0), 6.0).err())
    };
    assert_eq!(ask(2, 6, 1), (None, None));
    assert_eq!(ask(1, 6, 0), (Some(Refusal::TooMuch), Some(Refusal::TooMuch)));
    assert_eq!(ask(2, 5, 1), (Some(Refusal::TooMuch), None));
}

/// A route of 4,097 points, one more than the default has room for.
#[test]
fn more_room() {
    let file = File::default().lane(1, FORWARD, &[-4096.0, 4096.0]);
    assert_eq!(file.plan().route(x(-4096.0), x(4096.0)), Err(Refusal::TooMuch));
    let mut plan = Plan::with_room(&file.0, Room { points: 4097, ..Room::default() }).unwrap();
    let points = plan.route(x(-4096.0), x(4096.0)).unwrap().points;
    assert_eq!(points, (-2048..=2048).map(|k| x(2.0 * k as f32)).collect::<Vec<_>>());
}

/// Tables of these lengths, lent for a pose: its number, and whether they are all as before.
fn posed_with(lengths: [usize; 11]) -> (usize, bool) {
    const MARK: usize = 77;
    let wholes = lengths.map(|n| vec![MARK; n]);
    let (mut lanes, mut fans, mut links) = (wholes[0].clone(), wholes[3].clone(), wholes[4].clone());
    let (mut sections, mut places) = (wholes[5].clone(), wholes[8].clone());
    let [mut points, mut ends, mut cumulative, mut tangents] = [1, 2, 9, 10].map(|k| vec![0.5; lengths[k]]);
    let [mut bounds, mut stations] = [6, 7].map(|k| vec![0.5; lengths[k]]);
    let tables = lent::Tables {
        lanes: &mut lanes,
        points: &mut points,
        ends: &mut ends,
        fans: &mut fans,
        links: &mut links,
        sections: &mut sections,
        bounds: &mut bounds,
        stations: &mut stations,
        places: &mut places,
        cumulative: &mut cumulative,
        tangents: &mut tangents,
    };
    let number = lent::pose(&two().0, LaneId(1), 2.0, tables).number;
    let whole = [lanes, fans, links, sections, places].iter().flatten().all(|e| *e == MARK);
    let short = [points, ends, cumulative, tangents].iter().flatten().all(|e| *e == 0.5);
    (number, whole && short && [bounds, stations].iter().flatten().all(|e| *e == 0.5))
}

/// A plan's tables are of the limits, which are exact: a table one entry shorter gets 1 and nothing is written.
#[test]
fn tables_of_the_limits() {
    assert_eq!(posed_with(lent::LIMITS), (0, false));
    for k in 0..lent::LIMITS.len() {
        let mut lengths = lent::LIMITS;
        lengths[k] -= 1;
        assert_eq!(posed_with(lengths), (1, true), "table {k}");
    }
    assert_eq!(posed_with([0; 11]), (1, true));
}

#[test]
fn every_number_has_a_refusal() {
    for number in 1..16 {
        let refusal = Refusal::from_number(number).unwrap();
        assert_eq!(refusal.number(), number);
        assert!(refusal.to_string().ends_with(&format!(" ({number})")));
    }
    assert_eq!((Refusal::from_number(0), Refusal::from_number(16)), (None, None));
}

/// Threads do not disturb one another, and 400 kilobytes of stack are enough for each.
#[test]
fn threads() {
    let plan = two().plan();
    let asked = [2.0, 4.0, 6.0].map(|s| {
        let mut own = plan.clone();
        let ask = move || {
            own.advance(at(1, s.into()), 20.0).unwrap();
            own.beside(LaneId(1), s.into(), Side::Left).unwrap_err();
            let lane = own.nearest_lane(x(s)).unwrap().lane;
            own.pose(lane, s).unwrap();
            own.route(x(s), x(12.0)).unwrap().points[0]
        };
        std::thread::Builder::new().stack_size(400_000).spawn(ask).unwrap()
    });
    assert_eq!(asked.map(|thread| thread.join().unwrap()), [2.0, 4.0, 6.0].map(x));
}
