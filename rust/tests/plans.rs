//! What a plan says of itself, its room, and the words of the refusals.

use kartsodi::records::{self, BesideQuery, Direction, Lane, LaneType, Link, Place, Record, Role, Section};
use kartsodi::{Counts, LaneId, LanePosition, Plan, Point, Refusal, Room, Side};

fn x(x: f32) -> Point {
    Point { x, y: 0.0, z: 0.0 }
}

fn lane(number: usize, points: &[f32]) -> Record {
    let points = points.iter().map(|at| x(*at)).collect();
    Record::Lane(Lane {
        lane: LaneId(number),
        kind: LaneType::Driving,
        direction: Direction::Forward,
        points,
        ends: None,
    })
}

/// Two lanes in a section, linked; a question at the end.
fn two() -> Vec<u8> {
    let stations = vec![0.0, 8.0, 12.0];
    let place = |lane, number| Record::Place(Place { lane: LaneId(lane), road: 3, index: 1, number });
    let all = [
        lane(1, &[0.0, 8.0, 12.0]),
        Record::Section(Section { road: 3, index: 1, start: 0.0, end: 12.0, stations }),
        lane(2, &[12.0, 16.0, 20.0]),
        place(1, -1),
        place(2, -2),
        Record::Link(Link { from: LaneId(1), role: Role::Successor, to: LaneId(2) }),
        Record::Beside(BesideQuery { lane: LaneId(1), s: 2.0, side: Side::Right }),
    ];
    records::write(&all).unwrap()
}

#[test]
fn counts() {
    let counts = Counts { lanes: 2, points: 6, links: 1, sections: 1, stations: 3, places: 2 };
    assert_eq!(Plan::new(&two()).unwrap().counts(), counts);
    assert_eq!(Plan::new(&[]).unwrap().counts(), Counts::default());
}

/// A plan's records are as before after answers, and after queries that are refused.
#[test]
fn records_after_queries() {
    let mut plan = Plan::new(&two()).unwrap();
    let before = (plan.lanes(), plan.links(), plan.sections(), plan.places());
    let from = |s| LanePosition { lane: LaneId(1), s, offset: 0.0 };
    assert_eq!(plan.beside(LaneId(1), 2.0, Side::Right).unwrap().lane, LaneId(2));
    assert_eq!(plan.advance(from(2.0), 12.0).unwrap().keys, 1);
    assert_eq!(plan.advance(from(13.0), 12.0), Err(Refusal::NotOnALane));
    assert_eq!(plan.route(x(14.0), x(2.0)), Err(Refusal::NoWay));
    assert_eq!(plan.nearest_lane(x(f32::NAN)), Err(Refusal::NotAPoint));
    assert_eq!((plan.lanes(), plan.links(), plan.sections(), plan.places()), before);
}

#[test]
fn other_room() {
    let mut plan = Plan::new(&records::write(&[lane(1, &[-4096.0, 4096.0])]).unwrap()).unwrap();
    assert_eq!(plan.route(x(-4096.0), x(4096.0)), Err(Refusal::TooMuch));
    plan.set_room(Room { points: 4097, ..Room::default() });
    let points = plan.route(x(-4096.0), x(4096.0)).unwrap().points;
    assert_eq!(points, (-2048..=2048).map(|k| x(2.0 * k as f32)).collect::<Vec<_>>());
    plan.set_room(Room { points: 4096, ..Room::default() });
    assert_eq!(plan.route(x(-4096.0), x(4096.0)), Err(Refusal::TooMuch));
}

#[test]
fn words() {
    for number in 1..16 {
        let refusal = Refusal::from_number(number).unwrap();
        assert_eq!(refusal.to_string(), format!("{} ({number})", refusal.words()));
        assert!(!refusal.advice().is_empty());
    }
    assert_eq!(kartsodi::VERSION, env!("CARGO_PKG_VERSION"));
}
