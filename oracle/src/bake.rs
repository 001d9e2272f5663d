//! From the records of an accepted plan to the source's `RoadNetwork`.

use crate::coords::{Point, Vector};
use crate::geometry::Polyline;
use crate::network::{Direction, Lane, LaneId, LaneType, RoadNetwork};
use crate::reader::{LaneRecord, Plan, SectionRecord};
use crate::road::{Road, RoadId, RoadSection};

/// The lane types in the order of `LaneType`, so that a file's byte picks one.
const TYPES: [LaneType; 28] = [
    LaneType::None,
    LaneType::Driving,
    LaneType::Bidirectional,
    LaneType::Bus,
    LaneType::Taxi,
    LaneType::Hov,
    LaneType::Entry,
    LaneType::Exit,
    LaneType::OnRamp,
    LaneType::OffRamp,
    LaneType::ConnectingRamp,
    LaneType::SlipLane,
    LaneType::Parking,
    LaneType::Stop,
    LaneType::Restricted,
    LaneType::Biking,
    LaneType::Sidewalk,
    LaneType::Shoulder,
    LaneType::Border,
    LaneType::Curb,
    LaneType::Median,
    LaneType::RoadWorks,
    LaneType::Tram,
    LaneType::Rail,
    LaneType::Special1,
    LaneType::Special2,
    LaneType::Special3,
    LaneType::Unknown,
];

/// The network of a plan that `scan` and `check` accepted.
pub fn bake(plan: &Plan) -> RoadNetwork {
    let lanes = plan.lanes.iter().map(|lane| bake_lane(plan, lane)).collect();
    RoadNetwork::new(lanes).with_roads(bake_roads(plan))
}

/// A lane with its links, as it stands in the network.
pub fn bake_lane(plan: &Plan, lane: &LaneRecord) -> Lane {
    let linked = |role: u8| -> Vec<LaneId> {
        let links = plan.links.iter().filter(|link| link.from == lane.number && link.role == role);
        links.map(|link| LaneId(usize::from(link.to))).collect()
    };
    let points: Vec<Point> = lane.points.iter().map(|&p| Point::from_array(p)).collect();
    let center = match lane.ends {
        None => Polyline::try_new(points),
        Some([[sx, sy, sz], [ex, ey, ez]]) => {
            Polyline::try_new_with_tangents(points, Vector::new(sx, sy, sz), Vector::new(ex, ey, ez))
        }
    };
    Lane {
        id: LaneId(usize::from(lane.number)),
        kind: TYPES[usize::from(lane.kind)],
        direction: match lane.direction {
            0 => Direction::Forward,
            1 => Direction::Backward,
            _ => Direction::Both,
        },
        center: center.expect("an accepted lane has two points"),
        width: 0.0,
        widths: Vec::new(),
        bank: Vec::new(),
        successors: linked(0),
        predecessors: linked(1),
        neighbors: linked(2),
    }
}

/// One road for each number up to the largest that a section names; those that none names have no sections.
fn bake_roads(plan: &Plan) -> Vec<Road> {
    let count = plan.sections.iter().map(|s| usize::from(s.road) + 1).max().unwrap_or(0);
    let empty = |id: usize| Road { id: RoadId(id), sections: Vec::new() };
    let mut roads: Vec<Road> = (0..count).map(empty).collect();
    for section in &plan.sections {
        roads[usize::from(section.road)].sections.push(bake_section(plan, section));
    }
    roads
}

fn bake_section(plan: &Plan, section: &SectionRecord) -> RoadSection {
    let here = plan.places.iter().filter(|p| p.road == section.road && p.index == section.index);
    RoadSection {
        index: usize::from(section.index),
        start: section.start,
        end: section.end,
        stations: section.stations.clone(),
        lanes: here.map(|p| (p.od_id, LaneId(usize::from(p.lane)))).collect(),
    }
}
