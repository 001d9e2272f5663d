//! The tables that a [`Plan`](crate::Plan) lends to the calls, and the records of the plan that the library has written there.

use crate::lent;
use crate::records::{Direction, Lane, LaneType, Link, Place, Reader, Record, Role, Section};
use crate::{Counts, LaneId, Point, Vector};
use alloc::vec;
use alloc::vec::Vec;

/// The eleven tables, each of its limit.
#[derive(Clone)]
pub struct Tables {
    lanes: Vec<usize>,
    points: Vec<f32>,
    ends: Vec<f32>,
    fans: Vec<usize>,
    links: Vec<usize>,
    sections: Vec<usize>,
    bounds: Vec<f64>,
    stations: Vec<f64>,
    places: Vec<usize>,
    cumulative: Vec<f32>,
    tangents: Vec<f32>,
}

impl Tables {
    pub fn new() -> Self {
        let [lanes, points, ends, fans, links, sections, bounds, stations, places, cumulative, tangents] = lent::LIMITS;
        Tables {
            lanes: vec![0; lanes],
            points: vec![0.0; points],
            ends: vec![0.0; ends],
            fans: vec![0; fans],
            links: vec![0; links],
            sections: vec![0; sections],
            bounds: vec![0.0; bounds],
            stations: vec![0.0; stations],
            places: vec![0; places],
            cumulative: vec![0.0; cumulative],
            tangents: vec![0.0; tangents],
        }
    }

    pub fn lend(&mut self) -> lent::Tables<'_> {
        lent::Tables {
            lanes: &mut self.lanes,
            points: &mut self.points,
            ends: &mut self.ends,
            fans: &mut self.fans,
            links: &mut self.links,
            sections: &mut self.sections,
            bounds: &mut self.bounds,
            stations: &mut self.stations,
            places: &mut self.places,
            cumulative: &mut self.cumulative,
            tangents: &mut self.tangents,
        }
    }

    // Of a plan with these counts, which a call has written to the front of each table.

    pub fn lanes(&self, counts: Counts) -> Vec<Lane> {
        let rows = self.lanes.chunks_exact(6).zip(self.ends.chunks_exact(6)).take(counts.lanes);
        rows.map(|(row, ends)| {
            let points = self.points[3 * row[4]..3 * (row[4] + row[5])].chunks_exact(3);
            let vector = |at: &[f32]| Vector { x: at[0], y: at[1], z: at[2] };
            Lane {
                lane: LaneId(row[0]),
                kind: named(row[1], LaneType::from_number),
                direction: named(row[2], Direction::from_number),
                points: points.map(|at| Point { x: at[0], y: at[1], z: at[2] }).collect(),
                ends: (row[3] == 1).then(|| [vector(&ends[..3]), vector(&ends[3..])]),
            }
        })
        .collect()
    }

    pub fn links(&self, counts: Counts) -> Vec<Link> {
        let lanes = self.lanes.chunks_exact(6).zip(self.fans.chunks_exact(5)).take(counts.lanes);
        let links = lanes.flat_map(|(lane, row)| {
            let roles = Role::ALL.iter().zip(&row[1..4]).flat_map(|(role, count)| vec![*role; *count]);
            let to = self.links[2 * row[0]..].chunks_exact(2).map(|link| LaneId(link[0]));
            roles.zip(to).map(|(role, to)| Link { from: LaneId(lane[0]), role, to })
        });
        links.collect()
    }

    pub fn sections(&self, counts: Counts) -> Vec<Section> {
        let rows = self.sections.chunks_exact(4).zip(self.bounds.chunks_exact(2)).take(counts.sections);
        rows.map(|(row, bounds)| Section {
            road: row[0] as u16,
            index: row[1] as u16,
            start: bounds[0],
            end: bounds[1],
            stations: self.stations[row[2]..row[2] + row[3]].to_vec(),
        })
        .collect()
    }

    pub fn places(&self, counts: Counts) -> Vec<Place> {
        let rows = self.places.chunks_exact(3).take(counts.places);
        rows.map(|row| {
            let section = &self.sections[4 * row[1]..];
            // The table has the number plus 2^31, from 0 to 2^32 - 1.
            let number = (row[2] as i64 - (1 << 31)) as i32;
            Place { lane: LaneId(self.lanes[6 * row[0]]), road: section[0] as u16, index: section[1] as u16, number }
        })
        .collect()
    }
}

/// How much the plan of a file has that the library has accepted.
pub fn counts(file: &[u8]) -> Counts {
    let mut c = Counts::default();
    for found in Reader::new(file) {
        let found =
            found.unwrap_or_else(|error| panic!("libkartsodi.a accepted a plan, and this crate {DIFFER}: {error}"));
        match found.record {
            Record::Lane(lane) => (c.lanes, c.points) = (c.lanes + 1, c.points + lane.points.len()),
            Record::Link(_) => c.links += 1,
            Record::Section(it) => (c.sections, c.stations) = (c.sections + 1, c.stations + it.stations.len()),
            Record::Place(_) => c.places += 1,
            Record::Route(_) | Record::Advance(_) | Record::Beside(_) => {}
        }
    }
    c
}

/// What a number of the tables stands for. An accepted plan has none without a meaning: the library refuses such a file with number 5.
fn named<T>(number: usize, meaning: impl Fn(u8) -> Option<T>) -> T {
    let meant = u8::try_from(number).ok().and_then(meaning);
    meant.unwrap_or_else(|| panic!("libkartsodi.a accepted a plan with a number {number}, and this crate {DIFFER}"))
}

const DIFFER: &str = "does not know what it says: their versions differ";
