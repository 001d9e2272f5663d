//! Lane queries for road-junction plans, over the library that is proved in Rattle. Each answer is the one that its definitions give, or a
//! [`Refusal`].
//!
//! A [`Plan`] owns a plan file's bytes and the memory that the calls work in. This one has a lane from (0, 0, 0) to (8, 0, 0):
//!
//! ```
//! use kartsodi::{LaneId, Plan, Point, Refusal};
//!
//! let mut file = vec![31, 0, 0, 0, 1, 0, 1, 0, 1, 0, 0, 2, 0];
//! for coordinate in [0.0f32, 0.0, 0.0, 8.0, 0.0, 0.0] {
//!     file.extend(coordinate.to_le_bytes());
//! }
//! let mut plan = Plan::new(&file)?;
//! let nearest = plan.nearest_lane(Point { x: 2.0, y: 1.0, z: 0.0 })?;
//! assert_eq!((nearest.lane, nearest.projection.s, nearest.projection.offset), (LaneId(1), 2.0, 1.0));
//! let back = plan.route(Point { x: 6.0, y: 0.0, z: 0.0 }, Point { x: 2.0, y: 0.0, z: 0.0 });
//! assert_eq!(back, Err(Refusal::NoWay));
//! # Ok::<(), Refusal>(())
//! ```
//!
//! A query takes the plan by `&mut`, since it works in the plan's memory; the answer depends on the file and the query alone. The library has no
//! state: plans in different threads do not disturb one another. A call takes up to 342 kilobytes of stack.
//!
//! Queries panic over a library of another version, where it gives a number that this crate does not know.

#![no_std]
#![deny(missing_docs)]

extern crate alloc;

/// The examples of the crate's README.
#[cfg(doctest)]
#[doc = include_str!("../README.md")]
struct Readme;

pub mod lent;
mod opened;
pub mod records;
mod refusal;

pub use refusal::Refusal;

use alloc::vec;
use alloc::vec::Vec;
use core::fmt;
use opened::Tables;

/// The version of this crate and of the library that it stands over.
pub const VERSION: &str = env!("CARGO_PKG_VERSION");

/// How many lanes, points and so on a plan has.
#[derive(Debug, Clone, Copy, PartialEq, Eq, Default)]
#[allow(missing_docs)]
pub struct Counts {
    pub lanes: usize,
    pub points: usize,
    pub links: usize,
    pub sections: usize,
    pub stations: usize,
    pub places: usize,
}

/// A lane by its number in the plan.
#[repr(C)]
#[derive(Debug, Clone, Copy, PartialEq, Eq, Hash)]
pub struct LaneId(pub usize);

/// A place, in metres.
#[repr(C)]
#[derive(Debug, Clone, Copy, PartialEq)]
#[allow(missing_docs)]
pub struct Point {
    pub x: f32,
    pub y: f32,
    pub z: f32,
}

/// A direction.
#[repr(C)]
#[derive(Debug, Clone, Copy, PartialEq)]
#[allow(missing_docs)]
pub struct Vector {
    pub x: f32,
    pub y: f32,
    pub z: f32,
}

/// A place on a lane, and the way the lane goes there.
#[repr(C)]
#[derive(Debug, Clone, Copy, PartialEq)]
pub struct Pose {
    /// The place.
    pub position: Point,
    /// The way.
    pub heading: Vector,
}

/// The place on a lane that is nearest to a point.
#[repr(C)]
#[derive(Debug, Clone, Copy, PartialEq)]
pub struct Projection {
    /// The arc length along the lane.
    pub s: f32,
    /// The place.
    pub point: Point,
    /// How far the point asked for lies to the left of the lane; below 0, to the right.
    pub offset: f32,
}

/// A position by its lane: `s` along the lane's road section, `offset` to the left.
#[repr(C)]
#[derive(Debug, Clone, Copy, PartialEq)]
pub struct LanePosition {
    /// The lane.
    pub lane: LaneId,
    /// The station within the lane's section.
    pub s: f64,
    /// Metres to the left.
    pub offset: f64,
}

/// The driving lane nearest to a point.
#[derive(Debug, Clone, Copy, PartialEq)]
pub struct Nearest {
    /// The lane.
    pub lane: LaneId,
    /// The nearest place on it.
    pub projection: Projection,
}

/// A chain of lanes, and points along it: the one lane where the goal lies ahead on it, else a cheapest chain of links.
#[derive(Debug, Clone, PartialEq)]
pub struct Route {
    /// The lanes, first to last.
    pub chain: Vec<LaneId>,
    /// The points, at most 2 m of s apart on one lane, up to f32 rounding of s.
    pub points: Vec<Point>,
    /// The cost of the chain: the length of each lane left for a successor, 30 for a change to a neighbour; 0 for one lane.
    pub length: f32,
}

/// Where one branch ended.
#[derive(Debug, Clone, Copy, PartialEq)]
pub enum Advance {
    /// It went the whole distance, to here.
    Reached(LanePosition),
    /// It ran out of lanes here.
    DeadEnd {
        /// The end of the last lane.
        at: LanePosition,
        /// The metres left to go.
        short: f64,
    },
}

/// Where every branch ended.
#[derive(Debug, Clone, PartialEq)]
pub struct Moved {
    /// How many branch keys were entered, at most 1,024.
    pub keys: usize,
    /// A case for each branch that ended on a lane with a place; there may be none.
    pub positions: Vec<Advance>,
}

/// A side of a lane, as its traffic sees it.
#[derive(Debug, Clone, Copy, PartialEq, Eq, Hash)]
#[allow(missing_docs)]
pub enum Side {
    Left = 0,
    Right = 1,
}

/// How long answers may be; a longer one is [`Refusal::TooMuch`]. The default is what the program `plan-run` has.
#[derive(Debug, Clone, Copy, PartialEq, Eq)]
pub struct Room {
    /// Lanes of a chain. None has more than 257.
    pub lanes: usize,
    /// Points of a route.
    pub points: usize,
    /// Positions of an advance.
    pub positions: usize,
}

impl Default for Room {
    fn default() -> Self {
        Room { lanes: 257, points: 4096, positions: 256 }
    }
}

/// A junction's plan: its file, and the memory for the calls.
#[derive(Clone)]
pub struct Plan {
    file: Vec<u8>,
    counts: Counts,
    tables: Tables,
    chain: Vec<usize>,
    waypoints: Vec<f32>,
    rows: Vec<usize>,
    metres: Vec<f64>,
}

impl fmt::Debug for Plan {
    fn fmt(&self, f: &mut fmt::Formatter<'_>) -> fmt::Result {
        f.debug_struct("Plan").field("bytes", &self.file.len()).finish_non_exhaustive()
    }
}

/// No lane has this number: a plan's are of 16 bits.
const NO_LANE: LaneId = LaneId(usize::MAX);

/// Only 0 is an answer. The calls give 0 to 15, so another number says that the library is not the one that this crate stands over, and that what
/// comes with the number means nothing.
fn answered(number: usize) -> Result<(), Refusal> {
    match Refusal::from_number(number) {
        Some(refusal) => Err(refusal),
        None if number == 0 => Ok(()),
        None => panic!("libkartsodi.a gave number {number}, which this crate does not know: their versions differ"),
    }
}

impl Plan {
    /// The plan of a file; refused where the file is none, with a number from 2 to 8.
    pub fn new(file: &[u8]) -> Result<Plan, Refusal> {
        Plan::with_room(file, Room::default())
    }

    /// The same, with room for answers of other lengths.
    pub fn with_room(file: &[u8], room: Room) -> Result<Plan, Refusal> {
        let mut plan = Plan {
            file: file.to_vec(),
            counts: Counts::default(),
            tables: Tables::new(),
            chain: vec![],
            waypoints: vec![],
            rows: vec![],
            metres: vec![],
        };
        plan.set_room(room);
        // The file's numbers come before that of an unknown lane.
        match plan.pose(NO_LANE, 0.0) {
            Err(refusal) if refusal != Refusal::NotOnALane => return Err(refusal),
            _ => plan.counts = opened::counts(file),
        }
        Ok(plan)
    }

    /// Gives the answers to come other room: more after [`Refusal::TooMuch`], say.
    pub fn set_room(&mut self, room: Room) {
        self.chain = vec![0; room.lanes];
        self.waypoints = vec![0.0; 3 * room.points];
        self.rows = vec![0; 2 * room.positions];
        self.metres = vec![0.0; 3 * room.positions];
    }

    /// How many lanes, points and so on the plan has.
    pub fn counts(&self) -> Counts {
        self.counts
    }

    /// The plan's lanes, in file order.
    pub fn lanes(&self) -> Vec<records::Lane> {
        self.tables.lanes(self.counts)
    }

    /// The plan's links: lane by lane in file order, of each its successors, its predecessors and its neighbours, each of these in file order.
    pub fn links(&self) -> Vec<records::Link> {
        self.tables.links(self.counts)
    }

    /// The plan's sections, in file order.
    pub fn sections(&self) -> Vec<records::Section> {
        self.tables.sections(self.counts)
    }

    /// The plan's places, in file order.
    pub fn places(&self) -> Vec<records::Place> {
        self.tables.places(self.counts)
    }

    /// The place and the heading on a lane at the arc length `s`; before or past the lane, those of its ends.
    ///
    /// Refused for an unknown lane alone, as [`Refusal::NotOnALane`].
    pub fn pose(&mut self, lane: LaneId, s: f32) -> Result<Pose, Refusal> {
        let said = lent::pose(&self.file, lane, s, self.tables.lend());
        answered(said.number)?;
        Ok(said.pose)
    }

    /// The driving lane nearest to a point.
    ///
    /// Refused as [`Refusal::NotAPoint`] or [`Refusal::NoneDrives`].
    pub fn nearest_lane(&mut self, point: Point) -> Result<Nearest, Refusal> {
        let said = lent::nearest_lane(&self.file, point, self.tables.lend());
        answered(said.number)?;
        Ok(Nearest { lane: said.lane, projection: said.projection })
    }

    /// The route from the lane nearest to one point to the lane nearest to another.
    ///
    /// Refused as [`Refusal::NotAPoint`], [`Refusal::NoneDrives`], [`Refusal::NoWay`] or [`Refusal::TooMuch`].
    pub fn route(&mut self, from: Point, to: Point) -> Result<Route, Refusal> {
        let said = lent::route(&self.file, from, to, self.tables.lend(), &mut self.chain, &mut self.waypoints);
        answered(said.number)?;
        let chain = self.chain[..said.lanes].iter().map(|&lane| LaneId(lane)).collect();
        let waypoints = self.waypoints[..3 * said.points].chunks_exact(3);
        let points = waypoints.map(|at| Point { x: at[0], y: at[1], z: at[2] }).collect();
        Ok(Route { chain, points, length: said.length })
    }

    /// Every place `distance` metres on from a position along the lanes, by every branch; below 0, back against the traffic.
    ///
    /// Refused as [`Refusal::NotOnALane`], [`Refusal::NotADistance`] or [`Refusal::TooMuch`].
    pub fn advance(&mut self, from: LanePosition, distance: f64) -> Result<Moved, Refusal> {
        let said = lent::advance(&self.file, from, distance, self.tables.lend(), &mut self.rows, &mut self.metres);
        answered(said.number)?;
        let rows = self.rows.chunks_exact(2).zip(self.metres.chunks_exact(3)).take(said.positions);
        let positions = rows.map(|(row, metres)| {
            let at = LanePosition { lane: LaneId(row[1]), s: metres[0], offset: metres[1] };
            match row[0] {
                0 => Advance::Reached(at),
                _ => Advance::DeadEnd { at, short: metres[2] },
            }
        });
        Ok(Moved { keys: said.keys, positions: positions.collect() })
    }

    /// The place beside `s` on a lane.
    ///
    /// Refused as [`Refusal::NotOnALane`] or [`Refusal::NoneBeside`].
    pub fn beside(&mut self, lane: LaneId, s: f64, side: Side) -> Result<LanePosition, Refusal> {
        let said = lent::beside(&self.file, lane, s, side as usize, self.tables.lend());
        answered(said.number)?;
        Ok(said.at)
    }
}

#[cfg(test)]
mod tests {
    use super::{answered, Refusal};

    #[test]
    fn only_0_is_an_answer() {
        assert_eq!(answered(0), Ok(()));
        for number in 1..16 {
            assert_eq!(answered(number).map_err(Refusal::number), Err(number));
        }
    }

    #[test]
    #[should_panic(expected = "number 16, which this crate does not know")]
    fn an_unknown_number_is_no_answer() {
        let _ = answered(16);
    }
}
