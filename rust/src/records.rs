//! The plan file as records: [`read`] takes a file apart, [`write`] puts one together, and [`Plan::lanes`](crate::Plan::lanes) and the like give the
//! records of a plan as the library has read them.
//!
//! ```
//! use kartsodi::records::{self, Direction, Lane, LaneType, Record, RouteQuery};
//! use kartsodi::{LaneId, Plan, Point};
//!
//! let x = |x| Point { x, y: 0.0, z: 0.0 };
//! let lane = Lane {
//!     lane: LaneId(1),
//!     kind: LaneType::Driving,
//!     direction: Direction::Forward,
//!     points: vec![x(0.0), x(8.0)],
//!     ends: None,
//! };
//! let file = records::write(&[Record::Lane(lane.clone()), Record::Route(RouteQuery { from: x(2.0), to: x(6.0) })])?;
//! assert_eq!(Plan::new(&file)?.lanes(), [lane]);
//! # Ok::<(), Box<dyn std::error::Error>>(())
//! ```
//!
//! This is a reading of the file format (docs/FORMAT.md) beside the library's, and it asks for less: a record must be whole, of a known kind and of a
//! fitting length, and its bytes must name a type, a direction and so on. Whether the records make a plan, the library decides
//! ([`Plan::new`](crate::Plan::new)). What is read is written back as the same bytes, those of every NaN too.

mod kinds;
mod read;
mod write;

pub use kinds::{Direction, Kind, LaneType, Role};
pub use read::{read, Found, ReadError, ReadFault, Reader};
pub use write::{write, WriteError, WriteFault};

use crate::{LaneId, LanePosition, Point, Side, Vector};
use alloc::vec::Vec;

/// One record of a plan file.
#[derive(Debug, Clone, PartialEq)]
#[allow(missing_docs)]
pub enum Record {
    Lane(Lane),
    Link(Link),
    Section(Section),
    Place(Place),
    Route(RouteQuery),
    Advance(AdvanceQuery),
    Beside(BesideQuery),
}

impl Record {
    /// What kind of record it is.
    pub fn kind(&self) -> Kind {
        match self {
            Record::Lane(_) => Kind::Lane,
            Record::Link(_) => Kind::Link,
            Record::Section(_) => Kind::Section,
            Record::Place(_) => Kind::Place,
            Record::Route(_) => Kind::Route,
            Record::Advance(_) => Kind::Advance,
            Record::Beside(_) => Kind::Beside,
        }
    }
}

/// A lane and its centre line.
#[derive(Debug, Clone, PartialEq)]
pub struct Lane {
    /// Its number in the plan.
    pub lane: LaneId,
    /// What it is for. Only [`LaneType::Driving`] is driven on by routes.
    pub kind: LaneType,
    /// Which way traffic goes along the points.
    pub direction: Direction,
    /// The points of the centre line, along the road's stations.
    pub points: Vec<Point>,
    /// The tangents at the first and the last point, where they are given.
    pub ends: Option<[Vector; 2]>,
}

/// A lane that leads to another. Each is one way: neither a predecessor nor a neighbour follows from it.
#[derive(Debug, Clone, Copy, PartialEq, Eq)]
pub struct Link {
    /// The lane that the link belongs to.
    pub from: LaneId,
    /// What the other lane is to it.
    pub role: Role,
    /// The other lane; it may be missing from the plan.
    pub to: LaneId,
}

/// A section of a road: the stretch of stations that its lanes run along.
#[derive(Debug, Clone, PartialEq)]
pub struct Section {
    /// The road.
    pub road: u16,
    /// Which section of the road.
    pub index: u16,
    /// The least station of a position.
    pub start: f64,
    /// The greatest station of a position.
    pub end: f64,
    /// The station of each point of the section's lanes.
    pub stations: Vec<f64>,
}

/// Where a lane lies on its road.
#[derive(Debug, Clone, Copy, PartialEq, Eq)]
pub struct Place {
    /// The lane.
    pub lane: LaneId,
    /// Its road.
    pub road: u16,
    /// Its section of the road.
    pub index: u16,
    /// Its OpenDRIVE lane number: these fall from left to right.
    pub number: i32,
}

/// A question for the route from one point to another.
#[derive(Debug, Clone, Copy, PartialEq)]
pub struct RouteQuery {
    /// The start.
    pub from: Point,
    /// The goal.
    pub to: Point,
}

/// A question for every place a distance on from a position.
#[derive(Debug, Clone, Copy, PartialEq)]
pub struct AdvanceQuery {
    /// The position.
    pub from: LanePosition,
    /// The metres to go; below 0, against the traffic.
    pub distance: f64,
}

/// A question for the lane beside a position.
#[derive(Debug, Clone, Copy, PartialEq)]
pub struct BesideQuery {
    /// The lane.
    pub lane: LaneId,
    /// The station.
    pub s: f64,
    /// Which side of its traffic.
    pub side: Side,
}
