//! A file put together.

use super::{Lane, Record, Section};
use crate::{LaneId, Point, Vector};
use alloc::vec::Vec;
use core::error::Error;
use core::fmt;

/// The file of these records, in their order. Refused where a record has no bytes; whether the file is a plan, the library decides.
pub fn write(records: &[Record]) -> Result<Vec<u8>, WriteError> {
    let mut file = Vec::new();
    for (index, record) in records.iter().enumerate() {
        let payload = payload(record).map_err(|fault| WriteError { index, fault })?;
        // A payload has at most 65,535 points, so that its length fits.
        file.extend((payload.len() as u32).to_le_bytes());
        file.extend(record.kind().number().to_le_bytes());
        file.extend(payload);
    }
    Ok(file)
}

/// The first record that has no bytes.
#[derive(Debug, Clone, Copy, PartialEq, Eq)]
pub struct WriteError {
    /// Which of the records it is, from 0 on.
    pub index: usize,
    /// Why it has none.
    pub fault: WriteFault,
}

/// Why a record has no bytes.
#[derive(Debug, Clone, Copy, PartialEq, Eq)]
pub enum WriteFault {
    /// A lane number above 65,535.
    LaneNumber(LaneId),
    /// So many points or stations, more than 65,535.
    Count(usize),
}

impl fmt::Display for WriteFault {
    fn fmt(&self, f: &mut fmt::Formatter<'_>) -> fmt::Result {
        match self {
            WriteFault::LaneNumber(lane) => write!(f, "the lane number {} is above 65,535", lane.0),
            WriteFault::Count(count) => write!(f, "{count} points or stations are more than 65,535"),
        }
    }
}

impl fmt::Display for WriteError {
    fn fmt(&self, f: &mut fmt::Formatter<'_>) -> fmt::Result {
        write!(f, "record {}: {}", self.index + 1, self.fault)
    }
}

impl Error for WriteError {}

/// The payload of a record, front to back.
#[derive(Default)]
struct Payload(Vec<u8>);

impl Payload {
    fn put<const N: usize>(&mut self, bytes: [u8; N]) -> &mut Self {
        self.0.extend(bytes);
        self
    }

    fn lane(&mut self, lane: LaneId) -> Result<&mut Self, WriteFault> {
        let number = u16::try_from(lane.0).map_err(|_| WriteFault::LaneNumber(lane))?;
        Ok(self.put(number.to_le_bytes()))
    }

    fn count(&mut self, count: usize) -> Result<&mut Self, WriteFault> {
        let count = u16::try_from(count).map_err(|_| WriteFault::Count(count))?;
        Ok(self.put(count.to_le_bytes()))
    }

    fn single(&mut self, x: f32) -> &mut Self {
        self.put(x.to_le_bytes())
    }

    fn double(&mut self, x: f64) -> &mut Self {
        self.put(x.to_le_bytes())
    }

    fn point(&mut self, p: Point) -> &mut Self {
        self.single(p.x).single(p.y).single(p.z)
    }

    fn vector(&mut self, v: Vector) -> &mut Self {
        self.single(v.x).single(v.y).single(v.z)
    }

    fn whole_lane(&mut self, lane: &Lane) -> Result<(), WriteFault> {
        let bytes = [lane.kind.number(), lane.direction.number(), lane.ends.is_some().into()];
        self.lane(lane.lane)?.put(bytes).count(lane.points.len())?;
        for p in &lane.points {
            self.point(*p);
        }
        for v in lane.ends.iter().flatten() {
            self.vector(*v);
        }
        Ok(())
    }

    fn section(&mut self, section: &Section) -> Result<(), WriteFault> {
        self.put(section.road.to_le_bytes()).put(section.index.to_le_bytes());
        self.double(section.start).double(section.end).count(section.stations.len())?;
        for s in &section.stations {
            self.double(*s);
        }
        Ok(())
    }
}

fn payload(record: &Record) -> Result<Vec<u8>, WriteFault> {
    let mut p = Payload::default();
    match record {
        Record::Lane(lane) => p.whole_lane(lane)?,
        Record::Link(link) => {
            p.lane(link.from)?.put([link.role.number()]).lane(link.to)?;
        }
        Record::Section(section) => p.section(section)?,
        Record::Place(place) => {
            let road = p.lane(place.lane)?.put(place.road.to_le_bytes());
            road.put(place.index.to_le_bytes()).put(place.number.to_le_bytes());
        }
        Record::Route(route) => {
            p.point(route.from).point(route.to);
        }
        Record::Advance(advance) => {
            let from = advance.from;
            p.lane(from.lane)?.double(from.s).double(from.offset).double(advance.distance);
        }
        Record::Beside(beside) => {
            p.lane(beside.lane)?.double(beside.s).put([beside.side.number()]);
        }
    }
    Ok(p.0)
}
