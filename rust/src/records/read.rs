//! A file taken apart. Total: every file gives its records, or the first that cannot be read.

use super::{
    AdvanceQuery, BesideQuery, Direction, Kind, Lane, LaneType, Link, Place, Record, Role, RouteQuery, Section,
};
use crate::{LaneId, LanePosition, Point, Refusal, Side, Vector};
use alloc::vec::Vec;
use core::error::Error;
use core::fmt;

/// The records of a file, in its order.
///
/// Of what the library checks, this asks for whole records of known kinds and fitting lengths, and for types, directions, roles, sides and ends that
/// have a meaning. The file's length, the ranges of floats, limits, and what stands twice or is missing are the library's to check.
pub fn read(file: &[u8]) -> Result<Vec<Record>, ReadError> {
    Reader::new(file).map(|found| found.map(|found| found.record)).collect()
}

/// Reads a file record by record, up to its end or to the first record that cannot be read.
#[derive(Debug, Clone)]
pub struct Reader<'a> {
    rest: &'a [u8],
    offset: usize,
    index: usize,
}

/// A record, and where it stands.
#[derive(Debug, Clone, PartialEq)]
pub struct Found {
    /// Which record of the file it is, from 0 on.
    pub index: usize,
    /// The byte that it begins at, from 0 on.
    pub offset: usize,
    /// What it says.
    pub record: Record,
}

/// The first record of a file that cannot be read.
#[derive(Debug, Clone, Copy, PartialEq, Eq)]
pub struct ReadError {
    /// Which record of the file it is, from 0 on.
    pub index: usize,
    /// The byte that it begins at, from 0 on.
    pub offset: usize,
    /// What is wrong with it.
    pub fault: ReadFault,
}

/// Why a record cannot be read.
#[derive(Debug, Clone, Copy, PartialEq, Eq)]
pub enum ReadFault {
    /// It needs so many bytes, and the file has fewer left.
    Cut {
        /// Of the header, or of header and payload.
        needs: u64,
        /// What is left of the file.
        has: usize,
    },
    /// Its kind is unknown.
    Unknown(u16),
    /// Its length does not fit its kind and its count of points or stations.
    Length {
        /// What kind it is.
        kind: Kind,
        /// The bytes that its payload has to have, or at least, where it is too short to hold its count.
        needs: usize,
        /// The bytes that it has.
        has: usize,
    },
    /// A byte that stands for a word stands for none.
    Meaning {
        /// The field.
        field: &'static str,
        /// The byte.
        is: u8,
        /// The largest that has a meaning.
        most: u8,
    },
}

impl ReadError {
    /// The number that the library refuses such a record with, where no record before it is refused.
    pub fn refusal(&self) -> Refusal {
        match self.fault {
            ReadFault::Cut { .. } => Refusal::CutRecord,
            ReadFault::Unknown(_) | ReadFault::Length { .. } => Refusal::WrongRecord,
            ReadFault::Meaning { .. } => Refusal::OutOfRange,
        }
    }
}

impl fmt::Display for ReadFault {
    fn fmt(&self, f: &mut fmt::Formatter<'_>) -> fmt::Result {
        match self {
            ReadFault::Cut { needs, has } => write!(f, "it needs {needs} bytes, and the file has {has} left"),
            ReadFault::Unknown(kind) => write!(f, "its kind {kind} is unknown"),
            ReadFault::Length { kind, needs, has } => {
                write!(f, "as a {kind} with its counts it needs a payload of {needs} bytes, and has {has}")
            }
            ReadFault::Meaning { field, is, most } => write!(f, "its {field} is {is}, and may be 0 to {most}"),
        }
    }
}

impl fmt::Display for ReadError {
    fn fmt(&self, f: &mut fmt::Formatter<'_>) -> fmt::Result {
        write!(f, "record {} at byte {}: {}", self.index + 1, self.offset, self.fault)
    }
}

impl Error for ReadError {}

const HEADER: usize = 6;

impl<'a> Reader<'a> {
    /// From a file's first record on.
    pub fn new(file: &'a [u8]) -> Self {
        Reader { rest: file, offset: 0, index: 0 }
    }

    /// The next record, and how many bytes it has with its header.
    fn next_record(&self) -> Result<(Record, usize), ReadFault> {
        let has = self.rest.len();
        let (length, code) = match self.rest {
            [a, b, c, d, e, f, ..] => (u32::from_le_bytes([*a, *b, *c, *d]), u16::from_le_bytes([*e, *f])),
            _ => return Err(ReadFault::Cut { needs: HEADER as u64, has }),
        };
        let needs = HEADER as u64 + u64::from(length);
        if needs > has as u64 {
            return Err(ReadFault::Cut { needs, has });
        }
        let payload = &self.rest[HEADER..needs as usize];
        let kind = Kind::from_number(code).ok_or(ReadFault::Unknown(code))?;
        Ok((record(kind, payload)?, needs as usize))
    }
}

impl Iterator for Reader<'_> {
    type Item = Result<Found, ReadError>;

    fn next(&mut self) -> Option<Self::Item> {
        if self.rest.is_empty() {
            return None;
        }
        let (index, offset) = (self.index, self.offset);
        Some(match self.next_record() {
            Ok((record, bytes)) => {
                self.rest = &self.rest[bytes..];
                self.offset += bytes;
                self.index += 1;
                Ok(Found { index, offset, record })
            }
            Err(fault) => {
                self.rest = &[];
                Err(ReadError { index, offset, fault })
            }
        })
    }
}

/// The fields of a payload, front to back.
struct Fields<'a> {
    kind: Kind,
    payload: &'a [u8],
    at: usize,
}

impl Fields<'_> {
    /// The next field's bytes. A payload that is too short has a length that does not fit.
    fn take<const N: usize>(&mut self) -> Result<[u8; N], ReadFault> {
        let end = self.at + N;
        let bytes = self.payload.get(self.at..end).and_then(|bytes| bytes.try_into().ok());
        let bytes = bytes.ok_or(ReadFault::Length { kind: self.kind, needs: end, has: self.payload.len() })?;
        self.at = end;
        Ok(bytes)
    }

    /// Asks for exactly so many bytes from here on.
    fn ends_after(&self, bytes: usize) -> Result<(), ReadFault> {
        let (needs, has) = (self.at + bytes, self.payload.len());
        if needs == has {
            Ok(())
        } else {
            Err(ReadFault::Length { kind: self.kind, needs, has })
        }
    }

    fn byte(&mut self) -> Result<u8, ReadFault> {
        self.take::<1>().map(|[byte]| byte)
    }

    fn number(&mut self) -> Result<u16, ReadFault> {
        self.take().map(u16::from_le_bytes)
    }

    fn signed(&mut self) -> Result<i32, ReadFault> {
        self.take().map(i32::from_le_bytes)
    }

    fn single(&mut self) -> Result<f32, ReadFault> {
        self.take().map(f32::from_le_bytes)
    }

    fn double(&mut self) -> Result<f64, ReadFault> {
        self.take().map(f64::from_le_bytes)
    }

    fn lane_id(&mut self) -> Result<LaneId, ReadFault> {
        self.number().map(|number| LaneId(number.into()))
    }

    fn point(&mut self) -> Result<Point, ReadFault> {
        Ok(Point { x: self.single()?, y: self.single()?, z: self.single()? })
    }

    fn vector(&mut self) -> Result<Vector, ReadFault> {
        self.point().map(|Point { x, y, z }| Vector { x, y, z })
    }
}

/// What a byte stands for.
fn meaning<T>(field: &'static str, is: u8, most: u8, found: Option<T>) -> Result<T, ReadFault> {
    found.ok_or(ReadFault::Meaning { field, is, most })
}

fn role(is: u8) -> Result<Role, ReadFault> {
    meaning("role", is, 2, Role::from_number(is))
}

fn side(is: u8) -> Result<Side, ReadFault> {
    meaning("side", is, 1, Side::from_number(is))
}

/// The record of a payload. Its length is looked at before what its bytes mean, as the numbers 4 and 5 are tried.
fn record(kind: Kind, payload: &[u8]) -> Result<Record, ReadFault> {
    let mut p = Fields { kind, payload, at: 0 };
    match kind {
        Kind::Lane => lane(&mut p).map(Record::Lane),
        Kind::Link => link(&mut p).map(Record::Link),
        Kind::Section => section(&mut p).map(Record::Section),
        Kind::Place => place(&mut p).map(Record::Place),
        Kind::Route => route(&mut p).map(Record::Route),
        Kind::Advance => advance(&mut p).map(Record::Advance),
        Kind::Beside => beside(&mut p).map(Record::Beside),
    }
}

fn lane(p: &mut Fields<'_>) -> Result<Lane, ReadFault> {
    let lane = p.lane_id()?;
    let (kind, direction, ends, count) = (p.byte()?, p.byte()?, p.byte()?, p.number()?);
    p.ends_after(12 * usize::from(count) + if ends == 0 { 0 } else { 24 })?;
    let kind = meaning("type", kind, 27, LaneType::from_number(kind))?;
    let direction = meaning("direction", direction, 2, Direction::from_number(direction))?;
    let has_ends = meaning("ends", ends, 1, (ends < 2).then_some(ends == 1))?;
    let points = (0..count).map(|_| p.point()).collect::<Result<_, _>>()?;
    let ends = if has_ends { Some([p.vector()?, p.vector()?]) } else { None };
    Ok(Lane { lane, kind, direction, points, ends })
}

fn link(p: &mut Fields<'_>) -> Result<Link, ReadFault> {
    p.ends_after(5)?;
    Ok(Link { from: p.lane_id()?, role: role(p.byte()?)?, to: p.lane_id()? })
}

fn section(p: &mut Fields<'_>) -> Result<Section, ReadFault> {
    let (road, index, start, end, count) = (p.number()?, p.number()?, p.double()?, p.double()?, p.number()?);
    p.ends_after(8 * usize::from(count))?;
    let stations = (0..count).map(|_| p.double()).collect::<Result<_, _>>()?;
    Ok(Section { road, index, start, end, stations })
}

fn place(p: &mut Fields<'_>) -> Result<Place, ReadFault> {
    p.ends_after(10)?;
    Ok(Place { lane: p.lane_id()?, road: p.number()?, index: p.number()?, number: p.signed()? })
}

fn route(p: &mut Fields<'_>) -> Result<RouteQuery, ReadFault> {
    p.ends_after(24)?;
    Ok(RouteQuery { from: p.point()?, to: p.point()? })
}

fn advance(p: &mut Fields<'_>) -> Result<AdvanceQuery, ReadFault> {
    p.ends_after(26)?;
    let from = LanePosition { lane: p.lane_id()?, s: p.double()?, offset: p.double()? };
    Ok(AdvanceQuery { from, distance: p.double()? })
}

fn beside(p: &mut Fields<'_>) -> Result<BesideQuery, ReadFault> {
    p.ends_after(11)?;
    Ok(BesideQuery { lane: p.lane_id()?, s: p.double()?, side: side(p.byte()?)? })
}
