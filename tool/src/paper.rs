//! An accepted plan with its questions answered by the proved library: what `answer`, `draw` and `sheet` show.

use crate::geometry;
use kartsodi::records::{self, AdvanceQuery, BesideQuery, Lane, LaneType, Link, Record, RouteQuery};
use kartsodi::{LaneId, LanePosition, Moved, Nearest, Plan, Point, Refusal, Route};

/// An accepted plan, its records, and the answer to each question that stands in it.
pub struct Paper {
    /// The plan file's bytes.
    pub file: Vec<u8>,
    /// The same, opened by the library.
    pub plan: Plan,
    /// Its records, in file order.
    pub records: Vec<Record>,
    /// Its questions with their answers, in file order.
    pub answers: Vec<Answered>,
}

/// A question with the library's answer.
pub enum Answered {
    Route {
        query: RouteQuery,
        /// The lane that the start was taken to; none where the library finds none.
        from: Option<Snap>,
        /// The lane that the goal was taken to.
        to: Option<Snap>,
        answer: Result<Route, Refusal>,
    },
    Advance {
        query: AdvanceQuery,
        answer: Result<Moved, Refusal>,
    },
    Beside {
        query: BesideQuery,
        answer: Result<LanePosition, Refusal>,
    },
}

/// Where a point of a route was taken to.
pub struct Snap {
    /// The nearest driving lane, by the library.
    pub nearest: Nearest,
    /// How far it is from the point, in metres.
    pub metres: f64,
    /// The lane that is nearer, where there is one that no route starts or ends on: its number, its type, and how far it is.
    pub nearer: Option<(LaneId, LaneType, f64)>,
    /// The other driving lanes that are as near, to the millimetre.
    pub level: Vec<LaneId>,
}

/// Beyond this many metres a point is said not to lie on the lane that it is taken to.
pub const OFF_LANE: f64 = 2.0;

impl Paper {
    /// The paper of a plan file, or the library's refusal of it.
    pub fn new(file: Vec<u8>) -> Result<Paper, Refusal> {
        let mut plan = Plan::new(&file)?;
        // The library accepts no file that cannot be read here; if it did, nothing would be answered that cannot be shown.
        let records = records::read(&file).map_err(|error| error.refusal())?;
        let answers = records.iter().filter_map(|record| Answered::new(&mut plan, &records, record)).collect();
        Ok(Paper { file, plan, records, answers })
    }
}

impl Answered {
    /// The answer to a record; none where it is no question.
    fn new(plan: &mut Plan, records: &[Record], record: &Record) -> Option<Answered> {
        Some(match record {
            Record::Route(query) => Answered::Route {
                query: *query,
                from: Snap::new(plan, records, query.from),
                to: Snap::new(plan, records, query.to),
                answer: plan.route(query.from, query.to),
            },
            Record::Advance(query) => {
                Answered::Advance { query: *query, answer: plan.advance(query.from, query.distance) }
            }
            Record::Beside(query) => {
                Answered::Beside { query: *query, answer: plan.beside(query.lane, query.s, query.side) }
            }
            Record::Lane(_) | Record::Link(_) | Record::Section(_) | Record::Place(_) => return None,
        })
    }
}

impl Snap {
    /// Where the library takes a point to; none where it refuses to.
    pub fn new(plan: &mut Plan, records: &[Record], point: Point) -> Option<Snap> {
        let nearest = plan.nearest_lane(point).ok()?;
        let metres = geometry::distance(nearest.projection.point, point);
        let off = |lane: &Lane| geometry::distance_to_line(&lane.points, point);
        let others = lanes(records).filter(|lane| !lane.kind.drives());
        let others = others.map(|lane| (lane.lane, lane.kind, off(lane)));
        let nearer = others.filter(|other| other.2 < metres).min_by(|a, b| a.2.total_cmp(&b.2));
        let driving = lanes(records).filter(|lane| lane.kind.drives() && lane.lane != nearest.lane);
        let level = driving.filter(|lane| off(lane) < metres + 0.001).map(|lane| lane.lane).collect();
        Some(Snap { nearest, metres, nearer, level })
    }
}

/// The lanes among records.
pub fn lanes(records: &[Record]) -> impl Iterator<Item = &Lane> {
    records.iter().filter_map(|record| match record {
        Record::Lane(lane) => Some(lane),
        _ => None,
    })
}

/// The links among records.
pub fn links(records: &[Record]) -> impl Iterator<Item = &Link> {
    records.iter().filter_map(|record| match record {
        Record::Link(link) => Some(link),
        _ => None,
    })
}
