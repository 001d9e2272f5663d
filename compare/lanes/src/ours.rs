//! The proved calls, through the static libraries: the public calls, and the queries over the rows of a plan that is loaded once.

use crate::answer::{Answer, Lists};
use compare_common::reader;
use compare_common::tables::{Counts, Tables};
use kartsodi::lent::{self, Advanced, BesideAnswer, NearestAnswer, Posed, RouteAnswer};
use kartsodi::{LaneId, LanePosition, Point, Projection};
use kartsodi_oracle::reader::Query;

#[repr(C)]
#[derive(Clone, Copy)]
struct Grid {
    min_x: f32,
    min_y: f32,
    cell: f32,
    cols: usize,
    rows: usize,
}

#[repr(C)]
#[derive(Clone, Copy)]
struct LaneIndex {
    count: usize,
    grid: Grid,
}

#[repr(C)]
struct Hit {
    found: bool,
    dist2: f32,
    span: usize,
    row: usize,
    projection: Projection,
}

reader!(
    open, kartsodi_open:
    lanes usize, points f32, ends f32, fans usize, links usize,
    sections usize, bounds f64, stations f64, places usize, cumulative f32, tangents f32
);

extern "C" {
    // A slice is a pointer and a length.
    fn kartsodi_driving(
        lanes: *const usize, lanes_len: usize, n: usize,
        points: *const f32, points_len: usize,
        spans: *mut usize, spans_len: usize,
        boxes: *mut f32, boxes_len: usize,
        ranges: *mut usize, ranges_len: usize,
    ) -> LaneIndex;
    fn kartsodi_nearest_indexed(
        lanes: *const usize, lanes_len: usize,
        points: *const f32, points_len: usize,
        cumulative: *const f32, cumulative_len: usize,
        spans: *const usize, spans_len: usize,
        boxes: *const f32, boxes_len: usize,
        ranges: *const usize, ranges_len: usize,
        index: LaneIndex, p: Point,
    ) -> Hit;
    fn kartsodi_route_rows(
        from: Point, to: Point,
        lanes: *const usize, lanes_len: usize, n: usize,
        points: *const f32, points_len: usize,
        cumulative: *const f32, cumulative_len: usize,
        fans: *const usize, fans_len: usize,
        links: *const usize, links_len: usize,
        chain: *mut usize, chain_len: usize,
        places: *mut f32, places_len: usize,
    ) -> RouteAnswer;
    fn kartsodi_advance_rows(
        lanes: *const usize, lanes_len: usize, n: usize,
        points: *const f32, points_len: usize,
        cumulative: *const f32, cumulative_len: usize,
        fans: *const usize, fans_len: usize,
        links: *const usize, links_len: usize,
        sections: *const usize, sections_len: usize,
        bounds: *const f64, bounds_len: usize,
        stations: *const f64, stations_len: usize,
        places: *const usize, places_len: usize, m: usize,
        from: LanePosition, distance: f64,
        rows: *mut usize, rows_len: usize,
        positions: *mut f64, positions_len: usize,
    ) -> Advanced;
    fn kartsodi_beside_rows(
        lanes: *const usize, lanes_len: usize, n: usize,
        fans: *const usize, fans_len: usize,
        places: *const usize, places_len: usize, m: usize,
        bounds: *const f64, bounds_len: usize,
        at: LanePosition, side: usize,
    ) -> BesideAnswer;
}

fn point([x, y, z]: [f32; 3]) -> Point {
    Point { x, y, z }
}

fn posed(p: Posed) -> Answer {
    let (a, b) = (p.pose.position, p.pose.heading);
    Answer { number: p.number, wholes: [0; 2], floats: [a.x, a.y, a.z, b.x, b.y, b.z].map(f64::from) }
}

fn nearest(n: NearestAnswer) -> Answer {
    let p = n.projection;
    let floats = [p.s, p.point.x, p.point.y, p.point.z, p.offset, 0.0].map(f64::from);
    Answer { number: n.number, wholes: [n.lane.0, 0], floats }
}

fn routed(r: RouteAnswer) -> Answer {
    let mut floats = [0.0; 6];
    floats[0] = r.length.into();
    Answer { number: r.number, wholes: [r.lanes, r.points], floats }
}

fn advanced(a: Advanced) -> Answer {
    Answer { number: a.number, wholes: [a.keys, a.positions], ..Answer::default() }
}

fn beside(b: BesideAnswer) -> Answer {
    let mut floats = [0.0; 6];
    floats[..2].copy_from_slice(&[b.at.s, b.at.offset]);
    Answer { number: b.number, wholes: [b.at.lane.0, 0], floats }
}

fn lend(t: &mut Tables) -> lent::Tables<'_> {
    lent::Tables {
        lanes: &mut t.lanes,
        points: &mut t.points,
        ends: &mut t.ends,
        fans: &mut t.fans,
        links: &mut t.links,
        sections: &mut t.sections,
        bounds: &mut t.bounds,
        stations: &mut t.stations,
        places: &mut t.places,
        cumulative: &mut t.cumulative,
        tangents: &mut t.tangents,
    }
}

/// A public call, for every file, query, tables and lists.
pub fn call(file: &[u8], query: &Query, t: &mut Tables, lists: &mut Lists) -> Answer {
    let t = lend(t);
    match *query {
        Query::Pose { lane, s } => posed(lent::pose(file, LaneId(lane), s, t)),
        Query::Nearest { point: p } => nearest(lent::nearest_lane(file, point(p), t)),
        Query::Route { from, to } => {
            routed(lent::route(file, point(from), point(to), t, &mut lists.chain, &mut lists.points))
        }
        Query::Advance { lane, s, offset, distance } => {
            let from = LanePosition { lane: LaneId(lane), s, offset };
            advanced(lent::advance(file, from, distance, t, &mut lists.rows, &mut lists.metres))
        }
        Query::Beside { lane, s, side } => beside(lent::beside(file, LaneId(lane), s, side.into(), t)),
    }
}

// Below, each pointer handed over is that of a slice that lives through the call, with its own length.

/// A plan loaded once, with the index of its driving lanes. A query is handed the plan's rows of each table and no more.
pub struct Rows {
    t: Tables,
    counts: Counts,
    index: LaneIndex,
    spans: Vec<usize>,
    boxes: Vec<f32>,
    ranges: Vec<usize>,
}

/// The most spans that a plan has.
const MAX_SPANS: usize = 1152;

impl Rows {
    /// The plan of a file in tables that held `t`, or the number that refuses it.
    pub fn open(file: &[u8], t: Tables) -> Result<Rows, usize> {
        let (spans, boxes, ranges) = (vec![0; 3 * MAX_SPANS], vec![0.0; 4 * MAX_SPANS], vec![0; 4 * MAX_SPANS]);
        let index = LaneIndex { count: 0, grid: Grid { min_x: 0.0, min_y: 0.0, cell: 0.0, cols: 0, rows: 0 } };
        let mut rows = Rows { t, counts: Counts::default(), index, spans, boxes, ranges };
        match rows.load(file) {
            0 => {
                rows.build();
                Ok(rows)
            }
            number => Err(number),
        }
    }

    /// Reads the plan of a file into the tables, without its index.
    pub fn load(&mut self, file: &[u8]) -> usize {
        let read = open(file, 0, &mut self.t);
        self.counts = read.counts;
        read.number
    }

    /// Builds the index anew.
    pub fn build(&mut self) {
        let (t, c) = (&self.t, self.counts);
        let (spans, boxes, ranges) = (&mut self.spans, &mut self.boxes, &mut self.ranges);
        self.index = unsafe {
            kartsodi_driving(
                t.lanes.as_ptr(), 6 * c.lanes, c.lanes,
                t.points.as_ptr(), 3 * c.points,
                spans.as_mut_ptr(), spans.len(),
                boxes.as_mut_ptr(), boxes.len(),
                ranges.as_mut_ptr(), ranges.len(),
            )
        };
    }

    /// The nearest lane by the index that stands.
    fn nearest(&self, p: [f32; 3]) -> Answer {
        if !p.iter().all(|c| c.is_finite()) {
            return Answer::refused(9);
        }
        let (t, c) = (&self.t, self.counts);
        let hit = unsafe {
            kartsodi_nearest_indexed(
                t.lanes.as_ptr(), 6 * c.lanes,
                t.points.as_ptr(), 3 * c.points,
                t.cumulative.as_ptr(), c.points,
                self.spans.as_ptr(), self.spans.len(),
                self.boxes.as_ptr(), self.boxes.len(),
                self.ranges.as_ptr(), self.ranges.len(),
                self.index, point(p),
            )
        };
        if hit.found {
            let lane = LaneId(t.lanes[6 * hit.row]);
            return nearest(NearestAnswer { number: 0, lane, projection: hit.projection });
        }
        Answer::refused(10)
    }

    pub fn ask(&self, query: &Query, lists: &mut Lists) -> Answer {
        let (t, c) = (&self.t, self.counts);
        match *query {
            Query::Advance { lane, s, offset, distance } => advanced(unsafe {
                kartsodi_advance_rows(
                    t.lanes.as_ptr(), 6 * c.lanes, c.lanes,
                    t.points.as_ptr(), 3 * c.points,
                    t.cumulative.as_ptr(), c.points,
                    t.fans.as_ptr(), 5 * c.lanes,
                    t.links.as_ptr(), 2 * c.links,
                    t.sections.as_ptr(), 4 * c.sections,
                    t.bounds.as_ptr(), 2 * c.sections,
                    t.stations.as_ptr(), c.stations,
                    t.places.as_ptr(), 3 * c.places, c.places,
                    LanePosition { lane: LaneId(lane), s, offset }, distance,
                    lists.rows.as_mut_ptr(), lists.rows.len(),
                    lists.metres.as_mut_ptr(), lists.metres.len(),
                )
            }),
            Query::Beside { lane, s, side } => beside(unsafe {
                kartsodi_beside_rows(
                    t.lanes.as_ptr(), 6 * c.lanes, c.lanes,
                    t.fans.as_ptr(), 5 * c.lanes,
                    t.places.as_ptr(), 3 * c.places, c.places,
                    t.bounds.as_ptr(), 2 * c.sections,
                    LanePosition { lane: LaneId(lane), s, offset: 0.0 }, side.into(),
                )
            }),
            Query::Nearest { point } => self.nearest(point),
            Query::Route { from, to } => routed(unsafe {
                kartsodi_route_rows(
                    point(from), point(to),
                    t.lanes.as_ptr(), 6 * c.lanes, c.lanes,
                    t.points.as_ptr(), 3 * c.points,
                    t.cumulative.as_ptr(), c.points,
                    t.fans.as_ptr(), 5 * c.lanes,
                    t.links.as_ptr(), 2 * c.links,
                    lists.chain.as_mut_ptr(), lists.chain.len(),
                    lists.points.as_mut_ptr(), lists.points.len(),
                )
            }),
            _ => unreachable!("not asked over rows"),
        }
    }
}
