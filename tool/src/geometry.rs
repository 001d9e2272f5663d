//! Distances and places in f64, for warnings, words and drawings. No answer of the library comes from here.

use kartsodi::records::{Lane, Record};
use kartsodi::{LanePosition, Point};

/// The metres between two points.
pub fn distance(a: Point, b: Point) -> f64 {
    length(difference(a, b))
}

/// The metres from a point to the line through these points; infinite where there is none.
pub fn distance_to_line(line: &[Point], p: Point) -> f64 {
    let whole = line.windows(2).map(|ends| distance_to_piece(ends[0], ends[1], p));
    whole.chain(line.iter().map(|q| distance(*q, p))).fold(f64::INFINITY, f64::min)
}

/// The metres along the line through these points.
pub fn length_of_line(line: &[Point]) -> f64 {
    line.windows(2).map(|ends| distance(ends[0], ends[1])).sum()
}

/// Where a position by lane, station and offset lies, and the way of the lane's points there, of length 1, seen from above. None where the lane
/// has no place or its line no length.
pub fn position(records: &[Record], at: LanePosition) -> Option<([f64; 3], [f64; 2])> {
    let lane = crate::paper::lanes(records).find(|lane| lane.lane == at.lane)?;
    let stations = stations(records, lane)?;
    let last = stations.len().min(lane.points.len()).checked_sub(2)?;
    let i = stations.partition_point(|s| *s <= at.s).saturating_sub(1).min(last);
    let f = ((at.s - stations[i]) / (stations[i + 1] - stations[i])).clamp(0.0, 1.0);
    let (a, b) = (lane.points[i], lane.points[i + 1]);
    let [dx, dy, dz] = difference(b, a);
    let way = (dx * dx + dy * dy).sqrt();
    if way <= 0.0 {
        return None;
    }
    let (wx, wy) = (dx / way, dy / way);
    let on = [f64::from(a.x) + f * dx, f64::from(a.y) + f * dy, f64::from(a.z) + f * dz];
    Some(([on[0] - at.offset * wy, on[1] + at.offset * wx, on[2]], [wx, wy]))
}

/// The stations of a lane's section, where it has a place.
pub fn stations<'a>(records: &'a [Record], lane: &Lane) -> Option<&'a [f64]> {
    let place = records.iter().find_map(|record| match record {
        Record::Place(place) if place.lane == lane.lane => Some(place),
        _ => None,
    })?;
    records.iter().find_map(|record| match record {
        Record::Section(section) if (section.road, section.index) == (place.road, place.index) => {
            Some(section.stations.as_slice())
        }
        _ => None,
    })
}

fn difference(a: Point, b: Point) -> [f64; 3] {
    [f64::from(a.x) - f64::from(b.x), f64::from(a.y) - f64::from(b.y), f64::from(a.z) - f64::from(b.z)]
}

fn length(v: [f64; 3]) -> f64 {
    dot(v, v).sqrt()
}

fn dot(v: [f64; 3], w: [f64; 3]) -> f64 {
    v[0] * w[0] + v[1] * w[1] + v[2] * w[2]
}

/// The metres from a point to a straight piece.
fn distance_to_piece(a: Point, b: Point, p: Point) -> f64 {
    let (way, to) = (difference(b, a), difference(p, a));
    let square = dot(way, way);
    let f = if square > 0.0 { (dot(to, way) / square).clamp(0.0, 1.0) } else { 0.0 };
    length([to[0] - f * way[0], to[1] - f * way[1], to[2] - f * way[2]])
}
