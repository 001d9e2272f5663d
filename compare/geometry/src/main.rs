//! Compares the proved polyline and stations (crates geometry and road) with the oracle's cut of the source, query by query.
//!
//! `compare-geometry [COUNT [SEED]]`, after `c/archive geometry_c`.

mod draw;
mod ours;

use compare_common::draw::arc;
use compare_common::{all32, same32, same64};
use draw::Triple;
use kartsodi_oracle::bake::bake;
use kartsodi_oracle::coords::{Point, Vector};
use kartsodi_oracle::geometry::{Polyline, Projection};
use kartsodi_oracle::network::{LaneId, RoadNetwork};
use kartsodi_oracle::reader::{LaneRecord, PlaceRecord, Plan, SectionRecord};
use kartsodi_oracle::rng::Rng;
use kartsodi_oracle::road::{along, station_at, LanePosition};

/// A line as each side has it, with stations, in a section of its own.
struct Line {
    points: Vec<Triple>,
    ends: Option<[Triple; 2]>,
    stations: Vec<f64>,
    section: (f64, f64),
    ours: ours::Line,
    theirs: Polyline,
    network: RoadNetwork,
}

impl Line {
    fn new(rng: &mut Rng, points: Vec<Triple>, ends: Option<[Triple; 2]>) -> Self {
        let ours = ours::Line::new(&points, ends);
        let cut: Vec<Point> = points.iter().map(|&p| Point::from_array(p)).collect();
        let theirs = match ends {
            None => Polyline::try_new(cut),
            Some([start, end]) => Polyline::try_new_with_tangents(cut, vector(start), vector(end)),
        };
        let theirs = theirs.expect("two points");
        let stations = draw::rising(rng, points.len(), theirs.length());
        let section = draw::section(rng, &stations);
        let network = network_of(&points, &stations, section);
        Line { points, ends, stations, section, ours, theirs, network }
    }

    fn tables_agree(&self) -> bool {
        let tangents: Vec<f32> = self.theirs.tangents.iter().flat_map(|v| v.to_array()).collect();
        all32(&self.ours.cumulative, &self.theirs.cumulative) && all32(&self.ours.tangents, &tangents)
    }
}

fn vector([x, y, z]: Triple) -> Vector {
    Vector::new(x, y, z)
}

/// A network of one lane, number 1, which does not drive: only its section is asked for.
fn network_of(points: &[Triple], stations: &[f64], (start, end): (f64, f64)) -> RoadNetwork {
    let lane = LaneRecord { number: 1, kind: 0, direction: 0, points: points.to_vec(), ends: None };
    let section = SectionRecord { road: 0, index: 0, start, end, stations: stations.to_vec() };
    let place = PlaceRecord { lane: 1, road: 0, index: 0, od_id: -1 };
    bake(&Plan { lanes: vec![lane], sections: vec![section], places: vec![place], ..Plan::default() })
}

fn same_point(a: Triple, b: Point) -> bool {
    all32(&a, &b.to_array())
}

fn same_projection(a: ours::Projection, b: Projection) -> bool {
    same32(a.s, b.s) && same_point(a.point, b.point) && same32(a.offset, b.offset)
}

/// One kind of query: whether both sides agree, with what was asked and answered for a report.
type Ask = fn(&mut Rng, &Line) -> (bool, bool, String);

/// The kinds. Each gives: that both agree, that the answer has a NaN, and what was asked.
const KINDS: [(&str, Ask); 8] = [
    ("locate", |rng, line| {
        let s = arc(rng, &line.theirs.cumulative);
        let (a, (segment, t)) = (line.ours.locate(s), line.theirs.locate(s));
        (a.segment == segment && same32(a.t, t), t.is_nan(), shown(&[s]))
    }),
    ("point_at", |rng, line| {
        let s = arc(rng, &line.theirs.cumulative);
        let (a, b) = (line.ours.point_at(s), line.theirs.point_at(s));
        (same_point(a, b), b.x.is_nan(), shown(&[s]))
    }),
    ("pose_at", |rng, line| {
        let s = arc(rng, &line.theirs.cumulative);
        let (a, b) = (line.ours.pose_at(s), line.theirs.pose_at(s));
        (same_point(a.position, b.position) && all32(&a.heading, &b.heading.to_array()), b.position.x.is_nan(), shown(&[s]))
    }),
    ("project", |rng, line| {
        let p = draw::place(rng, &line.points);
        let (a, b) = (line.ours.project(p), line.theirs.project(Point::from_array(p)));
        (same_projection(a, b), b.s.is_nan() || b.offset.is_nan(), shown(&p))
    }),
    ("project_segments", |rng, line| {
        let p = draw::place(rng, &line.points);
        let (first, end) = (rng.below(line.points.len()), rng.below(line.points.len()));
        let a = line.ours.project_segments(p, first, end);
        let b = line.theirs.project_segments(Point::from_array(p), first..end);
        (same_projection(a, b), b.s.is_nan() || b.offset.is_nan(), format!("{} segments {first}..{end}", shown(&p)))
    }),
    ("along", |rng, line| {
        let s = draw::station(rng, &line.stations, line.section);
        let (a, b) = (line.ours.along(&line.stations, s), along(line.theirs.points(), &line.stations, s));
        (same32(a, b), b.is_nan(), format!("{:016X}", s.to_bits()))
    }),
    ("station_at", |rng, line| {
        let metres = arc(rng, &line.theirs.cumulative);
        let (a, b) = (line.ours.station_at(&line.stations, metres), station_at(line.theirs.points(), &line.stations, metres));
        (same64(a, b), b.is_nan(), shown(&[metres]))
    }),
    ("centerline_s", |rng, line| {
        let s = draw::station(rng, &line.stations, line.section);
        let a = line.ours.centerline_s(line.section, &line.stations, s);
        let b = line.network.centerline_s(LanePosition { lane: LaneId(1), s, offset: 0.0 });
        let same = match b {
            Some(along) => a.on && same32(a.s, along),
            None => !a.on && a.s.to_bits() == 0,
        };
        (same, b.is_some_and(f32::is_nan), format!("{:016X}", s.to_bits()))
    }),
];

fn shown(floats: &[f32]) -> String {
    floats.iter().map(|x| format!("{:08X}", x.to_bits())).collect::<Vec<_>>().join(" ")
}

/// How many queries of each kind a line is asked.
const ASKED: usize = 100;

#[derive(Default)]
struct Tally {
    queries: [usize; KINDS.len()],
    nans: [usize; KINDS.len()],
    differ: [usize; KINDS.len()],
    lines: usize,
    lines_differ: usize,
}

fn compare(rng: &mut Rng, line: &Line, tally: &mut Tally) {
    let show = |what: &str| {
        println!("{what} differs on the line {}", shown(&line.points.concat()));
        println!("  ends {}", line.ends.map_or("none".to_string(), |ends| shown(&ends.concat())));
        println!("  stations {:?} section {:?}", line.stations, line.section);
    };
    tally.lines += 1;
    if !line.tables_agree() {
        tally.lines_differ += 1;
        if tally.lines_differ < 4 {
            show("the table of arc lengths or of tangents");
        }
    }
    for (kind, (name, ask)) in KINDS.iter().enumerate() {
        for _ in 0..ASKED {
            let (same, nan, asked) = ask(rng, line);
            tally.queries[kind] += 1;
            tally.nans[kind] += usize::from(nan);
            if !same {
                tally.differ[kind] += 1;
                if tally.differ[kind] < 4 {
                    show(&format!("{name} of {asked}"));
                }
            }
        }
    }
}

fn main() {
    let args: Vec<u64> = std::env::args().skip(1).map(|a| a.parse().expect("a number")).collect();
    let count = args.first().copied().unwrap_or(1_000_000) as usize;
    let seed = args.get(1).copied().unwrap_or(2026);
    let mut tally = Tally::default();
    let mut rng = Rng::new(seed);
    let mut plan = 0;
    while tally.queries[0] < count {
        let points = draw::points(&mut rng);
        let ends = draw::ends(&mut rng);
        compare(&mut rng.fork(), &Line::new(&mut rng, points, ends), &mut tally);
        // one plan's lanes for every sixteen lines of our own
        if tally.lines % 16 == 0 {
            for (points, ends) in draw::lanes(seed, plan) {
                compare(&mut rng.fork(), &Line::new(&mut rng, points, ends), &mut tally);
            }
            plan += 1;
        }
    }
    println!("{} lines, seed {seed}", tally.lines);
    for (kind, (name, _)) in KINDS.iter().enumerate() {
        println!("{name}: {} queries, {} with a NaN, {} differ", tally.queries[kind], tally.nans[kind], tally.differ[kind]);
    }
    let differ = tally.differ.iter().sum::<usize>() + tally.lines_differ;
    println!("{} passed, {differ} failed", tally.queries.iter().sum::<usize>() + tally.lines - differ);
    std::process::exit(i32::from(differ != 0));
}
