//! What looks like a mistake in the drawing of an accepted plan. The library answers such a plan all the same.

use crate::geometry::{distance, distance_to_line, length_of_line};
use crate::input::Spot;
use crate::paper::{Answered, Paper, Snap, OFF_LANE};
use crate::ties;
use crate::words::{self, metres, nearer_words};
use kartsodi::records::{Direction, Found, Lane, Link, Place, Reader, Record, Role, Section};
use kartsodi::{LaneId, Point};
use std::collections::HashMap;

/// Something to look at again.
#[derive(Debug, PartialEq)]
pub struct Warning {
    /// The record; none where it is the whole plan.
    pub spot: Option<Spot>,
    pub words: String,
}

/// Lanes that lead on to each other should meet within so many metres.
const GAP: f64 = 0.5;
/// Neighbours should lie no farther apart.
const ASIDE: f64 = 8.0;
/// A plan that is smaller than this is no junction in metres.
const SMALL: f64 = 5.0;
/// Stations may differ from a lane's metres by so many metres; in a bend, where outer lanes are longer than the road, also by a quarter.
const UNLIKE: f64 = 1.0;
/// Along a straight lane, by so much of its length.
const UNLIKE_STRAIGHT: f64 = 0.02;

/// The warnings of a plan: those of the whole plan first, then record by record.
pub fn of(paper: &Paper) -> Vec<Warning> {
    let found: Vec<Found> = Reader::new(&paper.file).map_while(Result::ok).collect();
    let drawing = Drawing::new(&found);
    let whole = drawing.whole().into_iter().map(|words| Warning { spot: None, words });
    let mut answers = paper.answers.iter();
    let each = found.iter().flat_map(|next| {
        let spot = Some(Spot { index: next.index, offset: next.offset });
        let words = match &next.record {
            Record::Lane(lane) => drawing.lane(lane),
            Record::Link(link) => drawing.link(next.index, link),
            Record::Section(section) => drawing.section(section),
            Record::Place(place) => drawing.place(place),
            Record::Route(_) | Record::Advance(_) | Record::Beside(_) => {
                answers.next().map_or(vec![], |answered| question(paper, answered))
            }
        };
        words.into_iter().map(move |words| Warning { spot, words })
    });
    whole.chain(each).collect()
}

/// What is odd about a question with its answer.
fn question(paper: &Paper, answered: &Answered) -> Vec<String> {
    let Answered::Route { from, to, answer, .. } = answered else { return vec![] };
    let ends = [("start", from), ("goal", to)].into_iter();
    let off = ends.filter_map(|(end, taken)| snap(end, taken.as_ref()?));
    let tie = answer.as_ref().ok().and_then(|route| ties::other_chain(&paper.records, route));
    off.chain(tie.map(|other| words::tie(&other))).collect()
}

/// A point of a route that does not lie on the lane that it is taken to.
fn snap(end: &str, snap: &Snap) -> Option<String> {
    let taken = format!("the {end} is taken to lane {}, which is {} m away", snap.nearest.lane.0, metres(snap.metres));
    let nearer = snap.nearer.map(|(lane, kind, off)| nearer_words(lane, kind, off));
    let why: Vec<String> = nearer.into_iter().chain(words::level_words(snap)).collect();
    (snap.metres > OFF_LANE || !why.is_empty()).then(|| [vec![taken], why].concat().join("; "))
}

/// A plan's records by what they are about.
struct Drawing<'a> {
    lanes: HashMap<LaneId, &'a Lane>,
    places: HashMap<LaneId, &'a Place>,
    sections: HashMap<(u16, u16), &'a Section>,
    /// Each link, with the first record that has it.
    links: HashMap<(LaneId, Role, LaneId), usize>,
}

impl<'a> Drawing<'a> {
    fn new(found: &'a [Found]) -> Self {
        let (mut lanes, mut places) = (HashMap::new(), HashMap::new());
        let (mut sections, mut links) = (HashMap::new(), HashMap::new());
        for next in found {
            match &next.record {
                Record::Lane(it) => drop(lanes.insert(it.lane, it)),
                Record::Place(it) => drop(places.insert(it.lane, it)),
                Record::Section(it) => drop(sections.insert((it.road, it.index), it)),
                Record::Link(it) => drop(links.entry((it.from, it.role, it.to)).or_insert(next.index)),
                Record::Route(_) | Record::Advance(_) | Record::Beside(_) => {}
            }
        }
        Drawing { lanes, places, sections, links }
    }

    /// What concerns the plan as a whole.
    fn whole(&self) -> Vec<String> {
        let points: Vec<Point> = self.lanes.values().flat_map(|lane| lane.points.iter().copied()).collect();
        let extent = |axis: fn(&Point) -> f32| {
            let least = points.iter().map(axis).fold(f32::INFINITY, f32::min);
            f64::from(points.iter().map(axis).fold(f32::NEG_INFINITY, f32::max)) - f64::from(least)
        };
        let size = extent(|p| p.x).max(extent(|p| p.y));
        let mut words = Vec::new();
        if points.is_empty() {
            words.push("the plan has no lanes".into());
        } else if size < SMALL {
            words.push(format!("the whole plan is {} m wide: are its points in kilometres?", metres(size)));
        }
        if !points.is_empty() && !self.lanes.values().any(|lane| lane.kind.drives()) {
            words.push("no lane is of the type driving (1): every route is refused".into());
        }
        if self.unmirrored() {
            let links = match self.links.keys().filter(|link| link.1 == Role::Successor).count() {
                1 => "the only successor link has not".into(),
                count => format!("none of the {count} successor links has"),
            };
            words.push(format!(
                "{links} its mirror, a predecessor link: an advance by a distance below 0 ends where its lane begins"
            ));
        }
        words
    }

    /// Whether successors are linked and predecessors are not: then it is said once and not of each link.
    fn unmirrored(&self) -> bool {
        let has = |role| self.links.keys().any(|link| link.1 == role);
        has(Role::Successor) && !has(Role::Predecessor)
    }

    fn lane(&self, lane: &Lane) -> Vec<String> {
        let number = lane.lane.0;
        let mut words = Vec::new();
        if length_of_line(&lane.points) == 0.0 {
            words.push(format!("lane {number} has no length: all its points are one"));
        }
        if !self.places.is_empty() && !self.places.contains_key(&lane.lane) && lane.kind.drives() {
            words.push(format!("lane {number} has no place: no position of an advance is on it"));
        }
        words
    }

    fn link(&self, index: usize, link: &Link) -> Vec<String> {
        let (from, to) = (link.from, link.to);
        let mut words = Vec::new();
        if self.links.get(&(from, link.role, to)).is_some_and(|first| *first != index) {
            words.push("the same link stands before".into());
        }
        let (Some(one), Some(other)) = (self.lanes.get(&from), self.lanes.get(&to)) else {
            words.push(format!("lane {} is not in the plan, so that the link leads nowhere", to.0));
            return words;
        };
        words.extend(match link.role {
            Role::Successor => gap(one, other),
            Role::Predecessor => gap(other, one),
            Role::Neighbour => self.aside(one, other),
        });
        words.extend(self.mirror(link));
        words
    }

    /// Links are one way each: what the library does not find by them has to stand in a link of its own.
    fn mirror(&self, link: &Link) -> Option<String> {
        let (role, lost) = match link.role {
            Role::Successor if self.unmirrored() => return None,
            Role::Successor => (Role::Predecessor, "an advance by a distance below 0 does not go back over it"),
            Role::Predecessor => (Role::Successor, "no route and no advance goes on over it"),
            Role::Neighbour => (Role::Neighbour, "no route changes back"),
        };
        let (from, to) = (link.from, link.to);
        let missing = !self.links.contains_key(&(to, role, from));
        missing.then(|| format!("there is no `link {} {role} {}`: {lost}", to.0, from.0))
    }

    /// Neighbours that no traffic changes between.
    fn aside(&self, one: &Lane, other: &Lane) -> Option<String> {
        let (a, b) = (one.lane, other.lane);
        let off = distance_to_line(&other.points, middle(&one.points));
        if off > ASIDE {
            return Some(format!("lanes {} and {} are neighbours and {} m apart", a.0, b.0, metres(off)));
        }
        let section = |lane| self.places.get(&lane).map(|place| (place.road, place.index));
        let as_placed = section(a).is_some() && section(a) == section(b) && one.direction != other.direction;
        let as_drawn = || way(one).iter().zip(way(other)).map(|(a, b)| a * b).sum::<f64>() < 0.0;
        let opposed = as_placed || as_drawn();
        opposed.then(|| format!("lanes {} and {} are neighbours, and traffic on them goes different ways", a.0, b.0))
    }

    fn section(&self, section: &Section) -> Vec<String> {
        let Section { road, index, start, end, stations } = section;
        let name = format!("section {index} of road {road}");
        let mut words = Vec::new();
        if !self.places.values().any(|place| (place.road, place.index) == (*road, *index)) {
            words.push(format!("no lane has a place in {name}"));
        }
        if let [first, .., last] = stations[..] {
            if (start - first).abs() > GAP || (end - last).abs() > GAP {
                let (start, end, first, last) = (metres(*start), metres(*end), metres(first), metres(last));
                words.push(format!("{name} goes from {start} to {end}, and its stations from {first} to {last}"));
            }
        }
        words
    }

    fn place(&self, place: &Place) -> Vec<String> {
        let key = (place.road, place.index);
        let (Some(lane), Some(section)) = (self.lanes.get(&place.lane), self.sections.get(&key)) else {
            return vec![];
        };
        let mut words = Vec::from_iter(unlike(lane, section));
        // Each two lanes of a section are looked at once, at the place of the one that stands to the right.
        let beside =
            self.places.values().filter(|other| (other.road, other.index) == key && other.number > place.number);
        let left =
            beside.min_by_key(|other| other.number).and_then(|other| Some((other, self.lanes.get(&other.lane)?)));
        words.extend(left.and_then(|(other, left)| order(left, other.number, lane, place.number)));
        words
    }
}

/// The points that traffic leaves a lane by.
fn exits(lane: &Lane) -> Vec<Point> {
    ends(lane, lane.direction != Direction::Backward, lane.direction != Direction::Forward)
}

/// The points that traffic comes onto a lane by.
fn entries(lane: &Lane) -> Vec<Point> {
    ends(lane, lane.direction != Direction::Forward, lane.direction != Direction::Backward)
}

fn ends(lane: &Lane, last: bool, first: bool) -> Vec<Point> {
    let last = lane.points.last().filter(|_| last);
    last.into_iter().chain(lane.points.first().filter(|_| first)).copied().collect()
}

/// The way of a lane's traffic from its one end to its other; no way where it goes both ways.
fn way(lane: &Lane) -> [f64; 3] {
    let [Some(from), Some(to)] = [lane.points.first(), lane.points.last()] else { return [0.0; 3] };
    let sign = match lane.direction {
        Direction::Forward => 1.0,
        Direction::Backward => -1.0,
        Direction::Both => 0.0,
    };
    [(from.x, to.x), (from.y, to.y), (from.z, to.z)].map(|(a, b)| sign * (f64::from(b) - f64::from(a)))
}

/// A lane that does not begin where the one before it ends.
fn gap(before: &Lane, after: &Lane) -> Option<String> {
    let least = |from: &[Point], to: &[Point]| {
        let pairs = from.iter().flat_map(|a| to.iter().map(|b| distance(*a, *b)));
        pairs.fold(f64::INFINITY, f64::min)
    };
    let gap = least(&exits(before), &entries(after));
    let (a, b) = (before.lane.0, after.lane.0);
    let other = a != b && least(&ends(before, true, true), &ends(after, true, true)) <= GAP;
    let meant =
        if other { "; other ends of them meet: is a lane's direction or the order of its points wrong?" } else { "" };
    (gap > GAP).then(|| format!("lane {a} ends {} m from where lane {b} begins{meant}", metres(gap)))
}

/// Half way along a line.
fn middle(line: &[Point]) -> Point {
    let half = length_of_line(line) / 2.0;
    let mut before = 0.0;
    for ends in line.windows(2) {
        let (a, b) = (ends[0], ends[1]);
        let step = distance(a, b);
        if before + step >= half && step > 0.0 {
            let f = ((half - before) / step) as f32;
            return Point { x: a.x + f * (b.x - a.x), y: a.y + f * (b.y - a.y), z: a.z + f * (b.z - a.z) };
        }
        before += step;
    }
    line[0]
}

/// Stations that do not go along the lane by its metres.
fn unlike(lane: &Lane, section: &Section) -> Option<String> {
    let (points, stations) = (&lane.points, &section.stations);
    let last = points.len().min(stations.len()).checked_sub(1)?;
    let straight = distance(points[0], points[last]) > 0.999 * length_of_line(points);
    let most = if straight { UNLIKE_STRAIGHT } else { 0.25 };
    let pieces = (0..last).map(|i| (i, i + 1));
    let (i, j, along, by) = std::iter::once((0, last)).chain(pieces).find_map(|(i, j)| {
        let (along, by) = (length_of_line(&points[i..=j]), stations[j] - stations[i]);
        let off = (along - by).abs();
        (off > UNLIKE && off > most * along.max(by)).then_some((i, j, along, by))
    })?;
    let part = if (i, j) == (0, last) { String::new() } else { format!(" from point {} to point {}", i + 1, j + 1) };
    let thousand = if (999.0..=1001.0).contains(&(by / along)) { ": are its points in kilometres?" } else { "" };
    Some(format!(
        "lane {} is {} m long{part}, and the stations of its section go {} m on{thousand}",
        lane.lane.0,
        metres(along),
        metres(by)
    ))
}

/// Two lanes next to each other in a section, of which the left one has the larger number: whether they are drawn so.
fn order(left: &Lane, larger: i32, right: &Lane, smaller: i32) -> Option<String> {
    let (a, b) = (left.lane.0, right.lane.0);
    let (&first, &last) = (right.points.first()?, right.points.last()?);
    let begins = *left.points.first()?;
    if distance(first, begins) > distance(last, begins) + GAP
        && distance(first, *left.points.last()?) < distance(first, begins)
    {
        return Some(format!(
            "the points of lanes {a} and {b} of one section run against each other: \
             all run along the stations, and traffic against them is `backward`"
        ));
    }
    let at = middle(&left.points);
    let side = side_of(&right.points, at)?;
    (side < -GAP).then(|| {
        format!("lane {a} (number {larger}) is drawn to the right of lane {b} (number {smaller}), and numbers fall from left to right")
    })
}

/// How far a point lies to the left of a line, seen from above, by the line's nearest piece.
fn side_of(line: &[Point], p: Point) -> Option<f64> {
    let off = |ends: &&[Point]| distance_to_line(ends, p);
    let piece = line.windows(2).min_by(|a, b| off(a).total_cmp(&off(b)))?;
    let wide = |q: Point| (f64::from(q.x), f64::from(q.y));
    let ((ax, ay), (bx, by), (px, py)) = (wide(piece[0]), wide(piece[1]), wide(p));
    let (dx, dy) = (bx - ax, by - ay);
    let length = (dx * dx + dy * dy).sqrt();
    (length > 0.0).then(|| (dx * (py - ay) - dy * (px - ax)) / length)
}
