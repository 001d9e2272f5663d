//! Which record a plan is refused for. This is a reading of the file format of its own; whether a plan is refused, and with which number, the library
//! decides, and where this reading comes to another number, nothing of it is said.

use crate::input::{Input, Spot};
use crate::words::counted;
use kartsodi::records::{Found, Lane, Reader, Record, Section};
use kartsodi::{LaneId, Refusal};
use std::collections::HashMap;

/// The first fault of a file, by the order of the numbers.
#[derive(Debug, PartialEq)]
pub struct Fault {
    pub refusal: Refusal,
    /// The record that has it; none where it is the whole file's.
    pub spot: Option<Spot>,
    /// What is wrong with the record.
    pub what: String,
    /// The record that it does not go with.
    pub other: Option<Spot>,
}

impl Fault {
    fn new(refusal: Refusal, spot: Spot, what: impl Into<String>) -> Fault {
        Fault { refusal, spot: Some(spot), what: what.into(), other: None }
    }

    fn with(mut self, other: Spot) -> Fault {
        self.other = Some(other);
        self
    }
}

/// What is said of a plan that the library refuses.
pub fn told(input: &Input, refusal: Refusal) -> Vec<String> {
    let name = &input.name;
    let mut lines = vec![format!("{name} is refused with number {}: {}", refusal.number(), refusal.words())];
    if let Some(fault) = find(&input.file).filter(|fault| fault.refusal == refusal) {
        let place = fault.spot.map_or(String::new(), |spot| format!(", {}", input.place(spot)));
        let other = fault.other.map_or(String::new(), |spot| format!(": see {}", input.place(spot)));
        lines.push(format!("{name}{place}: {}{other}", fault.what));
    }
    let advice = if input.looks_like_text() {
        "it has no zero byte, which every plan has: if it is a text, --text takes it as one"
    } else {
        refusal.advice()
    };
    lines.push(format!("what to do: {advice}"));
    lines
}

/// The first fault of a file; none where it is a plan.
pub fn find(file: &[u8]) -> Option<Fault> {
    if file.len() > 65536 {
        let what = format!("it has {} bytes", file.len());
        return Some(Fault { refusal: Refusal::LongFile, spot: None, what, other: None });
    }
    let (mut found, mut limits) = (Vec::new(), Limits::default());
    for record in Reader::new(file) {
        match record {
            Err(error) => {
                let spot = Spot { index: error.index, offset: error.offset };
                return Some(Fault::new(error.refusal(), spot, error.fault.to_string()));
            }
            Ok(next) => {
                let (spot, record) = (spot(&next), &next.record);
                let out = range(record).map(|what| Fault::new(Refusal::OutOfRange, spot, what));
                let past = || limits.count(record).map(|what| Fault::new(Refusal::PastLimit, spot, what));
                if let Some(fault) = out.or_else(past) {
                    return Some(fault);
                }
                found.push(next);
            }
        }
    }
    twice(&found).or_else(|| missing(&found))
}

fn spot(found: &Found) -> Spot {
    Spot { index: found.index, offset: found.offset }
}

/// What field of a record is out of its range. Those that stand for words are in range, since they were read.
fn range(record: &Record) -> Option<String> {
    match record {
        Record::Lane(lane) => lane_range(lane),
        Record::Section(section) => section_range(section),
        _ => None,
    }
}

fn lane_range(lane: &Lane) -> Option<String> {
    let number = lane.lane.0;
    if lane.points.len() < 2 {
        return Some(format!("lane {number} has {}, and needs two at least", counted(lane.points.len(), "point")));
    }
    lane.points.iter().enumerate().find_map(|(i, p)| {
        let axes = [("x", p.x), ("y", p.y), ("z", p.z)];
        let (axis, value) = axes.into_iter().find(|(_, value)| !(-4096.0..=4096.0).contains(value))?;
        Some(format!("{axis} of point {} of lane {number} is {value:?}, and lies from -4096 to 4096 metres", i + 1))
    })
}

fn section_range(section: &Section) -> Option<String> {
    let Section { road, index, start, end, stations } = section;
    let name = format!("section {index} of road {road}");
    if stations.len() < 2 {
        return Some(format!("{name} has {}, and needs two at least", counted(stations.len(), "station")));
    }
    let named = [("start".to_string(), *start), ("end".to_string(), *end)].into_iter();
    let numbered = stations.iter().enumerate().map(|(i, s)| (format!("station {}", i + 1), *s));
    let out = named.chain(numbered).find(|(_, s)| !(0.0..=1_048_576.0).contains(s));
    let out = out.map(|(field, s)| format!("{field} of {name} is {s:?}, and lies from 0 to 1048576 metres"));
    let turned = (start > end).then(|| format!("{name} starts at {start:?}, behind its end at {end:?}"));
    let fall = stations.windows(2).position(|pair| pair[0] >= pair[1]);
    let fall = fall.map(|i| {
        format!("station {} of {name} is {:?} after {:?}, and stations rise", i + 2, stations[i + 1], stations[i])
    });
    out.or(turned).or(fall)
}

/// How much the records up to here have.
#[derive(Default)]
struct Limits(HashMap<&'static str, usize>);

impl Limits {
    /// Counts a record, and says which limit it passes.
    fn count(&mut self, record: &Record) -> Option<String> {
        let parts: &[(&str, usize, usize)] = match record {
            Record::Lane(lane) => &[("lanes", 1, 256), ("points", lane.points.len(), 4096)],
            Record::Link(_) => &[("links", 1, 2048)],
            Record::Section(section) => &[("sections", 1, 64), ("stations", section.stations.len(), 4096)],
            Record::Place(_) => &[("places", 1, 256)],
            Record::Route(_) | Record::Advance(_) | Record::Beside(_) => &[],
        };
        parts.iter().find_map(|(what, more, most)| {
            let count = self.0.entry(what).or_default();
            *count += more;
            (*count > *most)
                .then(|| format!("with this {} the plan has {count} {what}, and may have {most}", record.kind()))
        })
    }
}

/// What may stand only once in a plan.
#[derive(PartialEq, Eq, Hash)]
enum Key {
    Lane(LaneId),
    Section(u16, u16),
    PlaceOf(LaneId),
    Number(u16, u16, i32),
}

/// The first record that something stands in for the second time.
fn twice(found: &[Found]) -> Option<Fault> {
    let mut seen = HashMap::new();
    found.iter().find_map(|next| {
        let keys = match &next.record {
            Record::Lane(it) => vec![(Key::Lane(it.lane), format!("there is a lane {} already", it.lane.0))],
            Record::Section(it) => {
                let what = format!("there is a section {} of road {} already", it.index, it.road);
                vec![(Key::Section(it.road, it.index), what)]
            }
            Record::Place(it) => {
                let number = format!(
                    "section {} of road {} has a lane with the number {} already",
                    it.index, it.road, it.number
                );
                let place = format!("lane {} has a place already", it.lane.0);
                vec![(Key::PlaceOf(it.lane), place), (Key::Number(it.road, it.index, it.number), number)]
            }
            _ => vec![],
        };
        keys.into_iter().find_map(|(key, what)| {
            let first = *seen.entry(key).or_insert(spot(next));
            (first != spot(next)).then(|| Fault::new(Refusal::StandsTwice, spot(next), what).with(first))
        })
    })
}

/// The first record that names a lane or a section that is missing, or a lane with another count of points than its section has stations.
fn missing(found: &[Found]) -> Option<Fault> {
    let mut lanes = HashMap::new();
    let mut sections = HashMap::new();
    for next in found {
        match &next.record {
            Record::Lane(it) => drop(lanes.insert(it.lane, it.points.len())),
            Record::Section(it) => drop(sections.insert((it.road, it.index), (it.stations.len(), spot(next)))),
            _ => {}
        }
    }
    found.iter().find_map(|next| {
        let fault = |what: String| Fault::new(Refusal::Missing, spot(next), what);
        match &next.record {
            Record::Link(it) if !lanes.contains_key(&it.from) => {
                Some(fault(format!("it is a link from lane {}, which is not in the plan", it.from.0)))
            }
            Record::Place(it) => {
                let Some(points) = lanes.get(&it.lane) else {
                    return Some(fault(format!("it places lane {}, which is not in the plan", it.lane.0)));
                };
                let Some((stations, section)) = sections.get(&(it.road, it.index)) else {
                    return Some(fault(format!("section {} of road {} is not in the plan", it.index, it.road)));
                };
                let what = || format!("lane {} has {points} points, and its section {stations} stations", it.lane.0);
                (points != stations).then(|| fault(what()).with(*section))
            }
            _ => None,
        }
    })
}
