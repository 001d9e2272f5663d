//! Plan files from records.

use crate::reader::{LaneRecord, LinkRecord, PlaceRecord, Plan, Query, SectionRecord, HEADER};

/// A file as the list of its records, each with its header.
#[derive(Debug, Clone, Default, PartialEq)]
pub struct Records(pub Vec<Vec<u8>>);

impl Records {
    pub fn bytes(&self) -> Vec<u8> {
        self.0.concat()
    }

    pub fn push(&mut self, kind: u16, payload: &[u8]) {
        self.0.push(record(kind, payload));
    }

    pub fn lane(&mut self, lane: &LaneRecord) {
        self.push(1, &lane_payload(lane));
    }

    pub fn link(&mut self, link: &LinkRecord) {
        self.push(2, &link_payload(link));
    }

    pub fn section(&mut self, section: &SectionRecord) {
        self.push(3, &section_payload(section));
    }

    pub fn place(&mut self, place: &PlaceRecord) {
        self.push(4, &place_payload(place));
    }

    /// A query's record; nothing for those that come from the caller only.
    pub fn query(&mut self, query: &Query) {
        if let Some((kind, payload)) = query_payload(query) {
            self.push(kind, &payload);
        }
    }
}

impl From<&Plan> for Records {
    /// Lanes, links, sections, places, queries.
    fn from(plan: &Plan) -> Self {
        let mut records = Self::default();
        plan.lanes.iter().for_each(|lane| records.lane(lane));
        plan.links.iter().for_each(|link| records.link(link));
        plan.sections.iter().for_each(|section| records.section(section));
        plan.places.iter().for_each(|place| records.place(place));
        plan.queries.iter().for_each(|query| records.query(query));
        records
    }
}

pub fn record(kind: u16, payload: &[u8]) -> Vec<u8> {
    let length = u32::try_from(payload.len()).expect("a payload of the generator is short");
    [&length.to_le_bytes()[..], &kind.to_le_bytes(), payload].concat()
}

/// The kind in a record's header.
pub fn kind_of(record: &[u8]) -> u16 {
    u16::from_le_bytes([record[HEADER - 2], record[HEADER - 1]])
}

pub fn lane_payload(lane: &LaneRecord) -> Vec<u8> {
    let mut payload = lane.number.to_le_bytes().to_vec();
    payload.extend([lane.kind, lane.direction, u8::from(lane.ends.is_some())]);
    payload.extend((lane.points.len() as u16).to_le_bytes());
    let floats = lane.points.iter().chain(lane.ends.iter().flatten()).flatten();
    payload.extend(floats.flat_map(|c| c.to_bits().to_le_bytes()));
    payload
}

pub fn link_payload(link: &LinkRecord) -> Vec<u8> {
    let mut payload = link.from.to_le_bytes().to_vec();
    payload.push(link.role);
    payload.extend(link.to.to_le_bytes());
    payload
}

pub fn section_payload(section: &SectionRecord) -> Vec<u8> {
    let mut payload = [section.road, section.index].map(u16::to_le_bytes).concat();
    payload.extend([section.start, section.end].map(|s| s.to_bits().to_le_bytes()).concat());
    payload.extend((section.stations.len() as u16).to_le_bytes());
    payload.extend(section.stations.iter().flat_map(|s| s.to_bits().to_le_bytes()));
    payload
}

pub fn place_payload(place: &PlaceRecord) -> Vec<u8> {
    let mut payload = [place.lane, place.road, place.index].map(u16::to_le_bytes).concat();
    payload.extend(place.od_id.to_le_bytes());
    payload
}

/// Kind and payload of a query that a file can hold.
pub fn query_payload(query: &Query) -> Option<(u16, Vec<u8>)> {
    let doubles = |numbers: &[f64]| -> Vec<u8> { numbers.iter().flat_map(|x| x.to_bits().to_le_bytes()).collect() };
    match *query {
        Query::Route { from, to } => {
            let floats = from.iter().chain(&to).flat_map(|c| c.to_bits().to_le_bytes());
            Some((16, floats.collect()))
        }
        Query::Advance { lane, s, offset, distance } => {
            let lane = (lane as u16).to_le_bytes().to_vec();
            Some((17, [lane, doubles(&[s, offset, distance])].concat()))
        }
        Query::Beside { lane, s, side } => {
            let lane = (lane as u16).to_le_bytes().to_vec();
            Some((18, [lane, doubles(&[s]), vec![side]].concat()))
        }
        Query::Nearest { .. } | Query::Pose { .. } => None,
    }
}
