//! The plan file, read as documents 01 and 03 say: numbers 2 to 8.

/// A record's payload is preceded by its length (4 bytes) and its kind (2).
pub const HEADER: usize = 6;

pub const MOST_BYTES: usize = 65_536;
pub const MOST_LANES: usize = 256;
pub const MOST_POINTS: usize = 4_096;
pub const MOST_LINKS: usize = 2_048;
pub const MOST_SECTIONS: usize = 64;
pub const MOST_STATIONS: usize = 4_096;
pub const MOST_PLACES: usize = 256;

pub const LAST_TYPE: u8 = 27;
pub const LAST_DIRECTION: u8 = 2;
pub const LAST_ROLE: u8 = 2;
pub const LAST_SIDE: u8 = 1;
pub const FARTHEST: f32 = 4_096.0;
pub const LAST_STATION: f64 = 1_048_576.0;

#[derive(Debug, Clone, PartialEq)]
pub struct LaneRecord {
    pub number: u16,
    pub kind: u8,
    pub direction: u8,
    pub points: Vec<[f32; 3]>,
    /// Start and end tangent.
    pub ends: Option<[[f32; 3]; 2]>,
}

#[derive(Debug, Clone, PartialEq)]
pub struct LinkRecord {
    pub from: u16,
    pub role: u8,
    pub to: u16,
}

#[derive(Debug, Clone, PartialEq)]
pub struct SectionRecord {
    pub road: u16,
    pub index: u16,
    pub start: f64,
    pub end: f64,
    pub stations: Vec<f64>,
}

#[derive(Debug, Clone, PartialEq)]
pub struct PlaceRecord {
    pub lane: u16,
    pub road: u16,
    pub index: u16,
    pub od_id: i32,
}

/// A query, from a record or from the caller. Nearest and pose come from the caller only.
#[derive(Debug, Clone, Copy, PartialEq)]
pub enum Query {
    Route { from: [f32; 3], to: [f32; 3] },
    Advance { lane: usize, s: f64, offset: f64, distance: f64 },
    Beside { lane: usize, s: f64, side: u8 },
    Nearest { point: [f32; 3] },
    Pose { lane: usize, s: f32 },
}

/// The records of a file, each kind in file order.
#[derive(Debug, Clone, Default, PartialEq)]
pub struct Plan {
    pub lanes: Vec<LaneRecord>,
    pub links: Vec<LinkRecord>,
    pub sections: Vec<SectionRecord>,
    pub places: Vec<PlaceRecord>,
    pub queries: Vec<Query>,
}

/// The records of a file, or the first of the numbers 2 to 6 that applies.
pub fn scan(file: &[u8]) -> Result<Plan, u8> {
    if file.len() > MOST_BYTES {
        return Err(2);
    }
    let mut plan = Plan::default();
    let mut rest = file;
    while !rest.is_empty() {
        let (kind, payload, behind) = split_record(rest).ok_or(3)?;
        read_record(&mut plan, kind, payload)?;
        rest = behind;
    }
    Ok(plan)
}

/// Kind and payload of the first record, and the bytes behind it.
pub fn split_record(bytes: &[u8]) -> Option<(u16, &[u8], &[u8])> {
    let header = bytes.get(..HEADER)?;
    let length = u32::from_le_bytes([header[0], header[1], header[2], header[3]]);
    let kind = u16::from_le_bytes([header[4], header[5]]);
    let body = &bytes[HEADER..];
    let length = usize::try_from(length).ok().filter(|&n| n <= body.len())?;
    Some((kind, &body[..length], &body[length..]))
}

/// Number 4 for an unknown kind and for each length that does not fit, then 5, then 6.
fn read_record(plan: &mut Plan, kind: u16, payload: &[u8]) -> Result<(), u8> {
    match kind {
        1 => read_lane(plan, payload),
        2 => read_link(plan, payload),
        3 => read_section(plan, payload),
        4 => read_place(plan, payload),
        16 => read_route(plan, payload),
        17 => read_advance(plan, payload),
        18 => read_beside(plan, payload),
        _ => Err(4),
    }
}

fn read_lane(plan: &mut Plan, payload: &[u8]) -> Result<(), u8> {
    if payload.len() < 7 {
        return Err(4);
    }
    let mut fields = Fields(payload);
    let (number, kind, direction) = (fields.u16(), fields.u8(), fields.u8());
    let (ends, count) = (fields.u8(), usize::from(fields.u16()));
    let tangents = if ends == 0 { 0 } else { 24 };
    if payload.len() != 7 + 12 * count + tangents {
        return Err(4);
    }
    if kind > LAST_TYPE || direction > LAST_DIRECTION || ends > 1 || count < 2 {
        return Err(5);
    }
    let points: Vec<[f32; 3]> = (0..count).map(|_| fields.vector()).collect();
    if !points.iter().flatten().all(|c| (-FARTHEST..=FARTHEST).contains(c)) {
        return Err(5);
    }
    let ends = (ends == 1).then(|| [fields.vector(), fields.vector()]);
    let points_before: usize = plan.lanes.iter().map(|lane| lane.points.len()).sum();
    if plan.lanes.len() + 1 > MOST_LANES || points_before + count > MOST_POINTS {
        return Err(6);
    }
    plan.lanes.push(LaneRecord { number, kind, direction, points, ends });
    Ok(())
}

fn read_link(plan: &mut Plan, payload: &[u8]) -> Result<(), u8> {
    if payload.len() != 5 {
        return Err(4);
    }
    let mut fields = Fields(payload);
    let (from, role, to) = (fields.u16(), fields.u8(), fields.u16());
    if role > LAST_ROLE {
        return Err(5);
    }
    if plan.links.len() + 1 > MOST_LINKS {
        return Err(6);
    }
    plan.links.push(LinkRecord { from, role, to });
    Ok(())
}

fn read_section(plan: &mut Plan, payload: &[u8]) -> Result<(), u8> {
    if payload.len() < 22 {
        return Err(4);
    }
    let mut fields = Fields(payload);
    let (road, index) = (fields.u16(), fields.u16());
    let (start, end) = (fields.f64(), fields.f64());
    let count = usize::from(fields.u16());
    if payload.len() != 22 + 8 * count {
        return Err(4);
    }
    let stations: Vec<f64> = (0..count).map(|_| fields.f64()).collect();
    let on_road = |s: &f64| (0.0..=LAST_STATION).contains(s);
    let rising = stations.windows(2).all(|pair| pair[0] < pair[1]);
    if !on_road(&start) || !on_road(&end) || start > end || count < 2 {
        return Err(5);
    }
    if !stations.iter().all(on_road) || !rising {
        return Err(5);
    }
    let stations_before: usize = plan.sections.iter().map(|section| section.stations.len()).sum();
    if plan.sections.len() + 1 > MOST_SECTIONS || stations_before + count > MOST_STATIONS {
        return Err(6);
    }
    plan.sections.push(SectionRecord { road, index, start, end, stations });
    Ok(())
}

fn read_place(plan: &mut Plan, payload: &[u8]) -> Result<(), u8> {
    if payload.len() != 10 {
        return Err(4);
    }
    let mut fields = Fields(payload);
    let (lane, road, index) = (fields.u16(), fields.u16(), fields.u16());
    let od_id = fields.i32();
    if plan.places.len() + 1 > MOST_PLACES {
        return Err(6);
    }
    plan.places.push(PlaceRecord { lane, road, index, od_id });
    Ok(())
}

fn read_route(plan: &mut Plan, payload: &[u8]) -> Result<(), u8> {
    if payload.len() != 24 {
        return Err(4);
    }
    let mut fields = Fields(payload);
    let (from, to) = (fields.vector(), fields.vector());
    plan.queries.push(Query::Route { from, to });
    Ok(())
}

fn read_advance(plan: &mut Plan, payload: &[u8]) -> Result<(), u8> {
    if payload.len() != 26 {
        return Err(4);
    }
    let mut fields = Fields(payload);
    let lane = usize::from(fields.u16());
    let (s, offset, distance) = (fields.f64(), fields.f64(), fields.f64());
    plan.queries.push(Query::Advance { lane, s, offset, distance });
    Ok(())
}

fn read_beside(plan: &mut Plan, payload: &[u8]) -> Result<(), u8> {
    if payload.len() != 11 {
        return Err(4);
    }
    let mut fields = Fields(payload);
    let lane = usize::from(fields.u16());
    let (s, side) = (fields.f64(), fields.u8());
    if side > LAST_SIDE {
        return Err(5);
    }
    plan.queries.push(Query::Beside { lane, s, side });
    Ok(())
}

/// Number 7 if anything stands twice, then 8 if anything is missing or differs in count.
pub fn check(plan: &Plan) -> Result<(), u8> {
    let twice = stands_twice(plan.lanes.iter().map(|lane| lane.number))
        || stands_twice(plan.sections.iter().map(|section| (section.road, section.index)))
        || stands_twice(plan.places.iter().map(|place| place.lane))
        || stands_twice(plan.places.iter().map(|place| (place.road, place.index, place.od_id)));
    if twice {
        return Err(7);
    }
    let lane = |number: u16| plan.lanes.iter().find(|lane| lane.number == number);
    if !plan.links.iter().all(|link| lane(link.from).is_some()) {
        return Err(8);
    }
    let fits = |place: &PlaceRecord| {
        let section = plan.sections.iter().find(|s| s.road == place.road && s.index == place.index);
        match (lane(place.lane), section) {
            (Some(lane), Some(section)) => lane.points.len() == section.stations.len(),
            _ => false,
        }
    };
    if !plan.places.iter().all(fits) {
        return Err(8);
    }
    Ok(())
}

fn stands_twice<T: Ord>(things: impl Iterator<Item = T>) -> bool {
    let mut sorted: Vec<T> = things.collect();
    sorted.sort();
    sorted.windows(2).any(|pair| pair[0] == pair[1])
}

/// The fields of a payload, from the first on. The length was checked before.
struct Fields<'a>(&'a [u8]);

impl Fields<'_> {
    fn take<const N: usize>(&mut self) -> [u8; N] {
        let (head, rest) = self.0.split_first_chunk().expect("the length was checked");
        self.0 = rest;
        *head
    }

    fn u8(&mut self) -> u8 {
        self.take::<1>()[0]
    }

    fn u16(&mut self) -> u16 {
        u16::from_le_bytes(self.take())
    }

    fn i32(&mut self) -> i32 {
        i32::from_le_bytes(self.take())
    }

    fn f32(&mut self) -> f32 {
        f32::from_bits(u32::from_le_bytes(self.take()))
    }

    fn f64(&mut self) -> f64 {
        f64::from_bits(u64::from_le_bytes(self.take()))
    }

    fn vector(&mut self) -> [f32; 3] {
        [self.f32(), self.f32(), self.f32()]
    }
}
