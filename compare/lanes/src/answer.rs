//! An answer as both sides have it, and the lists that an answer is written to.

use compare_common::{all32, all64};
use kartsodi_oracle::advance::Advance;
use kartsodi_oracle::answer::{self, Room};

/// The number, and the other fields in the order in which they stand: whole numbers, then floats. An f32 as an f64 is exact.
#[derive(Debug, Clone, Copy, Default)]
pub struct Answer {
    pub number: usize,
    pub wholes: [usize; 2],
    pub floats: [f64; 6],
}

impl Answer {
    pub fn refused(number: usize) -> Self {
        Answer { number, ..Answer::default() }
    }

    pub fn same(&self, other: &Answer) -> bool {
        self.number == other.number && self.wholes == other.wholes && all64(&self.floats, &other.floats)
    }
}

/// The lent lists: of a route its chain and its points, of an advance the cases with lanes and the metres.
#[derive(Clone)]
pub struct Lists {
    pub chain: Vec<usize>,
    pub points: Vec<f32>,
    pub rows: Vec<usize>,
    pub metres: Vec<f64>,
}

/// The lengths of lists with this room: a point has three entries, a position two in `rows` and three in `metres`.
pub const fn lengths(room: Room) -> [usize; 4] {
    [room.lanes, 3 * room.points, 2 * room.positions, 3 * room.positions]
}

/// What `plan-run` lends.
pub const ROOM: [usize; 4] = lengths(Room::PLAN_RUN);

/// The most that is lent: more than `plan-run` does, and all that an advance can fill, which enters 1,024 keys from two ways of the first lane.
pub const MOST: Room = Room { lanes: 300, points: 20_000, positions: 1_026 };

impl Lists {
    /// Lists of these lengths, full of one whole number and one float.
    pub fn full_of(room: [usize; 4], whole: usize, float: f32) -> Self {
        let [a, b, c, d] = room;
        Lists { chain: vec![whole; a], points: vec![float; b], rows: vec![whole; c], metres: vec![float.into(); d] }
    }

    pub fn room(&self) -> [usize; 4] {
        [self.chain.len(), self.points.len(), self.rows.len(), self.metres.len()]
    }

    pub fn same(&self, other: &Lists) -> Result<(), &'static str> {
        for (name, same) in [
            ("chain", self.chain == other.chain),
            ("points", all32(&self.points, &other.points)),
            ("rows", self.rows == other.rows),
            ("metres", all64(&self.metres, &other.metres)),
        ] {
            if !same {
                return Err(name);
            }
        }
        Ok(())
    }
}

/// How long the lists are that an answer fills.
pub fn filled(answer: &answer::Answer) -> [usize; 4] {
    match answer {
        answer::Answer::Route(Ok(r)) => lengths(Room { lanes: r.chain.len(), points: r.points.len(), positions: 0 }),
        answer::Answer::Advance(Ok(a)) => lengths(Room { lanes: 0, points: 0, positions: a.positions.len() }),
        _ => [0; 4],
    }
}

/// The oracle's answer with these lists: what it says, which was asked with as much room or more, and the lists after it. A list that is too short
/// makes 14.
pub fn expected(said: &answer::Answer, lists: &mut Lists) -> Answer {
    if filled(said).iter().zip(lists.room()).any(|(need, room)| *need > room) {
        return Answer::refused(14);
    }
    let mut out = Answer::default();
    match said {
        answer::Answer::Pose(Ok(pose)) => {
            let ([x, y, z], [a, b, c]) = (pose.position.to_array(), pose.heading.to_array());
            out.floats = [x, y, z, a, b, c].map(f64::from);
        }
        answer::Answer::Nearest(Ok((lane, at))) => {
            let [x, y, z] = at.point.to_array();
            out.wholes[0] = lane.0;
            out.floats = [at.s, x, y, z, at.offset, 0.0].map(f64::from);
        }
        answer::Answer::Route(Ok(route)) => {
            out.wholes = [route.chain.len(), route.points.len()];
            out.floats[0] = route.length.into();
            for (entry, lane) in lists.chain.iter_mut().zip(&route.chain) {
                *entry = lane.0;
            }
            for (entry, c) in lists.points.iter_mut().zip(route.points.iter().flat_map(|p| p.to_array())) {
                *entry = c;
            }
        }
        answer::Answer::Advance(Ok(advanced)) => {
            out.wholes = [advanced.keys, advanced.positions.len()];
            for (k, end) in advanced.positions.iter().enumerate() {
                let (case, at, short) = match *end {
                    Advance::Reached(at) => (0, at, 0.0),
                    Advance::DeadEnd { at, short } => (1, at, short),
                };
                lists.rows[2 * k..2 * k + 2].copy_from_slice(&[case, at.lane.0]);
                lists.metres[3 * k..3 * k + 3].copy_from_slice(&[at.s, at.offset, short]);
            }
        }
        answer::Answer::Beside(Ok(at)) => {
            out.wholes[0] = at.lane.0;
            out.floats[..2].copy_from_slice(&[at.s, at.offset]);
        }
        answer::Answer::Pose(Err(n)) | answer::Answer::Beside(Err(n)) => out.number = (*n).into(),
        answer::Answer::Nearest(Err(n)) => out.number = (*n).into(),
        answer::Answer::Route(Err(n)) => out.number = (*n).into(),
        answer::Answer::Advance(Err(n)) => out.number = (*n).into(),
    }
    out
}
