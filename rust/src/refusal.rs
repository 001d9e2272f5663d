//! Why there is no answer.

use core::error::Error;
use core::fmt;

/// Why there is no answer: the first number that applies (docs/NUMBERS.md). [`advice`](Refusal::advice) says what to do.
#[derive(Debug, Clone, Copy, PartialEq, Eq, Hash)]
pub enum Refusal {
    /// 1: a table lent is shorter than its limit. A [`Plan`](crate::Plan) never gets this.
    ShortTable = 1,
    /// 2: the file is longer than 65,536 bytes.
    LongFile = 2,
    /// 3: a record has no whole header, or runs past the file's end.
    CutRecord = 3,
    /// 4: a record's kind is unknown, or its length does not fit its kind and counts.
    WrongRecord = 4,
    /// 5: a field is out of its range.
    OutOfRange = 5,
    /// 6: a record passes a limit.
    PastLimit = 6,
    /// 7: a lane, a section, a lane's place, or an OpenDRIVE number within a section stands twice.
    StandsTwice = 7,
    /// 8: a link's `from`, a place's lane or section is missing, or a placed lane has another number of points than its section has stations.
    Missing = 8,
    /// 9: a coordinate asked for is not finite.
    NotAPoint = 9,
    /// 10: no lane of the plan drives.
    NoneDrives = 10,
    /// 11: the goal does not lie ahead on the same lane, and no chain of successors and neighbours leads to it.
    NoWay = 11,
    /// 12: the lane is unknown or has no place, or s is not within its section.
    NotOnALane = 12,
    /// 13: the distance is not finite.
    NotADistance = 13,
    /// 14: more than 1,024 branch keys, or the answer is longer than a list lent for it ([`Room`](crate::Room)).
    TooMuch = 14,
    /// 15: no lane is on that side.
    NoneBeside = 15,
}

/// Each refusal in words, and what to do, by its number.
const ALL: [(Refusal, &str, &str); 15] = [
    (Refusal::ShortTable, "a table is shorter than its limit", "lend tables of the sizes of `lent::LIMITS`"),
    (Refusal::LongFile, "the file is longer than 65,536 bytes", "split the plan, or drop lanes that no query needs"),
    (
        Refusal::CutRecord,
        "a record has no whole header, or runs past the file's end",
        "the file was cut, or a length field is wrong: write it again",
    ),
    (
        Refusal::WrongRecord,
        "a record's kind is unknown, or its length does not fit its kind and counts",
        "check the kind, the point or station count, and whether the tangents stand where `ends` is 1",
    ),
    (
        Refusal::OutOfRange,
        "a field is out of its range",
        "coordinates lie from -4,096 to 4,096 metres; start, end and stations from 0 to 1,048,576, start at most end, stations strictly \
         rising; none is a NaN; there are two points or stations at least",
    ),
    (
        Refusal::PastLimit,
        "a record passes a limit of the plan",
        "a plan has at most 256 lanes, 4,096 points, 2,048 links, 64 sections, 4,096 stations and 256 places: leave some out",
    ),
    (
        Refusal::StandsTwice,
        "a lane, a section, a place or an OpenDRIVE number stands twice",
        "give each its own number",
    ),
    (
        Refusal::Missing,
        "a lane or a section is missing, or a lane's points and its section's stations differ in count",
        "add the record, or make the counts equal",
    ),
    (Refusal::NotAPoint, "a coordinate is not finite", "mend the query"),
    (Refusal::NoneDrives, "no lane of the plan drives", "give a lane the type driving (1)"),
    (Refusal::NoWay, "no chain of lanes leads to the goal", "the plan has no such way: look for a missing link"),
    (
        Refusal::NotOnALane,
        "the lane is unknown or has no place, or s is not within its section",
        "name a lane of the plan with a place, and an s of its section",
    ),
    (Refusal::NotADistance, "the distance is not finite", "mend the query"),
    (
        Refusal::TooMuch,
        "there are more than 1,024 branch keys, or the answer is longer than its lists",
        "ask for a shorter distance, or lend longer lists",
    ),
    (Refusal::NoneBeside, "no lane is on that side", "nothing: this is the answer"),
];

impl Refusal {
    /// The refusal with this number; none for 0, which is an answer, and past 15.
    pub fn from_number(number: usize) -> Option<Refusal> {
        Some(ALL.get(number.checked_sub(1)?)?.0)
    }

    /// Its number, 1 to 15.
    pub fn number(self) -> usize {
        self as usize
    }

    /// What is wrong, in words.
    pub fn words(self) -> &'static str {
        ALL[self.number() - 1].1
    }

    /// What to do, in words.
    pub fn advice(self) -> &'static str {
        ALL[self.number() - 1].2
    }
}

impl fmt::Display for Refusal {
    fn fmt(&self, f: &mut fmt::Formatter<'_>) -> fmt::Result {
        write!(f, "{} ({})", self.words(), self.number())
    }
}

impl Error for Refusal {}
