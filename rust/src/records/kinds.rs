//! The numbers of the file format that stand for words: kinds of records, lane types, directions, roles and sides.

use crate::Side;
use core::fmt;

/// Writes an enum whose values are numbers of the file, each with its word.
macro_rules! numbered {
    ($(#[$doc:meta])* $name:ident: $number:ty { $($(#[$of:meta])* $value:ident = $code:literal $word:literal,)* }) => {
        $(#[$doc])*
        #[derive(Debug, Clone, Copy, PartialEq, Eq, Hash)]
        pub enum $name { $($(#[$of])* $value = $code,)* }

        impl $name {
            /// All of them, by their numbers.
            pub const ALL: &'static [$name] = &[$($name::$value),*];

            /// Its number in the file.
            pub fn number(self) -> $number {
                self as $number
            }

            /// The one with this number.
            pub fn from_number(number: $number) -> Option<$name> {
                match number { $($code => Some($name::$value),)* _ => None }
            }

            /// Its word.
            pub fn name(self) -> &'static str {
                match self { $($name::$value => $word,)* }
            }

            /// The one of this word, in small or capital letters.
            pub fn from_name(name: &str) -> Option<$name> {
                $name::ALL.iter().copied().find(|one| one.name().eq_ignore_ascii_case(name))
            }
        }

        impl fmt::Display for $name {
            fn fmt(&self, f: &mut fmt::Formatter<'_>) -> fmt::Result {
                f.pad(self.name())
            }
        }
    };
}

numbered! {
    /// What a record is.
    #[allow(missing_docs)]
    Kind: u16 {
        Lane = 1 "lane",
        Link = 2 "link",
        Section = 3 "section",
        Place = 4 "place",
        Route = 16 "route",
        Advance = 17 "advance",
        Beside = 18 "beside",
    }
}

numbered! {
    /// What a lane is for, by its OpenDRIVE name.
    LaneType: u8 {
        /// Surface inside the road without a function.
        None = 0 "none",
        /// An ordinary traffic lane: the one type that routes start and end on.
        Driving = 1 "driving",
        /// One lane for traffic both ways, such as a centre turn lane.
        Bidirectional = 2 "bidirectional",
        /// Reserved for buses.
        Bus = 3 "bus",
        /// Reserved for taxis.
        Taxi = 4 "taxi",
        /// Reserved for vehicles with several people.
        Hov = 5 "HOV",
        /// An acceleration lane that joins a road.
        Entry = 6 "entry",
        /// A deceleration lane that leaves a road.
        Exit = 7 "exit",
        /// A ramp onto a motorway.
        OnRamp = 8 "onRamp",
        /// A ramp off a motorway.
        OffRamp = 9 "offRamp",
        /// A ramp between two motorways.
        ConnectingRamp = 10 "connectingRamp",
        /// A short bypass at an intersection, mostly for turning traffic.
        SlipLane = 11 "slipLane",
        /// A lane to park in.
        Parking = 12 "parking",
        /// A hard shoulder for emergency stops.
        Stop = 13 "stop",
        /// A lane that traffic may not use, such as a painted area.
        Restricted = 14 "restricted",
        /// A cycle lane.
        Biking = 15 "biking",
        /// A footway.
        Sidewalk = 16 "sidewalk",
        /// A hard shoulder outside the running lanes.
        Shoulder = 17 "shoulder",
        /// The paved strip beside a running lane.
        Border = 18 "border",
        /// The kerb between carriageway and footway.
        Curb = 19 "curb",
        /// The strip between opposing carriageways.
        Median = 20 "median",
        /// A lane closed for works.
        RoadWorks = 21 "roadWorks",
        /// Tram track in the road surface.
        Tram = 22 "tram",
        /// Railway track.
        Rail = 23 "rail",
        /// Without a meaning of its own.
        Special1 = 24 "special1",
        /// Without a meaning of its own.
        Special2 = 25 "special2",
        /// Without a meaning of its own.
        Special3 = 26 "special3",
        /// A type that is not known.
        Unknown = 27 "unknown",
    }
}

impl LaneType {
    /// Whether routes start and end on it.
    pub fn drives(self) -> bool {
        self == LaneType::Driving
    }
}

numbered! {
    /// Which way traffic goes along a lane's points.
    Direction: u8 {
        /// From the first to the last.
        Forward = 0 "forward",
        /// From the last to the first.
        Backward = 1 "backward",
        /// Either way.
        Both = 2 "both",
    }
}

numbered! {
    /// What one lane is to another.
    Role: u8 {
        /// It comes after, in the way of the traffic.
        Successor = 0 "successor",
        /// It comes before.
        Predecessor = 1 "predecessor",
        /// One may change to it.
        Neighbour = 2 "neighbour",
    }
}

impl Side {
    /// The one with this number in the file.
    pub fn from_number(number: u8) -> Option<Side> {
        match number {
            0 => Some(Side::Left),
            1 => Some(Side::Right),
            _ => None,
        }
    }

    /// Its number in the file.
    pub fn number(self) -> u8 {
        self as u8
    }

    /// Its word.
    pub fn name(self) -> &'static str {
        match self {
            Side::Left => "left",
            Side::Right => "right",
        }
    }
}
