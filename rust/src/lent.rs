//! The five proved calls as they are, over memory that the caller lends: for any file, tables and lists, of any length. Safe, since a call is proved
//! to read and write only what it is lent, and to end. [`Plan`](crate::Plan) lends tables that are long enough.

use crate::{LaneId, LanePosition, Point, Pose, Projection};

/// The tables to work in, flat rows from the first entry on. On return they hold the plan, and entries past it are as before; after numbers 1 to 8
/// they are all as before.
pub struct Tables<'a> {
    /// Number, type, direction, ends, first point, points.
    pub lanes: &'a mut [usize],
    /// x, y, z.
    pub points: &'a mut [f32],
    /// Start and end tangent, zeros for a lane without.
    pub ends: &'a mut [f32],
    /// First link, successors, predecessors, neighbours, the place's row or 256.
    pub fans: &'a mut [usize],
    /// The number of the lane led to, its row or 256.
    pub links: &'a mut [usize],
    /// Road, index, first station, stations.
    pub sections: &'a mut [usize],
    /// Start, end.
    pub bounds: &'a mut [f64],
    /// The stations of each section.
    pub stations: &'a mut [f64],
    /// The lane's row, the section's row, OpenDRIVE lane number plus 2^31.
    pub places: &'a mut [usize],
    /// The arc length at each point.
    pub cumulative: &'a mut [f32],
    /// The tangent at each point, x, y, z.
    pub tangents: &'a mut [f32],
}

/// The limit of each table in entries, in their order. Under it a call answers number 1.
pub const LIMITS: [usize; 11] =
    [6 * 256, 3 * 4096, 6 * 256, 5 * 256, 2 * 2048, 4 * 64, 2 * 64, 4096, 3 * 256, 4096, 3 * 4096];

/// The answer of [`pose`]: zeros where the number is not 0, here and below.
#[repr(C)]
#[derive(Debug, Clone, Copy, PartialEq)]
pub struct Posed {
    /// 0, or why there is no answer.
    pub number: usize,
    /// The place and the heading.
    pub pose: Pose,
}

/// The answer of [`nearest_lane`].
#[repr(C)]
#[derive(Debug, Clone, Copy, PartialEq)]
pub struct NearestAnswer {
    /// 0, or why there is no answer.
    pub number: usize,
    /// The lane.
    pub lane: LaneId,
    /// The nearest place on it.
    pub projection: Projection,
}

/// The answer of [`route`], beside its lists.
#[repr(C)]
#[derive(Debug, Clone, Copy, PartialEq)]
pub struct RouteAnswer {
    /// 0, or why there is no answer.
    pub number: usize,
    /// How many lanes the chain has.
    pub lanes: usize,
    /// How many points the route has.
    pub points: usize,
    /// The cost of the chain, 0 for one lane.
    pub length: f32,
}

/// The answer of [`advance`], beside its lists.
#[repr(C)]
#[derive(Debug, Clone, Copy, PartialEq)]
pub struct Advanced {
    /// 0, or why there is no answer.
    pub number: usize,
    /// How many branch keys were entered.
    pub keys: usize,
    /// How many positions there are.
    pub positions: usize,
}

/// The answer of [`beside`].
#[repr(C)]
#[derive(Debug, Clone, Copy, PartialEq)]
pub struct BesideAnswer {
    /// 0, or why there is no answer.
    pub number: usize,
    /// The position beside.
    pub at: LanePosition,
}

/// Declares the calls: the file, the fields of a query, the eleven tables, the lists. A slice is a pointer and a length.
macro_rules! calls {
    ($($name:ident($($field:ty),*)[$($entry:ty),*] -> $answer:ty;)*) => {
        extern "C" {$(
            fn $name(
                file: *const u8, file_length: usize,
                $(_: $field,)*
                lanes: *mut usize, lanes_length: usize,
                points: *mut f32, points_length: usize,
                ends: *mut f32, ends_length: usize,
                fans: *mut usize, fans_length: usize,
                links: *mut usize, links_length: usize,
                sections: *mut usize, sections_length: usize,
                bounds: *mut f64, bounds_length: usize,
                stations: *mut f64, stations_length: usize,
                places: *mut usize, places_length: usize,
                cumulative: *mut f32, cumulative_length: usize,
                tangents: *mut f32, tangents_length: usize,
                $(_: *mut $entry, _: usize,)*
            ) -> $answer;
        )*}
    };
}

calls! {
    kartsodi_pose(LaneId, f32)[] -> Posed;
    kartsodi_nearest_lane(f32, f32, f32)[] -> NearestAnswer;
    kartsodi_route(f32, f32, f32, f32, f32, f32)[usize, f32] -> RouteAnswer;
    kartsodi_advance(LaneId, f64, f64, f64)[usize, f64] -> Advanced;
    kartsodi_beside(LaneId, f64, usize)[] -> BesideAnswer;
}

/// Calls one of them.
macro_rules! call {
    ($name:ident, $file:ident, ($($field:expr),*), $t:ident, [$($list:ident),*]) => {
        // SAFETY: each pointer and length are those of a slice that is borrowed for the whole call; the file is borrowed shared and all others
        // exclusively, so none overlap. The call keeps no pointer, and its contract has no condition. Where the stack is too short for it (342
        // kilobytes), it stops at the guard page: it touches its frame page by page.
        unsafe {
            $name(
                $file.as_ptr(), $file.len(),
                $($field,)*
                $t.lanes.as_mut_ptr(), $t.lanes.len(),
                $t.points.as_mut_ptr(), $t.points.len(),
                $t.ends.as_mut_ptr(), $t.ends.len(),
                $t.fans.as_mut_ptr(), $t.fans.len(),
                $t.links.as_mut_ptr(), $t.links.len(),
                $t.sections.as_mut_ptr(), $t.sections.len(),
                $t.bounds.as_mut_ptr(), $t.bounds.len(),
                $t.stations.as_mut_ptr(), $t.stations.len(),
                $t.places.as_mut_ptr(), $t.places.len(),
                $t.cumulative.as_mut_ptr(), $t.cumulative.len(),
                $t.tangents.as_mut_ptr(), $t.tangents.len(),
                $($list.as_mut_ptr(), $list.len(),)*
            )
        }
    };
}

/// The place and the heading on a lane at the arc length s. Numbers 1 to 8 and 12.
pub fn pose(file: &[u8], lane: LaneId, s: f32, t: Tables<'_>) -> Posed {
    call!(kartsodi_pose, file, (lane, s), t, [])
}

/// The driving lane nearest to a point. Numbers 1 to 10.
pub fn nearest_lane(file: &[u8], p: Point, t: Tables<'_>) -> NearestAnswer {
    call!(kartsodi_nearest_lane, file, (p.x, p.y, p.z), t, [])
}

/// The route from one point to another. `chain` gets the numbers of its lanes, `waypoints` x, y, z of its points. Numbers 1 to 11 and 14.
pub fn route(
    file: &[u8],
    from: Point,
    to: Point,
    t: Tables<'_>,
    chain: &mut [usize],
    waypoints: &mut [f32],
) -> RouteAnswer {
    call!(kartsodi_route, file, (from.x, from.y, from.z, to.x, to.y, to.z), t, [chain, waypoints])
}

/// Every place a distance on from a position. `rows` gets of each its case (0 reached, 1 dead end) and its lane, `metres` its s, its offset and the
/// metres short. Numbers 1 to 8 and 12 to 14.
pub fn advance(
    file: &[u8],
    from: LanePosition,
    distance: f64,
    t: Tables<'_>,
    rows: &mut [usize],
    metres: &mut [f64],
) -> Advanced {
    call!(kartsodi_advance, file, (from.lane, from.s, from.offset, distance), t, [rows, metres])
}

/// The place beside s on a lane, on its left (0) or its right (1). Numbers 1 to 8, 12 and 15; 5 for another side.
pub fn beside(file: &[u8], lane: LaneId, s: f64, side: usize, t: Tables<'_>) -> BesideAnswer {
    call!(kartsodi_beside, file, (lane, s, side), t, [])
}
