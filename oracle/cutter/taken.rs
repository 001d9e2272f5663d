//! What is taken out of the source, and every change made to it.

use crate::text::Edit;

/// One file of the source.
pub struct File {
    pub name: &'static str,
    /// Its checksum at the commit that the port was made from.
    pub checksum: u64,
    /// The `use` lines, written anew: the source's name modules that are left out.
    pub uses: &'static str,
    pub parts: &'static [Part],
}

/// A stretch that is taken.
pub enum Part {
    /// A whole item.
    Item { head: &'static str, edits: &'static [Edit] },
    /// A struct without the fields of tables that are left out.
    Struct { head: &'static str, without: &'static [&'static str] },
    /// Some functions of a type.
    Impl { head: &'static str, functions: &'static [Function] },
}

/// One function of a type, and a second copy of it if there is one.
pub struct Function {
    pub head: &'static str,
    /// Fields left out of the value it builds.
    pub without: &'static [&'static str],
    /// Fields left out that it assigns to.
    pub unassigned: &'static [&'static str],
    pub edits: &'static [Edit],
    pub copy: &'static [Edit],
}

const fn edit(old: &'static str, new: &'static str, times: usize) -> Edit {
    Edit { old, new, times }
}

const fn item(head: &'static str) -> Part {
    Part::Item { head, edits: &[] }
}

const fn plain(head: &'static str) -> Function {
    Function { head, without: &[], unassigned: &[], edits: &[], copy: &[] }
}

const fn edited(head: &'static str, edits: &'static [Edit]) -> Function {
    Function { edits, ..plain(head) }
}

const fn copied(head: &'static str, edits: &'static [Edit], copy: &'static [Edit]) -> Function {
    Function { edits, copy, ..plain(head) }
}

/// The fields of `RoadNetwork` that no taken function reads.
const NETWORK_TABLES: &[&str] = &[
    "objects",
    "structures",
    "signals",
    "controllers",
    "road_marks",
    "crg",
    "speed_limits",
    "road_types",
    "lane_rules",
    "lane_access",
    "lane_materials",
    "lane_visibility",
    "geo",
    "priorities",
    "road_neighbors",
    "junction_areas",
    "cross_paths",
    "junction_groups",
    "virtual_junctions",
    "switches",
    "stations",
    "footprints",
];

pub const FILES: &[File] = &[COORDS, GEOMETRY, GRID, NETWORK, ROAD, ROUTE, ADVANCE];

const COORDS: File = File {
    name: "coords.rs",
    checksum: 0x6b66_ab3b_f7d7_065b,
    uses: "use std::ops::{Add, Mul, Neg, Sub};\n",
    parts: &[
        item("pub struct Point {"),
        item("pub struct Vector {"),
        item("impl Point {"),
        Part::Impl {
            head: "impl Vector {",
            functions: &[
                plain("    pub const ZERO:"),
                plain("    pub const X:"),
                plain("    pub const Y:"),
                plain("    pub const Z:"),
                plain("    pub const fn new("),
                plain("    pub const fn splat("),
                plain("    pub const fn to_array("),
                plain("    pub fn is_finite("),
                plain("    pub fn length("),
                plain("    pub fn length_squared("),
                plain("    pub fn dot("),
                plain("    pub fn cross("),
                plain("    pub fn normalize_or("),
                plain("    pub fn normalize_or_zero("),
                plain("    pub fn lerp("),
                plain("    pub fn abs_diff_eq("),
            ],
        },
        item("impl Sub for Point {"),
        item("impl Add<Vector> for Point {"),
        item("impl Sub<Vector> for Point {"),
        item("impl Add for Vector {"),
        item("impl Sub for Vector {"),
        item("impl Mul<f32> for Vector {"),
        item("impl Mul<Vector> for f32 {"),
        item("impl Neg for Vector {"),
    ],
};

const GEOMETRY: File = File {
    name: "geometry.rs",
    checksum: 0x1376_72c9_9a6b_cfd3,
    uses: "use std::ops::Range;\n\nuse crate::coords::{Point, Vector};\n",
    parts: &[
        item("pub struct Pose {"),
        item("pub struct Projection {"),
        item("pub struct Polyline {"),
        Part::Impl {
            head: "impl Polyline {",
            functions: &[
                plain("    pub fn try_new("),
                plain("    pub fn try_new_with_tangents("),
                plain("    fn build("),
                plain("    pub fn points("),
                plain("    pub fn tangents("),
                plain("    pub fn length("),
                plain("    fn segment("),
                plain("    fn local_t("),
                plain("    pub(crate) fn locate("),
                plain("    pub fn point_at("),
                plain("    pub fn pose_at("),
                plain("    pub fn project("),
                plain("    pub(crate) fn project_segments("),
            ],
        },
        item("fn horizontal("),
        item("fn vertex_tangents("),
        item("pub(crate) fn left_normal("),
    ],
};

const GRID: File = File {
    name: "grid.rs",
    checksum: 0xe8bd_5e3f_83ba_dafa,
    uses: "use crate::zero::PlusZero;\n",
    parts: &[
        item("pub(crate) struct Aabb {"),
        Part::Impl {
            head: "impl Aabb {",
            functions: &[
                edited("    pub fn around(", &[edit(".min(", ".min_plus(", 2), edit(".max(", ".max_plus(", 2)]),
                plain("    pub fn padded("),
                edited("    fn merge(", &[edit(".min(", ".min_plus(", 2), edit(".max(", ".max_plus(", 2)]),
                edited("    pub fn dist2(", &[edit(".max(", ".max_plus(", 4)]),
            ],
        },
        item("pub(crate) struct Grid {"),
        item("const MAX_DIM:"),
        item("const ITEMS_PER_CELL:"),
        Part::Impl {
            head: "impl Grid {",
            functions: &[
                edited("    pub fn build(", &[edit(".max(", ".max_plus(", 8)]),
                plain("    fn col("),
                plain("    fn row("),
                plain("    fn bucket("),
                plain("    pub fn nearest<"),
                plain("    fn ring("),
            ],
        },
    ],
};

const NETWORK: File = File {
    name: "network.rs",
    checksum: 0xd22d_7353_05ef_87a2,
    uses: "use std::collections::HashMap;\nuse std::ops::Range;\n\n\
           use crate::coords::Point;\nuse crate::geometry::{Polyline, Projection};\n\
           use crate::grid::{Aabb, Grid};\nuse crate::road::{LanePosition, Road, RoadId, RoadLane};\n",
    parts: &[
        item("pub struct LaneId("),
        item("pub enum LaneType {"),
        item("pub enum Direction {"),
        item("pub struct Lane {"),
        Part::Struct { head: "pub struct RoadNetwork {", without: NETWORK_TABLES },
        item("const SPAN_SEGMENTS:"),
        item("struct LaneIndex {"),
        Part::Impl { head: "impl LaneIndex {", functions: &[plain("    fn driving("), plain("    fn build(")] },
        Part::Impl {
            head: "impl RoadNetwork {",
            functions: &[
                Function { without: NETWORK_TABLES, ..plain("    pub fn new(") },
                Function { unassigned: &["footprints"], ..plain("    pub fn with_roads(") },
                plain("    pub fn road("),
                plain("    pub fn road_lane("),
                plain("    pub fn centerline_s("),
                plain("    pub fn lane("),
                plain("    pub fn nearest_lane("),
            ],
        },
    ],
};

const ROAD: File = File {
    name: "road.rs",
    checksum: 0x8cca_620f_01d5_0346,
    uses: "use crate::coords::Point;\nuse crate::network::LaneId;\n",
    parts: &[
        item("pub struct RoadId("),
        item("pub struct LanePosition {"),
        item("pub struct RoadLane {"),
        Part::Struct {
            head: "pub struct Road {",
            without: &[
                "od_id",
                "junction",
                "length",
                "rule",
                "geoms",
                "elevations",
                "superelevations",
                "lateral",
                "lane_offsets",
            ],
        },
        Part::Struct { head: "pub(crate) struct RoadSection {", without: &["left", "right", "marks"] },
        Part::Impl { head: "impl Road {", functions: &[plain("    pub(crate) fn section(")] },
        // The sum of no terms is minus zero in some versions of the standard library and plus zero in others.
        Part::Item {
            head: "pub(crate) fn along(",
            edits: &[edit(".sum();", ".fold(0.0, |sum, step| sum + step);", 1)],
        },
        item("pub(crate) fn station_at("),
    ],
};

/// `lane_path` again, handing out the popped cost; 0 for one lane.
const LANE_PATH_COST: &[Edit] = &[
    edit("fn lane_path(", "fn lane_path_cost(", 1),
    edit("-> Option<Vec<LaneId>>", "-> Option<(Vec<LaneId>, f32)>", 1),
    edit("Some(vec![start])", "Some((vec![start], 0.0))", 1),
    edit("Some(reconstruct(&search.prev, start, goal))", "Some((reconstruct(&search.prev, start, goal), cost))", 1),
];

/// `sample_route` again, which stops once more than `most` points are kept.
const SAMPLE_ROUTE_UP_TO: &[Edit] = &[
    edit("fn sample_route(&self, ", "fn sample_route_up_to(&self, most: usize, ", 1),
    edit("sample_segment(lane, ", "sample_segment_up_to(most, lane, ", 1),
];

const ROUTE: File = File {
    name: "route.rs",
    checksum: 0x4928_51a2_a085_a481,
    uses: "use std::cmp::Ordering;\nuse std::collections::{BinaryHeap, HashMap};\n\n\
           use crate::coords::Point;\nuse crate::network::{Direction, Lane, LaneId, RoadNetwork};\n\
           use crate::zero::PlusZero;\n",
    parts: &[
        item("const ROUTE_STEP:"),
        item("const LANE_CHANGE_COST:"),
        item("const LANE_CHANGE_DIST:"),
        Part::Impl {
            head: "impl RoadNetwork {",
            functions: &[
                plain("    pub fn route("),
                copied("    fn lane_path(", &[], LANE_PATH_COST),
                copied("    fn sample_route(", &[], SAMPLE_ROUTE_UP_TO),
                plain("    fn nearer_end("),
            ],
        },
        item("fn ahead("),
        Part::Item { head: "fn advance(", edits: &[edit(".min(", ".min_plus(", 1), edit(".max(", ".max_plus(", 1)] },
        Part::Item { head: "fn sample_segment(", edits: &[edit(".max(", ".max_plus(", 1)] },
        Part::Item {
            head: "fn sample_segment(",
            edits: &[
                edit(".max(", ".max_plus(", 1),
                edit("fn sample_segment(", "fn sample_segment_up_to(most: usize, ", 1),
                edit(
                    "for k in 0..=steps {",
                    "for k in 0..=steps {\n        if pts.len() > most {\n            return;\n        }",
                    1,
                ),
            ],
        },
        item("fn push_dedup("),
        item("fn reconstruct("),
        item("struct Search {"),
        item("impl Search {"),
        item("struct State {"),
        item("impl PartialEq for State {"),
        item("impl Eq for State {}"),
        item("impl Ord for State {"),
        item("impl PartialOrd for State {"),
    ],
};

/// `advance` again, handing out how many keys were entered; it stops once they are more than `most`.
const ADVANCE_KEYS: &[Edit] = &[
    edit("pub fn advance(&self, ", "pub fn advance_keys(&self, most: usize, ", 1),
    edit(") -> Vec<Advance> {", ") -> (Vec<Advance>, usize) {", 1),
    edit("return Vec::new();", "return (Vec::new(), 0);", 2),
    edit(
        "let Some(lane) = self.lane(lane) else {",
        "if entered.len() > most {\n                break;\n            }\n            let Some(lane) = self.lane(lane) else {",
        1,
    ),
    edit("        out\n", "        (out, entered.len())\n", 1),
];

const ADVANCE: File = File {
    name: "advance.rs",
    checksum: 0xf4a4_3b24_d543_b321,
    uses: "use std::collections::HashSet;\n\nuse crate::coords::Point;\n\
           use crate::network::{Direction, Lane, LaneId, RoadNetwork};\n\
           use crate::road::{station_at, LanePosition, RoadSection};\nuse crate::zero::PlusZero;\n",
    parts: &[
        item("pub enum Advance {"),
        item("struct Branch {"),
        Part::Impl {
            head: "impl RoadNetwork {",
            functions: &[
                copied("    pub fn advance(", &[edit(".min(", ".min_plus(", 1)], ADVANCE_KEYS),
                plain("    fn at_end("),
                plain("    pub fn left_of("),
                plain("    pub fn right_of("),
                plain("    fn beside("),
                plain("    fn across("),
                plain("    fn on_centerline("),
            ],
        },
        item("fn travel("),
    ],
};
