//! The list of wrong oracles, and those of them that no plan can tell apart. WRONG.md says what tells the others.

use crate::wrong::{Equal, Wrong};

const fn once(file: &'static str, within: &'static str, old: &'static str, new: &'static [&'static str]) -> Wrong {
    Wrong { file, within, times: 1, old, keep: old, new }
}

/// For functions that stand twice in the cut: both copies change.
const fn twice(file: &'static str, within: &'static str, old: &'static str, new: &'static [&'static str]) -> Wrong {
    Wrong { file, within, times: 2, old, keep: old, new }
}

pub const WRONG: &[Wrong] = &[
    // Vectors.
    once("coords.rs", "pub fn dot(", "self.x * other.x + self.y * other.y + self.z * other.z", &[
        "self.x * other.x + (self.y * other.y + self.z * other.z)",
        "self.x.mul_add(other.x, self.y * other.y + self.z * other.z)",
        "self.x * other.x + self.y * other.y",
    ]),
    once("coords.rs", "pub fn normalize_or(", "len.is_finite()", &["true"]),
    once("coords.rs", "pub fn normalize_or(", "len > 0.0", &["len >= 0.0", "len > 1e-6"]),
    once("coords.rs", "pub fn normalize_or(", "self * (1.0 / len)", &[
        "Self::new(self.x / len, self.y / len, self.z / len)",
    ]),
    once("coords.rs", "/// The place `t` of the way", "self + (other - self) * t", &[
        "Self::new(self.x * (1.0 - t) + other.x * t, self.y * (1.0 - t) + other.y * t, self.z * (1.0 - t) + other.z * t)",
    ]),
    once("coords.rs", "pub fn length(self)", "self.length_squared().sqrt()", &[
        "f64::from(self.length_squared()).sqrt() as f32",
        "self.x.hypot(self.y).hypot(self.z)",
    ]),
    // Polylines.
    once("geometry.rs", "for pair in points.windows(2)", "(pair[1] - pair[0]).length()", &[
        "(pair[0] - pair[1]).length()",
        "horizontal(pair[1] - pair[0]).length()",
    ]),
    once("geometry.rs", "fn segment(", "c <= s", &["c < s"]),
    once("geometry.rs", "fn local_t(", "seg_len > 1e-6", &["seg_len >= 1e-6", "seg_len > 1e-5", "seg_len > 0.0"]),
    once("geometry.rs", "fn locate(", "s.clamp(0.0, self.length())", &[
        "s.max(0.0)",
        "s.min(self.length())",
        "s.max(0.0).min(self.length())",
    ]),
    once("geometry.rs", "fn project_segments(", "len2 > 1e-9", &["len2 >= 1e-9", "len2 > 1e-6", "len2 > 0.0"]),
    once("geometry.rs", "fn project_segments(", "((point - a).dot(ab) / len2).clamp(0.0, 1.0)", &[
        "((point - a).dot(ab) / len2).max(0.0).min(1.0)",
        "((point - a).dot(ab) / len2).min(1.0)",
        "((point - a).dot(ab) / len2).max(0.0)",
    ]),
    once("geometry.rs", "fn project_segments(", "dist < best_dist", &["dist <= best_dist"]),
    once("geometry.rs", "fn project_segments(", "self.cumulative[i] + ab.length() * t", &[
        "self.cumulative[i] + (closest - a).length()",
    ]),
    once("geometry.rs", "fn project_segments(", "horizontal(point - closest).dot(left_normal(heading))", &[
        "-horizontal(point - closest).dot(left_normal(heading))",
        "horizontal(point - a).dot(left_normal(heading))",
    ]),
    once("geometry.rs", "fn horizontal(", "Vector::new(v.x, v.y, 0.0)", &["v"]),
    once("geometry.rs", "let chord =", "(incoming + outgoing).normalize_or_zero()", &[
        "incoming + outgoing",
        "outgoing.normalize_or(incoming)",
    ]),
    once("geometry.rs", "if i == 0 =>", "horizontal(start).normalize_or(chord)", &[
        "chord",
        "start.normalize_or(chord)",
    ]),
    once("geometry.rs", "if i == n - 1 =>", "horizontal(end).normalize_or(chord)", &["chord"]),
    // The grid.
    once("grid.rs", "Some(b) => Self {", "b.min_x.min_plus(x)", &["b.min_x"]),
    once("grid.rs", "Some(b) => Self {", "b.max_y.max_plus(y)", &["y"]),
    once("grid.rs", "pub fn merge(", "self.max_x.max_plus(other.max_x)", &["other.max_x"]),
    once("grid.rs", "pub fn dist2(", "(self.min_x - x).max_plus(0.0).max_plus(x - self.max_x)", &[
        "(self.min_x - x).max_plus(0.0)",
        "0.0",
    ]),
    once("grid.rs", "pub fn dist2(", "dx * dx + dy * dy", &[
        "dy * dy + dx * dx",
        "dx.mul_add(dx, dy * dy)",
        "dx * dx + dy * dy + 1.0",
    ]),
    once("grid.rs", "let target =", "ITEMS_PER_CELL", &["1.0", "4.0"]),
    once("grid.rs", "let area =", "w.max_plus(1e-3) * h.max_plus(1e-3)", &[
        "w * h",
        "w.max_plus(1.0) * h.max_plus(1.0)",
    ]),
    once("grid.rs", "let cols =", "(w / cell).ceil()", &["(w / cell).floor()"]),
    once("grid.rs", "let cols =", "MAX_DIM", &["512"]),
    once("grid.rs", "// Re-derive the cell size", "(w / cols as f32).max_plus(h / rows as f32).max_plus(1e-3)", &[
        "cell",
        "(w / cols as f32).max_plus(1e-3)",
    ]),
    once("grid.rs", "for iy in lo_y", "lo_x..=hi_x", &["lo_x..=lo_x"]),
    once("grid.rs", "fn bucket(", "(offset / cell).floor()", &["(offset / cell).round()", "(offset / cell).ceil()"]),
    once("grid.rs", "fn bucket(", "i.is_nan() || i < 0.0", &["i.is_nan()", "i < 0.0", "i <= 0.0"]),
    once("grid.rs", "pub fn nearest<", "self.cols.max(self.rows)", &[
        "self.cols.min(self.rows)",
        "self.cols.max(self.rows) - 1",
    ]),
    once("grid.rs", "pub fn nearest<", "(r - 1).max(0)", &["r.max(0)", "(r - 2).max(0)", "(r + 1).max(0)"]),
    once("grid.rs", "let floor =", "*d2 <= floor * floor", &["*d2 < floor * floor", "*d2 <= floor", "false"]),
    once("grid.rs", "else {\n                        continue", "(d2, item) < (*b, *bi)", &[
        "d2 < *b",
        "(d2, item) <= (*b, *bi)",
        "(d2, *bi) < (*b, item)",
        "d2 <= *b",
    ]),
    once("grid.rs", "pub fn nearest<", "!d2.is_nan()", &["true"]),
    once("grid.rs", "if !in_bounds", "!in_bounds", &["false"]),
    once("grid.rs", "let edge =", "iy == cy - r || iy == cy + r", &["iy == cy - r", "true"]),
    once("grid.rs", "let step = if edge", "(2 * r).max(1)", &["(2 * r + 1).max(1)"]),
    // The index.
    once("network.rs", "pub fn driving(", "lane.kind == LaneType::Driving", &[
        "lane.kind == LaneType::Driving || lane.kind == LaneType::Bidirectional",
        "lane.kind == LaneType::Bus",
        "true",
    ]),
    twice("network.rs", "SPAN_SEGMENTS)", "SPAN_SEGMENTS", &["3", "5", "4096"]),
    once("network.rs", "pub fn nearest_lane(", "index.bounds[i].dist2(point.x, point.y) > best", &[
        "false",
        "index.bounds[i].dist2(point.x, point.y) >= best",
    ]),
    once("network.rs", "pub fn nearest_lane(", "(point - projection.point).length_squared()", &[
        "{ let d = point - projection.point; d.x * d.x + d.y * d.y }",
        "(point - projection.point).length()",
    ]),
    once("network.rs", "pub fn nearest_lane(", "c.is_finite()", &["!c.is_nan()"]),
    once("network.rs", "pub fn centerline_s(", "(section.start..=section.end)\n            .contains(&at.s)", &[
        "(section.start <= at.s && at.s < section.end)",
        "(section.start < at.s && at.s <= section.end)",
        "!(at.s < section.start || section.end < at.s)",
    ]),
    // Stations.
    once("road.rs", "pub fn along(", "x <= s", &["x < s"]),
    once("road.rs", ".fold(", "0.0", &["-0.0"]),
    once("road.rs", "let f = ((s -", "((s - stations[i]) / (stations[i + 1] - stations[i])).clamp(0.0, 1.0)", &[
        "((s - stations[i]) / (stations[i + 1] - stations[i]))",
        "((s - stations[i]) / (stations[i + 1] - stations[i])).max(0.0)",
        "((s - stations[i]) / (stations[i + 1] - stations[i])).min(1.0)",
    ]),
    once("road.rs", "before + points[i]", "points[i].distance_to(points[i + 1]) * f as f32", &[
        "(f64::from(points[i].distance_to(points[i + 1])) * f) as f32",
    ]),
    once("road.rs", "pub fn station_at(", "before + step >= arc", &["before + step > arc", "step >= arc - before"]),
    once("road.rs", "pub fn station_at(", "i == last", &["false"]),
    once("road.rs", "pub fn station_at(", "step > 0.0", &["step >= 0.0", "step > 1e-6"]),
    once("road.rs", "pub fn station_at(", "((arc - before) / step).clamp(0.0, 1.0)", &[
        "(arc - before) / step",
        "((arc - before) / step).max(0.0)",
        "((arc - before) / step).min(1.0)",
    ]),
    // The search.
    twice("route.rs", "if start == goal", "start == goal && ahead(self.lane(start)?.direction, start_s, goal_s)", &[
        "start == goal",
        "false",
    ]),
    twice("route.rs", "let mut search", "Search::default()", &[
        "{ let mut s = Search::default(); s.dist.insert(start, 0.0); s }",
    ]),
    twice("route.rs", "if cost > *search", "cost > *search.dist.get(&lane).unwrap_or(&f32::INFINITY)", &[
        "cost >= *search.dist.get(&lane).unwrap_or(&f32::INFINITY)",
        "false",
    ]),
    once("route.rs", "pub fn expand(", "cost + step", &[
        "cost + step.ceil()",
        "step",
        "cost + l.center.length() * 1.001",
    ]),
    once("route.rs", "pub fn expand(", "LANE_CHANGE_COST", &["29.0", "31.0", "30.000002"]),
    once("route.rs", "for (next, nd) in edges", "nd < *self.dist.get(&next).unwrap_or(&f32::INFINITY)", &[
        "nd <= *self.dist.get(&next).unwrap_or(&f32::INFINITY)",
        "!self.dist.contains_key(&next)",
    ]),
    once("route.rs", "impl PartialOrd for State", "self.cmp(o)", &["o.cmp(self)"]),
    once("route.rs", "impl Ord for State", "self.lane.0.cmp(&o.lane.0)", &[
        "o.lane.0.cmp(&self.lane.0)",
        "Ordering::Equal",
    ]),
    once("route.rs", "Direction::Forward => to", "to >= from", &["to > from"]),
    once("route.rs", "Direction::Backward => to", "to <= from", &["to < from", "to >= from"]),
    once("route.rs", "Direction::Both => true", "true", &["to >= from"]),
    // Sampling.
    twice("route.rs", "let forward = match", "self.nearer_end(lane, path.get(i + 1))", &["true", "false"]),
    twice("route.rs", "Direction::Backward => false", "false", &["true"]),
    twice("route.rs", "(0, _) =>", "start_s.clamp(0.0, len)", &["start_s"]),
    twice("route.rs", "(_, Some(c)) =>", "lane.center.project(c).s", &["travel_start"]),
    twice("route.rs", ".is_some_and(|n|", "lane.neighbors.contains(n) && !lane.successors.contains(n)", &[
        "lane.neighbors.contains(n)",
        "!lane.successors.contains(n)",
        "false",
    ]),
    twice("route.rs", "let goal = goal_s", "ahead(lane.direction, entry, goal)", &["true", "false"]),
    twice("route.rs", "else if changes_off", "LANE_CHANGE_DIST", &["9.0", "11.0"]),
    once("route.rs", "pub fn nearer_end(", "away(points[points.len() - 1]) <= away(points[0])", &[
        "away(points[points.len() - 1]) < away(points[0])",
    ]),
    once("route.rs", "pub fn nearer_end(", "return true", &["return false"]),
    once("route.rs", "(toward - from).signum()", "(from + step).clamp(from.min_plus(toward), from.max_plus(toward))", &[
        "from + step",
    ]),
    once("route.rs", "pub fn advance(", "(toward - from).signum()", &[
        "if toward == from { 0.0 } else { (toward - from).signum() }",
    ]),
    twice("route.rs", "let span = exit - entry;", "span.abs() < 1e-4", &[
        "span.abs() <= 1e-4",
        "span.abs() < 1e-3",
        "span.abs() < 1e-5",
        "false",
    ]),
    twice("route.rs", "let steps =", "(span.abs() / ROUTE_STEP).ceil()", &[
        "(span.abs() / 1.9).ceil()",
        "(span.abs() / 2.1).ceil()",
        "(span.abs() / ROUTE_STEP).floor()",
        "(span.abs() / ROUTE_STEP).round()",
    ]),
    twice("route.rs", "let s = entry", "entry + span * (k as f32 / steps as f32)", &[
        "entry + span * k as f32 / steps as f32",
        "entry + ROUTE_STEP * k as f32 * span.signum()",
    ]),
    once("route.rs", "pub fn push_dedup(", "q.distance_squared_to(p) > 1e-6", &[
        "q.distance_squared_to(p) >= 1e-6",
        "q.distance_squared_to(p) > 1e-5",
        "q.distance_squared_to(p) > 0.0",
        "true",
    ]),
    // Advances.
    twice("advance.rs", "let millimetres =", "(m * 1000.0).round()", &[
        "(m * 1000.0).trunc()",
        "(m * 1000.0).floor()",
        "(m * 100.0).round()",
        "(m * 1000.0).round_ties_even()",
        "m * 1000.0 * 1000.0",
    ]),
    twice("advance.rs", "let ahead =", "distance >= 0.0", &["distance > 0.0", "distance.is_sign_positive()"]),
    twice("advance.rs", "let side = move", "up == ahead", &["up", "true"]),
    twice("advance.rs", "let mut todo =", "vec![branch(false), branch(true)]", &[
        "vec![branch(true), branch(false)]",
        "vec![branch(true)]",
    ]),
    twice("advance.rs", "let linked =", "ahead", &["!ahead"]),
    twice("advance.rs", "let next: Vec<&Lane> =", "lane.direction != Direction::Both", &["true", "false"]),
    twice("advance.rs", "remaining > room &&", "remaining > room", &["remaining >= room", "remaining > room + 1e-3"]),
    Wrong {
        file: "advance.rs",
        within: "todo.extend(",
        times: 2,
        old: "next.iter().rev()",
        keep: "next.iter().rev().collect::<Vec<_>>().into_iter()",
        new: &["next.iter().collect::<Vec<_>>().into_iter()"],
    },
    twice("advance.rs", "let points = next.center.points();\n                            exit", "exit.distance_to(points[0])", &[
        "exit.distance_to(points[0]).next_up()",
        "0.0",
    ]),
    twice("advance.rs", "let key =", "branch.arc.to_bits()", &["0"]),
    twice("advance.rs", "let key =", "millimetres(branch.remaining)", &["0"]),
    twice("advance.rs", "let key =", "millimetres(left)", &["0", "millimetres(left.abs())"]),
    twice("advance.rs", "entered.insert(key)", "entered.insert(key).then_some(branch)", &[
        "{ entered.insert(key); Some(branch) }",
    ]),
    twice("advance.rs", "let moved =", "remaining.min_plus(room) as f32", &[
        "(remaining as f32).min_plus(room as f32)",
        "remaining as f32",
    ]),
    twice("advance.rs", "let Some(at) = self", "left * side(up)", &["left"]),
    twice("advance.rs", "let end = if", "remaining > room", &["remaining >= room"]),
    twice("advance.rs", "if placed.insert(", "placed.insert((at.lane, millimetres(at.s), millimetres(at.offset), short))", &[
        "true",
        "placed.insert((at.lane, millimetres(at.s), millimetres(at.offset), None))",
        "placed.insert((at.lane, millimetres(at.s), 0, short))",
        "placed.insert((at.lane, 0, millimetres(at.offset), short))",
    ]),
    once("advance.rs", "(out, entered.len())", "entered.len()", &[
        "entered.len() + 1",
        "placed.len()",
        "entered.len().min(1)",
    ]),
    once("advance.rs", "pub fn at_end(", "away(exit) <= away(other)", &[
        "away(exit) < away(other)",
        "away(exit) >= away(other)",
    ]),
    // Sides.
    once("advance.rs", "pub fn across(", "std::cmp::Reverse(od_id)", &["std::cmp::Reverse(!od_id)"]),
    once("advance.rs", "let there = if side", "side * travel(lane.direction) > 0.0", &[
        "side > 0.0",
        "side * travel(lane.direction) < 0.0",
    ]),
    once("advance.rs", "Direction::Forward | Direction::Both => 1.0", "1.0", &[
        "if direction == Direction::Both { -1.0 } else { 1.0 }",
    ]),
    // The reader.
    once("reader.rs", "pub fn scan(", "file.len() > MOST_BYTES", &[
        "file.len() >= MOST_BYTES",
        "file.len() > MOST_BYTES + 1",
    ]),
    once("reader.rs", ".ok_or(3)", "3", &["4"]),
    once("reader.rs", "let tangents =", "ends == 0", &["ends != 1"]),
    once("reader.rs", "let tangents =", "payload.len() != 7 + 12 * count + tangents", &[
        "payload.len() < 7 + 12 * count + tangents",
        "kind <= LAST_TYPE && payload.len() != 7 + 12 * count + tangents",
    ]),
    once("reader.rs", "let tangents =", "kind > LAST_TYPE", &[
        "kind >= LAST_TYPE",
        "kind > LAST_TYPE && plan.lanes.len() < MOST_LANES",
    ]),
    once("reader.rs", "let tangents =", "direction > LAST_DIRECTION", &[
        "direction >= LAST_DIRECTION",
        "direction > 3",
    ]),
    once("reader.rs", "let tangents =", "ends > 1", &["ends > 2"]),
    once("reader.rs", "let tangents =", "count < 2", &["count < 3", "count < 2 && plan.lanes.len() < 256"]),
    once("reader.rs", "let points: Vec", "(-FARTHEST..=FARTHEST).contains(c)", &[
        "(-FARTHEST..FARTHEST).contains(c)",
        "(-FARTHEST < *c && *c <= FARTHEST)",
        "c.abs() <= FARTHEST.next_up()",
        "!(c.abs() > FARTHEST)",
    ]),
    once("reader.rs", "let points_before", "plan.lanes.len() + 1 > MOST_LANES", &[
        "plan.lanes.len() + 1 >= MOST_LANES",
        "plan.lanes.len() > MOST_LANES",
    ]),
    once("reader.rs", "let points_before", "points_before + count > MOST_POINTS", &[
        "points_before + count >= MOST_POINTS",
        "points_before + count > MOST_POINTS + 1",
    ]),
    once("reader.rs", "fn read_link(", "payload.len() != 5", &["payload.len() < 5"]),
    once("reader.rs", "fn read_link(", "role > LAST_ROLE", &["role >= LAST_ROLE", "role > 3"]),
    once("reader.rs", "fn read_link(", "plan.links.len() + 1 > MOST_LINKS", &[
        "plan.links.len() + 1 >= MOST_LINKS",
        "plan.links.len() > MOST_LINKS",
    ]),
    once("reader.rs", "let stations: Vec", "(0.0..=LAST_STATION).contains(s)", &[
        "(0.0..LAST_STATION).contains(s)",
        "(0.0 < *s && *s <= LAST_STATION)",
        "(s.is_sign_positive() && *s <= LAST_STATION)",
        "(0.0..=LAST_STATION.next_up()).contains(s)",
    ]),
    once("reader.rs", "let rising =", "pair[0] < pair[1]", &[
        "pair[0] <= pair[1]",
        "pair[0].total_cmp(&pair[1]).is_lt()",
    ]),
    once("reader.rs", "let rising =", "start > end", &["start >= end", "start.total_cmp(&end).is_gt()", "false"]),
    once("reader.rs", "let rising =", "!on_road(&end)", &["false"]),
    once("reader.rs", "let stations_before", "plan.sections.len() + 1 > MOST_SECTIONS", &[
        "plan.sections.len() + 1 >= MOST_SECTIONS",
        "plan.sections.len() > MOST_SECTIONS",
    ]),
    once("reader.rs", "let stations_before", "stations_before + count > MOST_STATIONS", &[
        "stations_before + count >= MOST_STATIONS",
        "stations_before + count > MOST_STATIONS + 1",
    ]),
    once("reader.rs", "fn read_place(", "plan.places.len() + 1 > MOST_PLACES", &[
        "plan.places.len() + 1 >= MOST_PLACES",
        "plan.places.len() > MOST_PLACES",
    ]),
    once("reader.rs", "fn read_beside(", "side > LAST_SIDE", &["side >= LAST_SIDE", "side > 2"]),
    once("reader.rs", "let twice =", "stands_twice(plan.places.iter().map(|place| place.lane))", &["false"]),
    once("reader.rs", "let twice =", "(place.road, place.index, place.od_id)", &[
        "(0, place.index, place.od_id)",
        "(place.road, 0, place.od_id)",
        "(place.road, place.index, place.od_id.abs())",
    ]),
    once("reader.rs", "let twice =", "(section.road, section.index)", &["(0, section.index)"]),
    once("reader.rs", "if twice", "twice", &[
        "twice && plan.links.iter().all(|l| plan.lanes.iter().any(|x| x.number == l.from))",
        "false",
    ]),
    once("reader.rs", "if !plan.links", "lane(link.from).is_some()", &[
        "lane(link.from).is_some() && lane(link.to).is_some()",
        "link.role == 2 || lane(link.from).is_some()",
    ]),
    once("reader.rs", "let section = plan.sections", "s.road == place.road && s.index == place.index", &[
        "s.index == place.index",
        "s.road == place.road",
    ]),
    once("reader.rs", "(Some(lane), Some(section))", "lane.points.len() == section.stations.len()", &[
        "lane.points.len() <= section.stations.len()",
    ]),
    // From records to lanes.
    Wrong {
        file: "bake.rs",
        within: "let linked =",
        times: 1,
        old: "links.map(|link| LaneId(usize::from(link.to))).collect()",
        keep: "links.map(|link| LaneId(usize::from(link.to))).collect()",
        new: &["{ let mut all: Vec<LaneId> = links.map(|link| LaneId(usize::from(link.to))).collect(); all.reverse(); all }"],
    },
    once("bake.rs", "successors: linked(0)", "linked(0)", &["linked(1)"]),
    once("bake.rs", "neighbors: linked(2)", "linked(2)", &["Vec::new()"]),
    once("bake.rs", "kind: TYPES", "usize::from(lane.kind)", &[
        "usize::from(lane.kind.max(1))",
        "usize::from(lane.kind).min(26)",
    ]),
    // The numbers of queries.
    once("answer.rs", "pub fn nearest(", "c.is_finite()", &["!c.is_nan()"]),
    once("answer.rs", "pub fn route(", "c.is_finite()", &["!c.is_nan()"]),
    once("answer.rs", "pub fn route(", "chain.len() > room.lanes", &["chain.len() >= room.lanes"]),
    once("answer.rs", "pub fn route(", "points.len() > room.points", &["points.len() >= room.points"]),
    once("answer.rs", "pub fn advance(", "net.centerline_s(from).is_none()", &[
        "distance.is_finite() && net.centerline_s(from).is_none()",
    ]),
    once("answer.rs", "pub fn advance(", "!distance.is_finite()", &["distance.is_nan()"]),
    once("answer.rs", "pub fn advance(", "keys > MOST_KEYS", &["keys >= MOST_KEYS"]),
    once("answer.rs", "pub fn advance(", "positions.len() > room.positions", &[
        "positions.len() >= room.positions",
        "false",
    ]),
    once("answer.rs", "pub fn beside(", "net.centerline_s(at).is_none()", &["net.road_lane(at.lane).is_none()"]),
    once("answer.rs", "side > LAST_SIDE =>", "self.plan.as_ref().err().copied().unwrap_or(5)", &[
        "self.network.as_ref().err().copied().unwrap_or(5)",
        "5",
    ]),
    // Printing, and the signs that Rust leaves open.
    once("print.rs", "fn single(", "x.is_nan()", &["false"]),
    once("print.rs", "fn double(", "x.is_nan()", &["false"]),
    once("zero.rs", "fn min_plus(self, other: f32)", "0.0_f32", &["-0.0", "self.min(other)"]),
    once("zero.rs", "fn max_plus(self, other: f32)", "0.0_f32", &["-0.0", "self.max(other)"]),
    once("zero.rs", "fn min_plus(self, other: f64)", "0.0_f64", &["-0.0", "self.min(other)"]),
];

const SIGNS: &str = "the sign of a zero goes into sums, squares and comparisons that lose it";
const STAYS: &str = "an advance by 0 stays, whichever way it faces";

const fn equal(file: &'static str, old: &'static str, new: &'static str, why: &'static str) -> Equal {
    Equal { file, old, new, why }
}

/// Those that answer as the oracle does on every input, with the reason.
pub const EQUAL: &[Equal] = &[
    equal(
        "coords.rs",
        "self.length_squared().sqrt()",
        "f64::from(self.length_squared()).sqrt() as f32",
        "the f64 root of an f32, rounded to f32, is the correctly rounded f32 root",
    ),
    equal(
        "geometry.rs",
        "(pair[1] - pair[0]).length()",
        "(pair[0] - pair[1]).length()",
        "negation is exact, and squares lose the sign",
    ),
    equal("grid.rs", "dx * dx + dy * dy", "dy * dy + dx * dx", "addition commutes"),
    equal("grid.rs", "i.is_nan() || i < 0.0", "i.is_nan()", "a negative float as usize is 0"),
    equal("grid.rs", "i.is_nan() || i < 0.0", "i < 0.0", "a NaN as usize is 0"),
    equal("grid.rs", "i.is_nan() || i < 0.0", "i <= 0.0", "0 as usize is 0, and so is a NaN"),
    equal(
        "grid.rs",
        "self.cols.max(self.rows)",
        "self.cols.max(self.rows) - 1",
        "no cell is farther than that from another",
    ),
    equal(
        "grid.rs",
        "(d2, item) < (*b, *bi)",
        "(d2, item) <= (*b, *bi)",
        "they are equal only for the span that is the best already",
    ),
    equal("grid.rs", "!d2.is_nan()", "true", "squares of differences of finite numbers add up to no NaN"),
    equal("grid.rs", "!in_bounds", "false", "the rings behind an empty one are empty"),
    equal("network.rs", "c.is_finite()", "!c.is_nan()", "number 9 is tried before"),
    equal("road.rs", "x <= s", "x < s", "the end of one piece and the start of the next are one sum in one order"),
    equal("road.rs", "0.0", "-0.0", SIGNS),
    equal(
        "road.rs",
        "((arc - before) / step).clamp(0.0, 1.0)",
        "((arc - before) / step).min(1.0)",
        "no arc is below 0, nor below the pieces already passed",
    ),
    equal(
        "route.rs",
        "cost > *search.dist.get(&lane).unwrap_or(&f32::INFINITY)",
        "false",
        "a longer entry improves nothing, since rounded sums keep their order",
    ),
    equal("route.rs", "start_s.clamp(0.0, len)", "start_s", "a projection lies from 0 to the lane's length"),
    equal(
        "route.rs",
        "lane.neighbors.contains(n) && !lane.successors.contains(n)",
        "!lane.successors.contains(n)",
        "each step of a chain is one or the other",
    ),
    equal("route.rs", "return true", "return false", "the last lane's direction of travel is not used"),
    equal(
        "route.rs",
        "(toward - from).signum()",
        "if toward == from { 0.0 } else { (toward - from).signum() }",
        "the clamp leaves one value",
    ),
    equal("advance.rs", "distance >= 0.0", "distance > 0.0", STAYS),
    equal("advance.rs", "distance >= 0.0", "distance.is_sign_positive()", STAYS),
    equal("advance.rs", "up == ahead", "up", "the side is taken at both ends, and the signs cancel"),
    equal(
        "advance.rs",
        "remaining.min_plus(room) as f32",
        "(remaining as f32).min_plus(room as f32)",
        "rounding keeps the order",
    ),
    equal(
        "bake.rs",
        "usize::from(lane.kind)",
        "usize::from(lane.kind).min(26)",
        "no answer tells the types that do not drive",
    ),
    equal("zero.rs", "0.0_f32", "-0.0", SIGNS),
    equal("zero.rs", "0.0_f32", "self.min(other)", SIGNS),
    equal("zero.rs", "0.0_f32", "self.max(other)", SIGNS),
    equal("zero.rs", "0.0_f64", "-0.0", SIGNS),
    equal("zero.rs", "0.0_f64", "self.min(other)", SIGNS),
];
