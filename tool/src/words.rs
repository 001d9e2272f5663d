//! Questions and answers in words, a line each, as `answer` prints them and a sheet shows them.

use crate::geometry;
use crate::paper::{lanes, links, Answered, Paper, Snap, OFF_LANE};
use crate::text::{double, single};
use crate::ties;
use kartsodi::records::{LaneType, Role};
use kartsodi::{Advance, LaneId, LanePosition, Moved, Point, Refusal, Route, Side};

/// The question in one line, its numbers as the plan has them: `route from (-30, -5.25, 0) to (1.75, 30, 0)`.
pub fn question(answered: &Answered) -> String {
    match answered {
        Answered::Route { query, .. } => format!("route from {} to {}", exact(query.from), exact(query.to)),
        Answered::Advance { query, .. } => {
            let (from, distance) = (query.from, query.distance);
            let way = if distance < 0.0 { "back" } else { "on" };
            let (s, offset) = (double(from.s), double(from.offset));
            format!(
                "advance {} m {way} from lane {}, station {s}, offset {offset}",
                double(distance.abs()),
                from.lane.0
            )
        }
        Answered::Beside { query, .. } => {
            let side = if query.side == Side::Left { "left" } else { "right" };
            format!("the lane to the {side} of lane {} at station {}", query.lane.0, double(query.s))
        }
    }
}

/// The answer in lines: first the answer or the refusal itself, then a line for each part of it and each remark. Metres are to the millimetre.
pub fn answer(paper: &Paper, answered: &Answered) -> Vec<String> {
    match answered {
        Answered::Route { from, to, answer, .. } => {
            let mut lines = said(answer, |route| route_words(paper, route));
            lines.extend(from.iter().map(|snap| format!("start: {}", snap_words(snap))));
            lines.extend(to.iter().map(|snap| format!("goal: {}", snap_words(snap))));
            lines
        }
        Answered::Advance { answer, .. } => said(answer, moved_words),
        Answered::Beside { answer, .. } => {
            said(answer, |at| vec![format!("lane {}, station {}", at.lane.0, metres(at.s))])
        }
    }
}

/// The points of a route in lines of a few each.
pub fn points(route: &Route) -> Vec<String> {
    route.points.chunks(4).map(|few| few.iter().map(point).collect::<Vec<_>>().join(" ")).collect()
}

/// A point to the millimetre: `(-30.000, -5.250, 0.000)`.
pub fn point(p: &Point) -> String {
    format!("({}, {}, {})", metres(p.x.into()), metres(p.y.into()), metres(p.z.into()))
}

/// A number of metres to the millimetre; never a zero below zero.
pub fn metres(x: f64) -> String {
    if x.is_nan() {
        return "not a number".into();
    }
    if x.abs() >= 1e9 {
        return format!("{x:e}");
    }
    let shown = format!("{x:.3}");
    if shown == "-0.000" {
        "0.000".into()
    } else {
        shown
    }
}

/// So many things: `1 lane`, `2 lanes`.
pub fn counted(count: usize, thing: &str) -> String {
    format!("{count} {thing}{}", if count == 1 { "" } else { "s" })
}

/// A refusal, in words with what to do.
pub fn refusal(refusal: Refusal) -> String {
    format!("refused with number {}: {}. What to do: {}", refusal.number(), refusal.words(), refusal.advice())
}

/// Numbers in a row: `2, 1, 4`.
pub fn chain(lanes: &[LaneId]) -> String {
    lanes.iter().map(|lane| lane.0.to_string()).collect::<Vec<_>>().join(", ")
}

fn said<T>(answer: &Result<T, Refusal>, words: impl Fn(&T) -> Vec<String>) -> Vec<String> {
    answer.as_ref().map_or_else(|no| vec![refusal(*no)], words)
}

fn exact(p: Point) -> String {
    format!("({}, {}, {})", single(p.x), single(p.y), single(p.z))
}

fn route_words(paper: &Paper, route: &Route) -> Vec<String> {
    let points = counted(route.points.len(), "point");
    if let [only] = route.chain[..] {
        return vec![format!("lane {} alone, on which the goal lies ahead; cost 0; {points}", only.0)];
    }
    let steps: Vec<String> = route.chain.windows(2).map(|pair| step(paper, pair[0], pair[1])).collect();
    let cost = metres(route.length.into());
    let mut lines = vec![
        format!("lanes {}; cost {cost}; {points}", chain(&route.chain)),
        format!("cost: {}; the last lane does not count, so this is no distance driven", steps.join(", ")),
    ];
    let idle = lanes(&paper.records).filter(|lane| !lane.kind.drives() && route.chain.contains(&lane.lane));
    lines
        .extend(idle.map(|lane| format!("note: lane {} of the chain is no driving lane ({})", lane.lane.0, lane.kind)));
    lines.extend(ties::other_chain(&paper.records, route).map(|other| format!("note: {}", tie(&other))));
    lines
}

/// A chain that costs the same as the answer's.
pub fn tie(other: &[LaneId]) -> String {
    format!("lanes {} lead there at the same cost, so that another answer is as good as the library's", chain(other))
}

/// What a step of a chain costs: the cheaper of a change and of the lane's length, where both lead on.
fn step(paper: &Paper, from: LaneId, to: LaneId) -> String {
    let role = |role| links(&paper.records).any(|link| (link.from, link.role, link.to) == (from, role, to));
    let line = lanes(&paper.records).find(|lane| lane.lane == from).map_or(&[][..], |lane| &lane.points);
    let length = geometry::length_of_line(line);
    if role(Role::Neighbour) && !(role(Role::Successor) && length < 30.0) {
        format!("30 for the change from lane {} to lane {}", from.0, to.0)
    } else {
        format!("{} for lane {}", metres(length), from.0)
    }
}

fn snap_words(snap: &Snap) -> String {
    let (lane, s, off) = (snap.nearest.lane.0, metres(snap.nearest.projection.s.into()), metres(snap.metres));
    let taken = if snap.metres > OFF_LANE {
        format!("taken to lane {lane}, which is {off} m away, {s} m along its points")
    } else {
        format!("on lane {lane}, {s} m along its points, {off} m off")
    };
    let nearer = snap.nearer.map(|(lane, kind, metres)| nearer_words(lane, kind, metres));
    [Some(taken), nearer, level_words(snap)].into_iter().flatten().collect::<Vec<_>>().join("; ")
}

/// The driving lanes that a point lies as near to as to the one that it was taken to.
pub fn level_words(snap: &Snap) -> Option<String> {
    match snap.level[..] {
        [] => None,
        [one] => Some(format!("lane {} is as near", one.0)),
        _ => Some(format!("lanes {} are as near", chain(&snap.level))),
    }
}

/// A lane nearer than the one that a point was taken to.
pub fn nearer_words(lane: LaneId, kind: LaneType, off: f64) -> String {
    format!("lane {} ({kind}) is nearer, {} m, but routes start and end on driving lanes alone", lane.0, metres(off))
}

fn moved_words(moved: &Moved) -> Vec<String> {
    let keys = counted(moved.keys, "key");
    if moved.positions.is_empty() {
        let why = "every branch ends on a lane without a place, or in a key entered before";
        return vec![format!("no position: {why}; {keys}")];
    }
    let mut lines = vec![format!("{}; {keys}", counted(moved.positions.len(), "position"))];
    lines.extend(moved.positions.iter().map(|end| match end {
        Advance::Reached(at) => format!("reached: {}", position(at)),
        Advance::DeadEnd { at, short } => format!("dead end, {} m short: {}", metres(*short), position(at)),
    }));
    lines
}

fn position(at: &LanePosition) -> String {
    let side = match at.offset {
        offset if offset > 0.0 => format!(", {} m to the left of its points", metres(offset)),
        offset if offset < 0.0 => format!(", {} m to the right of its points", metres(-offset)),
        offset if offset.is_nan() => ", offset not a number".into(),
        _ => String::new(),
    };
    format!("lane {}, station {}{side}", at.lane.0, metres(at.s))
}

#[cfg(test)]
mod tests {
    use super::metres;

    /// Finding 6: `-0.000`.
    #[test]
    fn metres_are_to_the_millimetre() {
        let shown = [0.0, -0.0, -0.0004, 0.0005, -1.75, 78.8691, 1e12, f64::NAN, f64::NEG_INFINITY].map(metres);
        assert_eq!(shown, ["0.000", "0.000", "0.000", "0.001", "-1.750", "78.869", "1e12", "not a number", "-inf"]);
    }
}
