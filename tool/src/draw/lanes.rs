//! The lanes of a plan: their surfaces by type, the way of their traffic, their ends and their numbers.

use crate::draw::frame::{At, Frame};
use crate::draw::labels::{text_width, Labels, Rect};
use crate::draw::line::{path, Line};
use crate::draw::style;
use crate::geometry::distance_to_line;
use crate::markup::{escaped, number};
use crate::paper;
use kartsodi::records::{Direction, Lane, LaneType, Record, Role};
use kartsodi::Point;

/// How wide a lane is drawn, in metres. A plan does not say how wide its lanes are.
pub const LANE_WIDTH: f64 = 3.5;

/// How far a mark reaches from its place, in heights of a label's text, with what stays free around it.
pub const MARK: f64 = 0.4;

/// A lane with its centre line as it is drawn.
pub struct DrawnLane<'a> {
    pub lane: &'a Lane,
    pub line: Line,
    /// The ends by which traffic leaves it.
    exits: Vec<Exit>,
}

/// An end of a lane by which traffic leaves it.
struct Exit {
    at: At,
    /// The way of the line there.
    way: At,
    /// Whether a lane of the plan follows.
    goes_on: bool,
}

/// A lane's number as it is drawn: its plate, and the markup of it.
pub struct Number {
    pub lane: usize,
    pub plate: Rect,
    pub markup: String,
}

/// The lanes of a plan in a frame, and the sizes that they are drawn with.
pub struct Lanes<'a> {
    pub drawn: Vec<DrawnLane<'a>>,
    /// How wide a lane is in units: to scale, and not so thin that it cannot be seen.
    pub width: f64,
    /// How high the text of a label is: smaller where there are many lanes.
    pub text: f64,
}

impl<'a> Lanes<'a> {
    pub fn new(records: &'a [Record], frame: &Frame) -> Lanes<'a> {
        let drawn: Vec<DrawnLane> = paper::lanes(records).map(|lane| DrawnLane::new(records, lane, frame)).collect();
        let crowd = 20.0 / (drawn.len().max(1) as f64);
        let text = 28.0 * crowd.sqrt().clamp(0.5, 1.0);
        Lanes { drawn, width: frame.units(LANE_WIDTH).max(4.0), text }
    }

    /// The types that the lanes have, by their numbers.
    pub fn types(&self) -> impl Iterator<Item = LaneType> + '_ {
        let has = |kind: &LaneType| self.drawn.iter().any(|drawn| drawn.lane.kind == *kind);
        LaneType::ALL.iter().copied().filter(has)
    }

    /// Whether some end of a lane has this: a lane that follows, or none.
    pub fn has_exit(&self, goes_on: bool) -> bool {
        self.exits().any(|exit| exit.goes_on == goes_on)
    }

    /// What lies on the ground: edges, surfaces, centre lines, arrows, lane ends. The arrows keep clear of labels, and of marks where they are taken
    /// among them.
    pub fn ground(&self, labels: &Labels) -> String {
        let paths: Vec<String> = self.drawn.iter().map(|drawn| drawn.line.path()).collect();
        let edge = (0.06 * self.width).clamp(1.0, 3.0);
        let mut out = String::from("<g fill=\"none\" stroke-linejoin=\"round\">\n");
        out += &format!("<g stroke=\"{}\" stroke-width=\"{}\">\n", style::EDGE, number(self.width + edge));
        for path in &paths {
            out += &format!("<path d=\"{path}\"/>\n");
        }
        out += "</g>\n";
        for (drawn, path) in self.drawn.iter().zip(&paths) {
            out += &style::surface(drawn.lane.kind, path, self.width - edge);
        }
        out += &format!("<g stroke=\"#6b7076\" stroke-width=\"{}\">\n", number(0.05 * self.text));
        for path in &paths {
            out += &format!("<path d=\"{path}\"/>\n");
        }
        out += "</g>\n</g>\n";
        out += "<g fill=\"#3a3f45\">\n";
        for drawn in &self.drawn {
            out += &drawn.arrows(self.text, labels);
        }
        out += "</g>\n";
        out + &self.ends()
    }

    /// The bars across the lanes where traffic leaves them.
    fn ends(&self) -> String {
        let mut out = format!("<g stroke=\"#1b1d20\" stroke-width=\"{}\">\n", number(0.16 * self.text));
        for exit in self.exits() {
            let broken = if exit.goes_on { String::new() } else { broken(self.text) };
            out += &format!("<path d=\"{}\"{broken}/>\n", path(self.bar(exit).into_iter()));
        }
        out + "</g>\n"
    }

    fn exits(&self) -> impl Iterator<Item = &Exit> {
        self.drawn.iter().flat_map(|drawn| &drawn.exits)
    }

    /// The two ends of the bar at a lane's end.
    fn bar(&self, exit: &Exit) -> [At; 2] {
        let half = 0.5 * self.width.max(0.5 * self.text);
        [-half, half].map(|side| [exit.at[0] - side * exit.way[1], exit.at[1] + side * exit.way[0]])
    }

    /// What labels of questions keep clear of besides the lane numbers: the bars at lane ends.
    pub fn keep_clear(&self, labels: &mut Labels) {
        for exit in self.exits() {
            labels.take(Line::new(self.bar(exit).to_vec()).bounds().grown(0.1 * self.text));
        }
    }

    /// Whether a box lies on no lane.
    pub fn off_lanes(&self, rect: &Rect) -> bool {
        let grown = rect.grown(0.5 * self.width);
        !self.drawn.iter().any(|drawn| drawn.line.bounds().grown(1.0).overlaps(&grown) && drawn.line.crosses(&grown))
    }

    /// The number of each lane on a plate, and the lanes for whose number there is no room. Each plate is taken among the labels, and covers none of
    /// the marks where it can go elsewhere. Short lanes come first, since they have the fewest places.
    pub fn numbers(&self, labels: &mut Labels, marked: &[At]) -> (Vec<Number>, Vec<usize>) {
        let mut order: Vec<usize> = (0..self.drawn.len()).collect();
        order.sort_by(|a, b| self.drawn[*a].line.length().total_cmp(&self.drawn[*b].line.length()));
        let mut plates: Vec<Option<Rect>> = vec![None; self.drawn.len()];
        for i in order {
            plates[i] = self.plate(i, labels, marked);
        }
        let (mut numbers, mut left_out) = (Vec::new(), Vec::new());
        for (drawn, plate) in self.drawn.iter().zip(plates) {
            let lane = drawn.lane.lane.0;
            match plate {
                Some(plate) => numbers.push(Number { lane, plate, markup: self.numbered(drawn, plate) }),
                None => left_out.push(lane),
            }
        }
        (numbers, left_out)
    }

    /// The free box for a lane's number: on the lane, or beside it and off all lanes where only there it covers no lane end, or else anywhere
    /// beside it. It covers a mark only where there is no other box.
    fn plate(&self, i: usize, labels: &mut Labels, marked: &[At]) -> Option<Rect> {
        let line = &self.drawn[i].line;
        let size = [self.drawn[i].number_width(self.text), 1.2 * self.text];
        let ends: Vec<At> = self.exits().map(|exit| exit.at).collect();
        let middle = line.at(0.5 * line.length()).0;
        let unmarked = |rect: &Rect| self.clears(rect, marked);
        let clear = |rect: &Rect| unmarked(rect) && self.clears(rect, &ends);
        let aside = |rect: &Rect| clear(rect) && self.off_lanes(rect) && self.leads_to(rect.middle(), middle, i);
        let plate = self.on_lane(i, size, labels, clear).or_else(|| labels.beside(middle, size, 5, aside));
        let plate = plate.or_else(|| self.on_lane(i, size, labels, unmarked));
        plate
            .or_else(|| labels.beside(middle, size, 40, unmarked))
            .or_else(|| labels.beside(middle, size, 40, |_| true))
    }

    /// The free box of this size on a lane that is as wanted and covers least of other lanes; it is taken.
    fn on_lane(&self, i: usize, size: [f64; 2], labels: &mut Labels, wanted: impl Fn(&Rect) -> bool) -> Option<Rect> {
        let line = &self.drawn[i].line;
        if line.length() <= 1.5 * size[0].max(size[1]) {
            return None;
        }
        let spots = (1..24).map(|part| part as f64 / 24.0);
        let boxes = spots.map(|part| (part, Rect::around(line.at(part * line.length()).0, size[0], size[1])));
        let fits = boxes.filter(|(_, rect)| labels.free(rect) && wanted(rect));
        let least = fits.map(|(part, rect)| (self.covered(i, &rect) as f64 + (part - 0.5).abs(), rect));
        let (_, rect) = least.min_by(|a, b| a.0.total_cmp(&b.0))?;
        labels.take(rect);
        Some(rect)
    }

    /// Whether a box covers none of these marks or lane ends.
    fn clears(&self, rect: &Rect, places: &[At]) -> bool {
        let around = rect.grown(MARK * self.text);
        !places.iter().any(|at| around.holds(Rect::around(*at, 0.0, 0.0)))
    }

    /// Whether the line from a label to a lane goes over no other lane's middle.
    fn leads_to(&self, from: At, to: At, i: usize) -> bool {
        self.drawn.iter().enumerate().all(|(j, drawn)| j == i || !drawn.line.meets(from, to))
    }

    /// How many centre lines of other lanes a box covers.
    fn covered(&self, i: usize, rect: &Rect) -> usize {
        let near = |drawn: &&DrawnLane| drawn.line.bounds().overlaps(&rect.grown(1.0));
        let others = self.drawn.iter().enumerate().filter(|(j, _)| *j != i).map(|(_, drawn)| drawn).filter(near);
        others.filter(|drawn| drawn.line.crosses(rect)).count()
    }

    /// A lane's number on its plate, with a line to the lane where the plate stands beside it.
    fn numbered(&self, drawn: &DrawnLane, plate: Rect) -> String {
        let mut out = String::new();
        if !drawn.line.crosses(&plate) {
            let to = drawn.line.at(0.5 * drawn.line.length()).0;
            out += &leader(plate.middle(), to, "#6b7076", self.text);
        }
        let kind = match drawn.lane.kind {
            LaneType::Driving => String::new(),
            other => format!(" <tspan font-weight=\"400\">{}</tspan>", escaped(other.name())),
        };
        let text = format!("<tspan font-weight=\"700\">{}</tspan>{kind}", drawn.lane.lane.0);
        out + &on_plate(plate, &text, "#6b7076", self.text)
    }
}

/// The gaps of a bar at the end of a lane that no lane follows.
pub fn broken(text: f64) -> String {
    format!(" stroke-dasharray=\"{} {}\"", number(0.3 * text), number(0.2 * text))
}

/// A thin line from a label to what it names.
pub fn leader(from: At, to: At, colour: &str, text: f64) -> String {
    format!(
        "<path d=\"{}\" stroke=\"{colour}\" stroke-width=\"{}\"/>\n",
        path([from, to].into_iter()),
        number(0.06 * text)
    )
}

/// A label: markup of a text in the middle of a white plate.
pub fn on_plate(plate: Rect, text: &str, colour: &str, size: f64) -> String {
    let [x, y] = plate.middle();
    format!(
        "<rect x=\"{}\" y=\"{}\" width=\"{}\" height=\"{}\" rx=\"{}\" fill=\"#ffffff\" stroke=\"{colour}\" stroke-width=\"{}\"/>\n\
         <text x=\"{}\" y=\"{}\" font-size=\"{}\" text-anchor=\"middle\" fill=\"#111111\">{text}</text>\n",
        number(plate.left),
        number(plate.top),
        number(plate.width()),
        number(plate.height()),
        number(0.25 * size),
        number(0.04 * size),
        number(x),
        number(y + 0.35 * size),
        number(size),
    )
}

impl<'a> DrawnLane<'a> {
    fn new(records: &[Record], lane: &'a Lane, frame: &Frame) -> DrawnLane<'a> {
        let line = Line::new(lane.points.iter().map(|p| frame.reach([p.x.into(), p.y.into()])).collect());
        let length = line.length();
        let exit = |at_last: bool| {
            let (at, way) = line.at(if at_last { length } else { 0.0 });
            let way = tangent(lane, at_last).unwrap_or(way);
            Exit { at, way, goes_on: goes_on(records, lane, at_last) }
        };
        let exits = match lane.direction {
            Direction::Forward => vec![exit(true)],
            Direction::Backward => vec![exit(false)],
            Direction::Both => vec![exit(true), exit(false)],
        };
        DrawnLane { lane, line, exits }
    }

    /// How wide the plate of its number is.
    fn number_width(&self, text: f64) -> f64 {
        let kind = match self.lane.kind {
            LaneType::Driving => String::new(),
            other => format!(" {}", other.name()),
        };
        text_width(&format!("{}{kind}", self.lane.lane.0), text) + 0.4 * text
    }

    /// Arrow heads along it in the way of the traffic, one at least, clear of the labels where that can be.
    fn arrows(&self, text: f64, labels: &Labels) -> String {
        let length = self.line.length();
        let size = (0.6 * text).min(0.7 * length);
        let count = (length / (7.0 * text)).round().max(1.0);
        let span = length / count;
        let mut out = String::new();
        for i in 0..count as usize {
            let spots = [0.75, 0.6, 0.85, 0.5, 0.4, 0.3, 0.2].map(|part| (i as f64 + part) * span);
            let clear = |along: &f64| labels.free(&Rect::around(self.line.at(*along).0, size, size));
            let along = spots.into_iter().find(clear).unwrap_or(spots[0]);
            let (at, way) = self.line.at(along);
            out += &match self.lane.direction {
                Direction::Forward => head(at, way, size),
                Direction::Backward => head(at, [-way[0], -way[1]], size),
                Direction::Both => both_heads(at, way, size),
            };
        }
        out
    }
}

/// An arrow head whose middle is here, pointing along the way.
pub fn head(at: At, way: At, size: f64) -> String {
    let place = |along: f64, side: f64| {
        let (along, side) = (along * size, side * size);
        [at[0] + along * way[0] - side * way[1], at[1] + along * way[1] + side * way[0]]
    };
    let corners = [place(0.5, 0.0), place(-0.5, 0.42), place(-0.3, 0.0), place(-0.5, -0.42)];
    format!("<path d=\"{}Z\"/>\n", path(corners.into_iter()))
}

/// Two arrow heads, one each way.
pub fn both_heads(at: At, way: At, size: f64) -> String {
    let beyond = |by: f64| [at[0] + by * way[0], at[1] + by * way[1]];
    head(beyond(0.6 * size), way, size) + &head(beyond(-0.6 * size), [-way[0], -way[1]], size)
}

/// The tangent that a lane has at its last or first point, of length 1 and with y downward; none where it has none.
fn tangent(lane: &Lane, at_last: bool) -> Option<At> {
    let tangent = lane.ends?[usize::from(at_last)];
    let [x, y] = [f64::from(tangent.x), -f64::from(tangent.y)];
    let length = (x * x + y * y).sqrt();
    (length > 0.0 && length.is_finite()).then(|| [x / length, y / length])
}

/// Whether a successor that is in the plan follows at the lane's last point, or at its first. The successors of a lane for both ways are those off
/// either end: each belongs to the end that it lies nearer to.
fn goes_on(records: &[Record], lane: &Lane, at_last: bool) -> bool {
    let successors = records.iter().filter_map(|record| match record {
        Record::Link(link) if link.from == lane.lane && link.role == Role::Successor => Some(link.to),
        _ => None,
    });
    let mut lines = successors.filter_map(|to| paper::lanes(records).find(|lane| lane.lane == to));
    let (first, last) = (lane.points[0], lane.points[lane.points.len() - 1]);
    let (exit, other) = if at_last { (last, first) } else { (first, last) };
    let away = |next: &Lane, p: Point| distance_to_line(&next.points, p);
    lines.any(|next| lane.direction != Direction::Both || away(next, exit) <= away(next, other))
}

#[cfg(test)]
mod tests {
    use super::{DrawnLane, Frame, Labels};
    use crate::draw::frame::Extent;
    use kartsodi::records::{Direction, Lane, LaneType, Link, Record, Role};
    use kartsodi::{LaneId, Point};

    const WAYS: [Direction; 3] = [Direction::Forward, Direction::Backward, Direction::Both];

    fn lane(number: usize, direction: Direction, from: f32, to: f32) -> Lane {
        let points = vec![Point { x: from, y: 0.0, z: 0.0 }, Point { x: to, y: 0.0, z: 0.0 }];
        Lane { lane: LaneId(number), kind: LaneType::Driving, direction, points, ends: None }
    }

    fn frame() -> Frame {
        Frame::around(Extent::of([[0.0, 0.0], [60.0, 0.0]].into_iter()).expect("points"), 1.75)
    }

    /// The x of the tip and of the back of each arrow head.
    fn heads(arrows: &str) -> Vec<(f64, f64)> {
        let x = |place: &str| place.trim_start_matches('M').split(' ').next().expect("x").parse().expect("a number");
        let paths = arrows.lines().map(|line| line.trim_start_matches("<path d=\"").trim_end_matches("Z\"/>"));
        let ends = paths.map(|path| (path.split('L').next().expect("a tip"), path.split('L').nth(1).expect("a back")));
        ends.map(|(tip, back)| (x(tip), x(back))).collect()
    }

    #[test]
    fn arrows_go_with_the_traffic() {
        let frame = frame();
        let labels = Labels::new(frame.area());
        for direction in WAYS {
            let lane = lane(1, direction, 0.0, 60.0);
            let heads = heads(&DrawnLane::new(&[], &lane, &frame).arrows(28.0, &labels));
            let east = heads.iter().filter(|(tip, back)| tip > back).count();
            match direction {
                Direction::Forward => assert!(!heads.is_empty() && east == heads.len()),
                Direction::Backward => assert!(!heads.is_empty() && east == 0),
                Direction::Both => assert!(east > 0 && 2 * east == heads.len()),
            }
        }
    }

    /// Lane 1 from x 0 to 30 has a successor, 2, beyond its last point, and a link to a lane that is not there.
    #[test]
    fn lanes_end_where_traffic_leaves_them() {
        let frame = frame();
        for direction in WAYS {
            let (first, next) = (lane(1, direction, 0.0, 30.0), lane(2, Direction::Forward, 30.0, 60.0));
            let link = |to| Record::Link(Link { from: LaneId(1), role: Role::Successor, to: LaneId(to) });
            let records = [Record::Lane(first.clone()), Record::Lane(next), link(2), link(9)];
            let drawn = DrawnLane::new(&records, &first, &frame);
            let exits: Vec<(bool, bool)> = drawn.exits.iter().map(|exit| (exit.at[0] > 400.0, exit.goes_on)).collect();
            match direction {
                Direction::Forward => assert_eq!(exits, [(true, true)]),
                Direction::Backward => assert_eq!(exits, [(false, true)]),
                Direction::Both => assert_eq!(exits, [(true, true), (false, false)]),
            }
        }
    }
}
