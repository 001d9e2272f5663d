//! The questions and answers of a plan: routes with their points, positions, dead ends, the lane beside. Each mark has the number of its question.

use crate::draw::frame::{At, Frame};
use crate::draw::labels::{text_width, Labels, Rect};
use crate::draw::lanes::{head, leader, on_plate, Lanes, Number, MARK};
use crate::draw::line::{distance, path};
use crate::geometry;
use crate::markup::{escaped, number};
use crate::paper::{Answered, Paper, Snap};
use kartsodi::{Advance, LanePosition, Moved, Point, Refusal, Route};

/// The colours and dashes of questions, in turn. All colours are dark enough to be seen on every lane, in grey too.
const COLOURS: [&str; 6] = ["#0b5cad", "#b03a00", "#00694d", "#8a2d79", "#7a5200", "#33424f"];
const DASHES: [&[f64]; 4] = [&[], &[0.9, 0.3], &[0.25, 0.25], &[0.9, 0.25, 0.2, 0.25]];

/// More labels than this cannot be read, and are left out.
const MOST_LABELS: usize = 400;

/// What a mark says.
#[derive(Clone, Copy, PartialEq)]
pub enum Shape {
    /// Where a question starts: a ring.
    Asked,
    /// An answer: a disc.
    Answer,
    /// Where a branch runs out of lanes: a square.
    DeadEnd,
    /// A point as it was asked for, off the lane that it is taken to: a cross.
    Off,
}

struct Mark {
    at: At,
    shape: Shape,
    label: String,
    colour: &'static str,
}

/// What is drawn of some questions: lines below the lane numbers, marks and their labels above them.
pub struct Drawn {
    pub lines: String,
    pub marks: String,
    /// The shapes that were used, for the legend.
    pub shapes: Vec<Shape>,
    /// Whether a route was drawn.
    pub routes: bool,
    /// The box around all of it; none where nothing was drawn.
    pub bounds: Option<Rect>,
}

/// What draws the questions of a paper.
pub struct Pen<'a> {
    paper: &'a Paper,
    frame: &'a Frame,
    lanes: &'a Lanes<'a>,
    /// How high the text of a label is.
    text: f64,
    marks: Vec<Mark>,
    lines: String,
    routes: bool,
    bounds: Option<Rect>,
}

impl<'a> Pen<'a> {
    fn new(
        paper: &'a Paper,
        frame: &'a Frame,
        lanes: &'a Lanes<'a>,
        questions: impl Iterator<Item = usize>,
    ) -> Pen<'a> {
        let (marks, lines) = (Vec::new(), String::new());
        let mut pen = Pen { paper, frame, lanes, text: lanes.text, marks, lines, routes: false, bounds: None };
        questions.for_each(|i| pen.question(i));
        pen
    }

    /// Where the marks of all questions are.
    pub fn marked(paper: &Paper, frame: &Frame, lanes: &Lanes) -> Vec<At> {
        let pen = Pen::new(paper, frame, lanes, 0..paper.answers.len());
        pen.marks.iter().map(|mark| mark.at).collect()
    }

    /// Draws some questions, given by their places in the paper, among the lane numbers.
    pub fn draw(
        paper: &Paper,
        frame: &Frame,
        lanes: &Lanes,
        mut labels: Labels,
        numbers: &[Number],
        questions: impl Iterator<Item = usize>,
    ) -> Drawn {
        let mut pen = Pen::new(paper, frame, lanes, questions);
        let numbers: Vec<Rect> = numbers.iter().map(|number| number.plate).collect();
        let (leaders, marks) = pen.labelled(&mut labels, &numbers);
        let shapes = pen.marks.iter().map(|mark| mark.shape).collect();
        Drawn { lines: pen.lines + &leaders, marks, shapes, routes: pen.routes, bounds: pen.bounds }
    }

    /// Makes the box around what is drawn hold this one too.
    fn reach(&mut self, rect: Rect) {
        self.bounds = Some(self.bounds.map_or(rect, |bounds| bounds.with(&rect)));
    }

    fn question(&mut self, i: usize) {
        match &self.paper.answers[i] {
            Answered::Route { query, from, to, answer } => {
                self.end_of_route(i, query.from, from.as_ref(), "from", Shape::Asked);
                self.end_of_route(i, query.to, to.as_ref(), "to", Shape::Answer);
                self.route(i, answer);
            }
            Answered::Advance { query, answer } => self.advance(i, query.from, answer),
            Answered::Beside { query, answer } => {
                self.beside(i, LanePosition { lane: query.lane, s: query.s, offset: 0.0 }, query.side.name(), answer)
            }
        }
    }

    fn mark(&mut self, i: usize, at: At, shape: Shape, label: String) {
        self.reach(Rect::around(at, self.text, self.text));
        self.marks.push(Mark { at, shape, label, colour: colour(i) });
    }

    /// The start or the goal of a route: where the library takes the point to, and a cross at the point itself where that is another place.
    fn end_of_route(&mut self, i: usize, point: Point, snap: Option<&Snap>, word: &str, shape: Shape) {
        let label = format!("{} {word}", i + 1);
        let asked = self.frame.at(seen(point));
        let taken = snap.and_then(|snap| self.frame.at(seen(snap.nearest.projection.point)));
        match (asked, taken) {
            (Some(asked), Some(taken)) if distance(asked, taken) > 0.2 * self.text => {
                self.stroke(i, &[asked, taken], 0.08, &[0.15, 0.15]);
                self.mark(i, asked, Shape::Off, String::new());
                self.mark(i, taken, shape, label);
            }
            (_, Some(taken)) => self.mark(i, taken, shape, label),
            (Some(asked), None) => self.mark(i, asked, Shape::Off, label),
            (None, None) => {}
        }
    }

    fn route(&mut self, i: usize, answer: &Result<Route, Refusal>) {
        let Ok(route) = answer else { return };
        let places: Vec<At> = route.points.iter().filter_map(|p| self.frame.at(seen(*p))).collect();
        if places.is_empty() {
            return;
        }
        self.routes = true;
        self.stroke(i, &places, 0.14, DASHES[i % DASHES.len()]);
        let gaps = places.windows(2).map(|ends| distance(ends[0], ends[1])).filter(|gap| *gap > 0.0);
        let dot = (0.5 * gaps.fold(0.6 * self.text, f64::min)).clamp(0.05 * self.text, 0.28 * self.text);
        let dots: String = places.iter().map(|[x, y]| format!("M{} {}h0", number(*x), number(*y))).collect();
        self.lines += &format!(
            "<path d=\"{dots}\" fill=\"none\" stroke=\"{}\" stroke-width=\"{}\" stroke-linecap=\"round\"/>\n",
            colour(i),
            number(dot)
        );
    }

    /// The position that an advance or a lane beside is asked from; none where it is on no lane.
    fn asked_from<T>(&mut self, i: usize, from: LanePosition, answer: &Result<T, Refusal>) -> Option<At> {
        if matches!(answer, Err(Refusal::NotOnALane)) {
            return None;
        }
        let at = self.position(from)?;
        self.mark(i, at, Shape::Asked, format!("{} from", i + 1));
        Some(at)
    }

    fn advance(&mut self, i: usize, from: LanePosition, answer: &Result<Moved, Refusal>) {
        self.asked_from(i, from, answer);
        let Ok(moved) = answer else { return };
        for (branch, end) in moved.positions.iter().enumerate() {
            let (position, shape) = match end {
                Advance::Reached(at) => (*at, Shape::Answer),
                Advance::DeadEnd { at, .. } => (*at, Shape::DeadEnd),
            };
            if let Some(at) = self.position(position) {
                self.mark(i, at, shape, format!("{}.{}", i + 1, branch + 1));
            }
        }
    }

    fn beside(&mut self, i: usize, from: LanePosition, side: &str, answer: &Result<LanePosition, Refusal>) {
        let Some(start) = self.asked_from(i, from, answer) else { return };
        let Some(end) = answer.as_ref().ok().and_then(|at| self.position(*at)) else { return };
        self.stroke(i, &[start, end], 0.1, &[]);
        self.mark(i, end, Shape::Answer, format!("{} {side}", i + 1));
        let length = distance(start, end);
        if length > self.text {
            let way = [(end[0] - start[0]) / length, (end[1] - start[1]) / length];
            let back = 0.6 * self.text;
            let tip = head([end[0] - back * way[0], end[1] - back * way[1]], way, 0.5 * self.text);
            self.lines += &format!("<g fill=\"{}\">\n{tip}</g>\n", colour(i));
        }
    }

    /// The place of a position by lane; none where the lane has no place, or it lies outside the drawing.
    fn position(&self, at: LanePosition) -> Option<At> {
        let (place, _) = geometry::position(&self.paper.records, at)?;
        self.frame.at([place[0], place[1]])
    }

    fn stroke(&mut self, i: usize, places: &[At], width: f64, dashes: &[f64]) {
        places.iter().for_each(|at| self.reach(Rect::around(*at, self.text, self.text)));
        let dashes: Vec<String> = dashes.iter().map(|part| number(part * self.text)).collect();
        let broken =
            if dashes.is_empty() { String::new() } else { format!(" stroke-dasharray=\"{}\"", dashes.join(" ")) };
        self.lines += &format!(
            "<path d=\"{}\" fill=\"none\" stroke=\"{}\" stroke-width=\"{}\" stroke-linejoin=\"round\"{broken}/>\n",
            path(places.iter().copied()),
            colour(i),
            number(width * self.text)
        );
    }

    /// Each label beside its mark where there is room: the lines to them, which go below the lane numbers, and the marks and labels themselves.
    fn labelled(&mut self, labels: &mut Labels, numbers: &[Rect]) -> (String, String) {
        let size = label_size(self.text);
        self.marks.iter().for_each(|mark| labels.take(Rect::around(mark.at, 0.5 * size, 0.5 * size)));
        let (mut leaders, mut shapes, mut plates) = (String::new(), String::new(), String::new());
        let mut taken = Vec::new();
        for (i, mark) in self.marks.iter().enumerate() {
            shapes += &shape(mark.shape, mark.at, mark.colour, self.text);
            if mark.label.is_empty() || i >= MOST_LABELS {
                continue;
            }
            let room = [text_width(&mark.label, size) + 0.4 * size, 1.2 * size];
            let leads_to = |rect: &Rect| self.leads_to(rect, mark);
            // The line to it goes under no lane number.
            let seen =
                |rect: &Rect| leads_to(rect) && !numbers.iter().any(|plate| plate.crossed(rect.middle(), mark.at));
            // On a lane, it covers the line of no other label where that can be.
            let bares = |rect: &Rect| !taken.iter().any(|(plate, at): &(Rect, At)| rect.crossed(plate.middle(), *at));
            let plate = labels.beside(mark.at, room, 12, |rect| self.lanes.off_lanes(rect) && seen(rect));
            let plate = plate.or_else(|| labels.beside(mark.at, room, 12, |rect| seen(rect) && bares(rect)));
            let plate = plate.or_else(|| labels.beside(mark.at, room, 12, seen));
            let plate = plate.or_else(|| labels.beside(mark.at, room, 12, leads_to));
            if let Some(plate) = plate.or_else(|| labels.beside(mark.at, room, 24, |_| true)) {
                leaders += &leader(plate.middle(), mark.at, mark.colour, self.text);
                plates += &on_plate(plate, &escaped(&mark.label), mark.colour, size);
                taken.push((plate, mark.at));
            }
        }
        taken.into_iter().for_each(|(plate, _)| self.reach(plate));
        (leaders, shapes + &plates)
    }

    /// Whether the line from a label here to its mark goes through no other mark, which it would seem to name.
    fn leads_to(&self, plate: &Rect, mark: &Mark) -> bool {
        let size = 2.0 * MARK * self.text;
        let mut others = self.marks.iter().filter(|other| distance(other.at, mark.at) > 0.5 * size);
        !others.any(|other| Rect::around(other.at, size, size).crossed(plate.middle(), mark.at))
    }
}

/// How high the text of a question's label is, where that of a lane number is this high.
pub fn label_size(text: f64) -> f64 {
    0.9 * text
}

/// A point seen from above.
fn seen(p: Point) -> [f64; 2] {
    [p.x.into(), p.y.into()]
}

fn colour(i: usize) -> &'static str {
    COLOURS[i % COLOURS.len()]
}

/// A mark of this shape here.
pub fn shape(shape: Shape, at: At, colour: &str, text: f64) -> String {
    let [x, y] = at.map(number);
    let r = 0.26 * text;
    let width = number(0.1 * text);
    let corner = |dx: f64, dy: f64| [at[0] + dx * r, at[1] + dy * r];
    match shape {
        Shape::Asked => {
            format!("<circle cx=\"{x}\" cy=\"{y}\" r=\"{}\" fill=\"#ffffff\" stroke=\"{colour}\" stroke-width=\"{width}\"/>\n", number(r))
        }
        Shape::Answer => {
            format!("<circle cx=\"{x}\" cy=\"{y}\" r=\"{}\" fill=\"{colour}\" stroke=\"#ffffff\" stroke-width=\"{width}\"/>\n", number(r))
        }
        Shape::DeadEnd => {
            let square = path([corner(-1.0, -1.0), corner(1.0, -1.0), corner(1.0, 1.0), corner(-1.0, 1.0)].into_iter());
            format!("<path d=\"{square}Z\" fill=\"{colour}\" stroke=\"#ffffff\" stroke-width=\"{width}\"/>\n")
        }
        Shape::Off => {
            let cross = [[corner(-1.0, -1.0), corner(1.0, 1.0)], [corner(-1.0, 1.0), corner(1.0, -1.0)]];
            let cross: String = cross.into_iter().map(|line| path(line.into_iter())).collect();
            format!("<path d=\"{cross}\" stroke=\"{colour}\" stroke-width=\"{width}\"/>\n")
        }
    }
}
