//! `kartsodi draw`: a plan as a picture, seen from above with the north up. The same plan gives the same bytes: only sums, products, quotients and
//! square roots go into a place, and a place has two decimals.

mod frame;
mod labels;
mod lanes;
mod legend;
mod line;
mod marks;
mod style;

pub use labels::Rect;
pub use legend::{Entry, SIGN};

use crate::geometry;
use crate::markup::{escaped, number};
use crate::paper::{self, Answered, Paper};
use frame::{Extent, Frame, WIDTH};
use kartsodi::{Advance, LanePosition, Point};
use labels::Labels;
use lanes::{Lanes, Number, LANE_WIDTH};
use marks::{Drawn, Pen};

/// The plan as an SVG document: its lanes by type with numbers and arrows, stop lines at lane ends, routes and positions.
pub fn svg(paper: &Paper) -> String {
    match Drawing::new(paper) {
        Some(drawing) => drawing.document(),
        None => document(
            100.0,
            "<text x=\"500\" y=\"58\" font-size=\"28\" text-anchor=\"middle\">a plan without lanes</text>\n",
        ),
    }
}

/// What of a drawing shows one question.
pub struct Part {
    /// The part of the drawing to be seen.
    pub view: Rect,
    /// Whether its labels would be small where it has little more than half the width of a page.
    pub wide: bool,
    /// What goes between ground and lane numbers.
    pub lines: String,
    /// The lanes whose numbers can be seen whole: a part of one would look like another.
    pub numbered: Vec<usize>,
    /// What goes above them.
    pub marks: String,
}

/// Labels lower than this part of their picture's width are small: where it is 97 mm wide on paper, those of less than 7.3 points.
const SMALL_LABEL: f64 = 0.0265;

/// A plan with lanes, ready to be drawn, whole or question by question.
pub struct Drawing<'a> {
    paper: &'a Paper,
    frame: Frame,
    lanes: Lanes<'a>,
    /// What the lane numbers and the lane ends take.
    labels: Labels,
    /// Edges, surfaces, arrows, lane ends.
    pub ground: String,
    /// The lane numbers, which go above the routes.
    pub numbers: Vec<Number>,
    /// The lanes for whose numbers there is no room.
    pub unnumbered: Vec<usize>,
}

impl<'a> Drawing<'a> {
    /// None where the plan has no lanes.
    pub fn new(paper: &'a Paper) -> Option<Drawing<'a>> {
        let points = paper::lanes(&paper.records).flat_map(|lane| &lane.points);
        let extent = Extent::of(points.map(|p| [p.x.into(), p.y.into()]))?;
        let frame = Frame::around(extent.with_near(asked(paper).into_iter()), 0.5 * LANE_WIDTH);
        let lanes = Lanes::new(&paper.records, &frame);
        let mut labels = Labels::new(frame.area());
        let marked = Pen::marked(paper, &frame, &lanes);
        let (numbers, unnumbered) = lanes.numbers(&mut labels, &marked);
        let mut arrows = labels.clone();
        marked.iter().for_each(|at| arrows.take(Rect::around(*at, lanes.text, lanes.text)));
        let ground = lanes.ground(&arrows);
        lanes.keep_clear(&mut labels);
        Some(Drawing { paper, frame, lanes, labels, ground, numbers, unnumbered })
    }

    /// The whole drawing without scale and legend.
    pub fn area(&self) -> Rect {
        self.frame.area()
    }

    /// Some of the questions, given by their places in the paper.
    fn drawn(&self, questions: impl Iterator<Item = usize>) -> Drawn {
        Pen::draw(self.paper, &self.frame, &self.lanes, self.labels.clone(), &self.numbers, questions)
    }

    /// One question; none where nothing of it can be seen.
    pub fn question(&self, i: usize) -> Option<Part> {
        let drawn = self.drawn(std::iter::once(i));
        let plates = || self.numbers.iter().map(|number| number.plate.grown(1.0));
        let narrow = self.view(drawn.bounds?.grown(1.5 * self.lanes.text));
        let cut = plates().filter(|plate| plate.overlaps(&narrow) && !narrow.holds(*plate));
        let view = self.view(cut.fold(narrow, |view, plate| view.with(&plate)));
        let whole = self.numbers.iter().zip(plates()).filter(|(_, plate)| view.holds(*plate));
        let numbered = whole.map(|(number, _)| number.lane).collect();
        let wide = marks::label_size(self.lanes.text) < SMALL_LABEL * view.width();
        Some(Part { view, wide, lines: drawn.lines, numbered, marks: drawn.marks })
    }

    /// The part of the drawing around a box: not too small, so that one sees where it is, and wider than high.
    fn view(&self, bounds: Rect) -> Rect {
        let area = self.frame.area();
        let width = bounds.width().max(bounds.height() / 0.75).clamp(0.5 * WIDTH, WIDTH);
        let height = bounds.height().max(0.5 * width).min(area.height());
        let [x, y] = bounds.middle();
        let left = (x - 0.5 * width).clamp(0.0, WIDTH - width);
        let top = (y - 0.5 * height).clamp(0.0, area.height() - height);
        Rect { left, top, right: left + width, bottom: top + height }
    }

    /// What the signs of lanes and questions mean.
    pub fn legend(&self) -> Vec<Entry> {
        legend::entries(&self.lanes, &self.drawn(0..self.paper.answers.len()))
    }

    /// The scale and the north from a height on, and the height that they take.
    pub fn scale(&self, top: f64) -> (String, f64) {
        legend::scale(&self.frame, top)
    }

    fn document(&self) -> String {
        let drawn = self.drawn(0..self.paper.answers.len());
        let (scale, scale_height) = self.scale(self.frame.height);
        let (rows, rows_height) = legend::rows(&legend::entries(&self.lanes, &drawn), self.frame.height + scale_height);
        let numbers: String = self.numbers.iter().map(|number| number.markup.as_str()).collect();
        let body = format!("{}{}{numbers}{}{scale}{rows}", self.ground, drawn.lines, drawn.marks);
        let mut height = self.frame.height + scale_height + rows_height;
        let left_out = match self.left_out() {
            None => String::new(),
            Some(words) => {
                height += 40.0;
                format!("<text x=\"60\" y=\"{}\" font-size=\"22\">{}</text>\n", number(height - 24.0), escaped(&words))
            }
        };
        document(height, &format!("{body}{left_out}"))
    }

    /// What to say where some lanes have no number.
    pub fn left_out(&self) -> Option<String> {
        match self.unnumbered.as_slice() {
            [] => None,
            [one] => Some(format!("There is no room for the number of lane {one}.")),
            many => Some(format!("There is no room for the numbers of {} lanes.", many.len())),
        }
    }
}

/// The fonts of every text: of the same widths, or nearly.
pub const FONTS: &str = "Helvetica, Arial, Liberation Sans, DejaVu Sans, sans-serif";

fn document(height: f64, body: &str) -> String {
    let height = number(height);
    format!(
        "<svg xmlns=\"http://www.w3.org/2000/svg\" viewBox=\"0 0 1000 {height}\" width=\"1000\" height=\"{height}\" \
         font-family=\"{FONTS}\" role=\"img\">\n<title>Junction plan</title>\n\
         <rect width=\"1000\" height=\"{height}\" fill=\"#ffffff\"/>\n{body}</svg>\n"
    )
}

/// The points that questions and answers speak of, in metres: finite ones only.
fn asked(paper: &Paper) -> Vec<[f64; 2]> {
    let above = |p: &Point| [p.x.into(), p.y.into()];
    let place = |at: LanePosition| geometry::position(&paper.records, at).map(|(place, _)| [place[0], place[1]]);
    let points = paper.answers.iter().flat_map(|answered| match answered {
        Answered::Route { query, .. } => vec![above(&query.from), above(&query.to)],
        Answered::Advance { query, answer } => {
            let ends = answer.iter().flat_map(|moved| &moved.positions).map(|end| match end {
                Advance::Reached(at) | Advance::DeadEnd { at, .. } => *at,
            });
            std::iter::once(query.from).chain(ends).filter_map(place).collect()
        }
        Answered::Beside { .. } => Vec::new(),
    });
    points.filter(|p| p.iter().all(|x| x.is_finite())).collect()
}
