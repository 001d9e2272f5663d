//! Answers as `plan-run` prints them.

use crate::advance::Advance;
use crate::answer::{Advanced, Answer, Loaded, Originals, Room, Route};
use crate::coords::{Point, Vector};
use crate::road::LanePosition;

/// All that `plan-run` prints for a file.
pub fn run(file: &[u8]) -> String {
    run_with(file, Originals::Compared)
}

pub fn run_with(file: &[u8], originals: Originals) -> String {
    let loaded = Loaded::new(file);
    let mut text = String::new();
    plan_line(&mut text, &loaded);
    if let Ok(plan) = loaded.plan() {
        for query in &plan.queries {
            answer(&mut text, &loaded.answer_with(query, Room::PLAN_RUN, originals));
        }
    }
    text
}

/// `plan`, its number, lanes and links.
pub fn plan_line(text: &mut String, loaded: &Loaded) {
    let (number, lanes, links) = match loaded.plan() {
        Ok(plan) => (0, plan.lanes.len(), plan.links.len()),
        Err(number) => (number, 0, 0),
    };
    Line::new(text, "plan").number(number.into()).number(lanes).number(links).end();
}

pub fn answer(text: &mut String, answer: &Answer) {
    match answer {
        Answer::Nearest(Ok((lane, at))) => {
            let line = Line::new(text, "nearest").number(0).number(lane.0);
            line.single(at.s).point(at.point).single(at.offset).end();
        }
        Answer::Nearest(Err(number)) => {
            let line = Line::new(text, "nearest").number((*number).into()).number(0);
            line.single(0.0).point(Point::ORIGIN).single(0.0).end();
        }
        Answer::Pose(Ok(pose)) => {
            Line::new(text, "pose").number(0).point(pose.position).vector(pose.heading).end();
        }
        Answer::Pose(Err(number)) => {
            let line = Line::new(text, "pose").number((*number).into());
            line.point(Point::ORIGIN).vector(Vector::ZERO).end();
        }
        Answer::Route(Ok(found)) => route(text, found),
        Answer::Route(Err(number)) => {
            Line::new(text, "route").number((*number).into()).number(0).number(0).single(0.0).end();
        }
        Answer::Advance(Ok(found)) => advanced(text, found),
        Answer::Advance(Err(number)) => Line::new(text, "advance").number((*number).into()).number(0).number(0).end(),
        Answer::Beside(Ok(at)) => {
            Line::new(text, "beside").number(0).end();
            Line::new(text, "at").position(at).end();
        }
        Answer::Beside(Err(number)) => {
            Line::new(text, "beside").number((*number).into()).end();
            Line::new(text, "at").number(0).double(0.0).double(0.0).end();
        }
    }
}

fn route(text: &mut String, route: &Route) {
    let line = Line::new(text, "route").number(0).number(route.chain.len());
    line.number(route.points.len()).single(route.length).end();
    for lane in &route.chain {
        Line::new(text, "lane").number(lane.0).end();
    }
    for &point in &route.points {
        Line::new(text, "point").point(point).end();
    }
}

fn advanced(text: &mut String, advanced: &Advanced) {
    Line::new(text, "advance").number(0).number(advanced.keys).number(advanced.positions.len()).end();
    for end in &advanced.positions {
        match end {
            Advance::Reached(at) => Line::new(text, "at").position(at).end(),
            Advance::DeadEnd { at, short } => Line::new(text, "end").position(at).double(*short).end(),
        }
    }
}

/// A line: a word, then fields behind one blank each.
struct Line<'a>(&'a mut String);

impl<'a> Line<'a> {
    fn new(text: &'a mut String, word: &str) -> Self {
        text.push_str(word);
        Self(text)
    }

    fn number(self, number: usize) -> Self {
        self.0.push(' ');
        self.0.push_str(&number.to_string());
        self
    }

    /// The capital hexadecimal digits of a float's bits. All NaNs are printed as one.
    fn single(self, x: f32) -> Self {
        let bits = if x.is_nan() { 0x7FC0_0000 } else { x.to_bits() };
        self.digits(bits.into(), 8)
    }

    fn double(self, x: f64) -> Self {
        let bits = if x.is_nan() { 0x7FF8_0000_0000_0000 } else { x.to_bits() };
        self.digits(bits, 16)
    }

    fn digits(self, bits: u64, count: u32) -> Self {
        self.0.push(' ');
        for place in (0..count).rev() {
            let digit = (bits >> (4 * place)) as usize & 15;
            self.0.push(char::from(b"0123456789ABCDEF"[digit]));
        }
        self
    }

    fn point(self, p: Point) -> Self {
        self.single(p.x).single(p.y).single(p.z)
    }

    fn vector(self, v: Vector) -> Self {
        self.single(v.x).single(v.y).single(v.z)
    }

    fn position(self, at: &LanePosition) -> Self {
        self.number(at.lane.0).double(at.s).double(at.offset)
    }

    fn end(self) {
        self.0.push('\n');
    }
}
