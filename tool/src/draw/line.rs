//! A lane's centre line in a drawing.

use crate::draw::frame::At;
use crate::draw::labels::Rect;
use crate::markup::number;

/// Two places or more, joined by straight pieces.
pub struct Line {
    places: Vec<At>,
    /// The way along it to each place.
    along: Vec<f64>,
}

impl Line {
    pub fn new(places: Vec<At>) -> Line {
        let mut way = 0.0;
        let mut along = vec![0.0];
        for ends in places.windows(2) {
            way += distance(ends[0], ends[1]);
            along.push(way);
        }
        Line { places, along }
    }

    pub fn length(&self) -> f64 {
        self.along[self.along.len() - 1]
    }

    pub fn first(&self) -> At {
        self.places[0]
    }

    /// The place this far along, and the way the line goes there, of length 1. A line without length goes to the right.
    pub fn at(&self, along: f64) -> (At, At) {
        let after = self.along.partition_point(|here| *here <= along).clamp(1, self.places.len() - 1);
        // The piece with a length that is nearest before, or else behind.
        let pieces = (1..=after).rev().chain(after + 1..self.places.len());
        let Some(end) = pieces.into_iter().find(|end| self.along[*end] > self.along[end - 1]) else {
            return (self.first(), [1.0, 0.0]);
        };
        let (a, b) = (self.places[end - 1], self.places[end]);
        let part = ((along - self.along[end - 1]) / (self.along[end] - self.along[end - 1])).clamp(0.0, 1.0);
        let length = distance(a, b);
        let way = [b[0] - a[0], b[1] - a[1]];
        ([a[0] + part * way[0], a[1] + part * way[1]], [way[0] / length, way[1] / length])
    }

    /// Whether it goes through a box.
    pub fn crosses(&self, rect: &Rect) -> bool {
        self.places.windows(2).any(|ends| rect.crossed(ends[0], ends[1]))
    }

    /// Whether a straight line from one place to another crosses it.
    pub fn meets(&self, a: At, b: At) -> bool {
        // On which side of the line from p to q a place lies.
        let side = |p: At, q: At, r: At| (q[0] - p[0]) * (r[1] - p[1]) - (q[1] - p[1]) * (r[0] - p[0]);
        let parted = |p: At, q: At, r: At, s: At| side(p, q, r) * side(p, q, s) < 0.0;
        self.places.windows(2).any(|ends| parted(a, b, ends[0], ends[1]) && parted(ends[0], ends[1], a, b))
    }

    /// The box around it.
    pub fn bounds(&self) -> Rect {
        let [x, y] = self.first();
        self.places.iter().fold(Rect { left: x, top: y, right: x, bottom: y }, |rect, [x, y]| Rect {
            left: rect.left.min(*x),
            top: rect.top.min(*y),
            right: rect.right.max(*x),
            bottom: rect.bottom.max(*y),
        })
    }

    /// It as the data of a path. A line without length gets a little, so that it can be seen.
    pub fn path(&self) -> String {
        let [x, y] = self.first();
        match self.length() < 1.0 {
            true => path([[x - 1.0, y], [x + 1.0, y]].into_iter()),
            false => path(self.places.iter().copied()),
        }
    }
}

/// Places joined, as the data of a path.
pub fn path(places: impl Iterator<Item = At>) -> String {
    let places: Vec<String> = places.map(|[x, y]| format!("{} {}", number(x), number(y))).collect();
    format!("M{}", places.join("L"))
}

pub fn distance(a: At, b: At) -> f64 {
    let (x, y) = (b[0] - a[0], b[1] - a[1]);
    (x * x + y * y).sqrt()
}

#[cfg(test)]
mod tests {
    use super::Line;

    #[test]
    fn places_along_a_line() {
        let line = Line::new(vec![[0.0, 0.0], [0.0, 0.0], [3.0, 0.0], [3.0, 4.0], [3.0, 4.0]]);
        assert_eq!(line.length(), 7.0);
        assert_eq!(line.at(-1.0), ([0.0, 0.0], [1.0, 0.0]));
        assert_eq!(line.at(1.5), ([1.5, 0.0], [1.0, 0.0]));
        assert_eq!(line.at(5.0), ([3.0, 2.0], [0.0, 1.0]));
        assert_eq!(line.at(9.0), ([3.0, 4.0], [0.0, 1.0]));
        assert_eq!(line.path(), "M0 0L0 0L3 0L3 4L3 4");
    }

    #[test]
    fn lines_that_cross() {
        let line = Line::new(vec![[0.0, 0.0], [3.0, 0.0], [3.0, 4.0]]);
        let pairs =
            [([1.0, -1.0], [1.0, 1.0]), ([2.0, 2.0], [4.0, 2.0]), ([1.0, 1.0], [2.0, 2.0]), ([4.0, 0.0], [9.0, 0.0])];
        assert_eq!(pairs.map(|(a, b)| line.meets(a, b)), [true, true, false, false]);
    }

    #[test]
    fn a_line_without_length() {
        let line = Line::new(vec![[2.0, 2.0], [2.0, 2.0]]);
        assert_eq!(line.at(0.0), ([2.0, 2.0], [1.0, 0.0]));
        assert_eq!(line.path(), "M1 2L3 2");
    }
}
