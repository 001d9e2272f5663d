//! Labels that do not overlap: each takes a box of the drawing, and a later one finds a place that is still free.

use crate::draw::frame::At;

/// An upright box.
#[derive(Debug, Clone, Copy, PartialEq)]
pub struct Rect {
    pub left: f64,
    pub top: f64,
    pub right: f64,
    pub bottom: f64,
}

impl Rect {
    /// The box of this size with its middle here.
    pub fn around(at: At, width: f64, height: f64) -> Rect {
        let (w, h) = (0.5 * width, 0.5 * height);
        Rect { left: at[0] - w, top: at[1] - h, right: at[0] + w, bottom: at[1] + h }
    }

    pub fn middle(&self) -> At {
        [0.5 * (self.left + self.right), 0.5 * (self.top + self.bottom)]
    }

    pub fn width(&self) -> f64 {
        self.right - self.left
    }

    pub fn height(&self) -> f64 {
        self.bottom - self.top
    }

    /// Larger by this much on each side.
    pub fn grown(&self, by: f64) -> Rect {
        Rect { left: self.left - by, top: self.top - by, right: self.right + by, bottom: self.bottom + by }
    }

    /// The box around both.
    pub fn with(&self, other: &Rect) -> Rect {
        Rect {
            left: self.left.min(other.left),
            top: self.top.min(other.top),
            right: self.right.max(other.right),
            bottom: self.bottom.max(other.bottom),
        }
    }

    pub fn overlaps(&self, other: &Rect) -> bool {
        self.left < other.right && other.left < self.right && self.top < other.bottom && other.top < self.bottom
    }

    /// Whether the other lies wholly inside; false where it has a NaN.
    pub fn holds(&self, other: Rect) -> bool {
        self.left <= other.left && other.right <= self.right && self.top <= other.top && other.bottom <= self.bottom
    }

    /// Whether a straight line from one place to another goes through it.
    pub fn crossed(&self, a: At, b: At) -> bool {
        let way = [b[0] - a[0], b[1] - a[1]];
        let sides = [(self.left, self.right), (self.top, self.bottom)];
        let (mut enters, mut leaves) = (0.0f64, 1.0f64);
        for (axis, (least, most)) in sides.into_iter().enumerate() {
            if way[axis] == 0.0 {
                if a[axis] < least || a[axis] > most {
                    return false;
                }
                continue;
            }
            let (s, t) = ((least - a[axis]) / way[axis], (most - a[axis]) / way[axis]);
            enters = enters.max(s.min(t));
            leaves = leaves.min(s.max(t));
        }
        enters <= leaves
    }
}

/// What stays free between two labels.
const GAP: f64 = 1.5;

/// What of a drawing is taken.
#[derive(Clone)]
pub struct Labels {
    area: Rect,
    taken: Vec<Rect>,
}

/// Sixteen ways from a place, those to the sides and the corners first.
const WAYS: [At; 16] = [
    [1.0, 0.0],
    [-1.0, 0.0],
    [0.0, -1.0],
    [0.0, 1.0],
    [0.71, -0.71],
    [-0.71, -0.71],
    [0.71, 0.71],
    [-0.71, 0.71],
    [0.92, -0.38],
    [-0.92, -0.38],
    [0.92, 0.38],
    [-0.92, 0.38],
    [0.38, -0.92],
    [-0.38, -0.92],
    [0.38, 0.92],
    [-0.38, 0.92],
];

impl Labels {
    pub fn new(area: Rect) -> Labels {
        Labels { area, taken: Vec::new() }
    }

    /// Whether a box lies in the drawing and overlaps nothing that is taken, nor touches it.
    pub fn free(&self, rect: &Rect) -> bool {
        let around = rect.grown(GAP);
        self.area.holds(*rect) && !self.taken.iter().any(|other| other.overlaps(&around))
    }

    pub fn take(&mut self, rect: Rect) {
        self.taken.push(rect);
    }

    /// The free box of this size that is nearest to a place, does not cover it and is as wanted, at most `reach` rings away; it is taken.
    pub fn beside(&mut self, at: At, size: [f64; 2], reach: usize, wanted: impl Fn(&Rect) -> bool) -> Option<Rect> {
        let [width, height] = size;
        let boxes = (0..reach).flat_map(|ring| {
            let gap = 0.45 * height + 0.5 * height * ring as f64;
            let away = [0.5 * width + gap, 0.5 * height + gap];
            WAYS.map(|way| Rect::around([at[0] + way[0] * away[0], at[1] + way[1] * away[1]], width, height))
        });
        let found = boxes.into_iter().find(|rect| self.free(rect) && wanted(rect))?;
        self.take(found);
        Some(found)
    }
}

/// How wide a text is at this size, at most, in the usual fonts without serifs.
pub fn text_width(text: &str, size: f64) -> f64 {
    let ems: f64 = text.chars().map(char_width).sum();
    ems * size
}

fn char_width(c: char) -> f64 {
    match c {
        ' ' | '.' | ',' | ':' | ';' | '\'' | 'i' | 'j' | 'l' | 'I' | '|' => 0.34,
        'f' | 'r' | 't' | '(' | ')' | '-' | '/' => 0.42,
        'm' | 'w' | 'M' | 'W' => 0.95,
        'A'..='Z' => 0.74,
        // Bold digits of DejaVu, the widest of the fonts.
        '0'..='9' => 0.7,
        'a'..='z' => 0.62,
        _ => 1.0,
    }
}

#[cfg(test)]
mod tests {
    use super::{Labels, Rect};

    const AREA: Rect = Rect { left: 0.0, top: 0.0, right: 100.0, bottom: 100.0 };

    #[test]
    fn boxes_that_touch_do_not_overlap() {
        let one = Rect::around([10.0, 10.0], 10.0, 10.0);
        assert!(!one.overlaps(&Rect::around([20.0, 10.0], 10.0, 10.0)));
        assert!(one.overlaps(&Rect::around([19.0, 19.0], 10.0, 10.0)));
    }

    #[test]
    fn a_line_through_a_box() {
        let one = Rect::around([50.0, 50.0], 20.0, 20.0);
        for (a, b, crossed) in [
            ([0.0, 50.0], [100.0, 50.0], true),
            ([0.0, 50.0], [30.0, 50.0], false),
            ([50.0, 50.0], [50.0, 50.0], true),
            ([0.0, 0.0], [0.0, 0.0], false),
            ([20.0, 50.0], [50.0, 80.0], false),
            ([35.0, 50.0], [50.0, 65.0], true),
        ] {
            assert_eq!(one.crossed(a, b), crossed, "{a:?} {b:?}");
        }
    }

    #[test]
    fn labels_take_places_until_none_is_free() {
        let mut labels = Labels::new(AREA);
        let mut taken: Vec<Rect> = Vec::new();
        while let Some(rect) = labels.beside([50.0, 50.0], [18.0, 8.0], 30, |_| true) {
            assert!(AREA.holds(rect) && !taken.iter().any(|other| other.overlaps(&rect)));
            taken.push(rect);
        }
        assert!(taken.len() > 20, "{}", taken.len());
        assert!(labels.beside([f64::NAN, 0.0], [18.0, 8.0], 30, |_| true).is_none());
    }
}
