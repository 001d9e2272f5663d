//! From metres to the units of a drawing: 1,000 units wide, y downward, the plan in the middle with a margin around it.

use crate::draw::labels::Rect;

/// A place in a drawing, x to the right and y downward.
pub type At = [f64; 2];

/// How wide a drawing is.
pub const WIDTH: f64 = 1000.0;
/// How high a plan is drawn at most, so that it goes on a page with its legend.
const HEIGHT: f64 = 1000.0;
/// What stays free around the lanes, for lane numbers beside them.
const MARGIN: f64 = 48.0;
/// A plan smaller than this many metres is drawn no larger than this.
const LEAST: f64 = 40.0;

/// Where a drawing has its places.
pub struct Frame {
    /// Units a metre.
    scale: f64,
    /// The metres at the middle of the drawing.
    middle: [f64; 2],
    /// How high the drawing is.
    pub height: f64,
}

/// A box in metres, which grows with the points put in.
#[derive(Clone, Copy)]
pub struct Extent {
    least: [f64; 2],
    most: [f64; 2],
}

impl Extent {
    pub fn of(points: impl Iterator<Item = [f64; 2]>) -> Option<Extent> {
        points.fold(None, |extent: Option<Extent>, p| match extent {
            None => Some(Extent { least: p, most: p }),
            Some(extent) => Some(extent.with(p)),
        })
    }

    fn with(self, p: [f64; 2]) -> Extent {
        Extent {
            least: [self.least[0].min(p[0]), self.least[1].min(p[1])],
            most: [self.most[0].max(p[0]), self.most[1].max(p[1])],
        }
    }

    /// Grown by the points that lie near: beyond a quarter of its size, or 15 m, a point would make the lanes small.
    pub fn with_near(self, points: impl Iterator<Item = [f64; 2]>) -> Extent {
        let reach = (0.25 * self.size(0).max(self.size(1))).max(15.0);
        let near = |p: &[f64; 2]| (0..2).all(|i| p[i] >= self.least[i] - reach && p[i] <= self.most[i] + reach);
        points.filter(near).fold(self, Extent::with)
    }

    fn size(&self, axis: usize) -> f64 {
        self.most[axis] - self.least[axis]
    }
}

impl Frame {
    /// The frame that an extent fits in, with a border of so many metres.
    pub fn around(extent: Extent, border: f64) -> Frame {
        let [wide, high] = [0, 1].map(|axis| extent.size(axis) + 2.0 * border);
        let fits = |room: f64, size: f64| (room - 2.0 * MARGIN) / size.max(f64::MIN_POSITIVE);
        let scale = fits(WIDTH, wide.max(LEAST)).min(fits(HEIGHT, high));
        let middle = [0, 1].map(|axis| extent.least[axis] + 0.5 * extent.size(axis));
        Frame { scale, middle, height: (high * scale + 2.0 * MARGIN).ceil() }
    }

    /// So many metres in units.
    pub fn units(&self, metres: f64) -> f64 {
        metres * self.scale
    }

    /// The place of a point; none where it lies outside the drawing.
    pub fn at(&self, p: [f64; 2]) -> Option<At> {
        let at = self.reach(p);
        self.area().holds(Rect::around(at, 0.0, 0.0)).then_some(at)
    }

    /// The place of a point that the frame was made around.
    pub fn reach(&self, p: [f64; 2]) -> At {
        let right = (p[0] - self.middle[0]) * self.scale;
        let up = (p[1] - self.middle[1]) * self.scale;
        [0.5 * WIDTH + right, 0.5 * self.height - up]
    }

    /// The whole drawing.
    pub fn area(&self) -> Rect {
        Rect { left: 0.0, top: 0.0, right: WIDTH, bottom: self.height }
    }
}
