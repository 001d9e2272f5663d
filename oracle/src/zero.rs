//! Minimum and maximum that take plus zero of two zeros, where Rust leaves the sign open.

/// `min` and `max` of the standard library, but of two zeros the plus one.
pub trait PlusZero {
    fn min_plus(self, other: Self) -> Self;
    fn max_plus(self, other: Self) -> Self;
}

impl PlusZero for f32 {
    fn min_plus(self, other: f32) -> f32 {
        if self == 0.0 && other == 0.0 {
            0.0_f32
        } else {
            self.min(other)
        }
    }

    fn max_plus(self, other: f32) -> f32 {
        if self == 0.0 && other == 0.0 {
            0.0_f32
        } else {
            self.max(other)
        }
    }
}

impl PlusZero for f64 {
    fn min_plus(self, other: f64) -> f64 {
        if self == 0.0 && other == 0.0 {
            0.0_f64
        } else {
            self.min(other)
        }
    }

    fn max_plus(self, other: f64) -> f64 {
        if self == 0.0 && other == 0.0 {
            0.0_f64
        } else {
            self.max(other)
        }
    }
}
