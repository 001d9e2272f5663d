//! What the comparisons with the oracle have in common: floats compared by their bits, all NaNs as one, the tables of a plan, plans and draws.

pub mod draw;
pub mod plans;
pub mod tables;

pub fn same32(a: f32, b: f32) -> bool {
    (a.to_bits() == b.to_bits()) | (a.is_nan() & b.is_nan())
}

pub fn same64(a: f64, b: f64) -> bool {
    (a.to_bits() == b.to_bits()) | (a.is_nan() & b.is_nan())
}

// Both go to the end of the lists, which a compiler turns into wide comparisons.
pub fn all32(a: &[f32], b: &[f32]) -> bool {
    a.len() == b.len() && a.iter().zip(b).fold(true, |all, (x, y)| all & same32(*x, *y))
}

pub fn all64(a: &[f64], b: &[f64]) -> bool {
    a.len() == b.len() && a.iter().zip(b).fold(true, |all, (x, y)| all & same64(*x, *y))
}
