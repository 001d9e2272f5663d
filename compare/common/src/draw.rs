//! Draws that more than one comparison asks for.

use kartsodi_oracle::rng::Rng;

/// An arc length: on a vertex, next to one, between, before and past the line, or odd.
pub fn arc(rng: &mut Rng, cumulative: &[f32]) -> f32 {
    let at = rng.pick(cumulative);
    let length = cumulative[cumulative.len() - 1];
    match rng.below(12) {
        0 | 1 => at,
        2 => at.next_up(),
        3 => at.next_down(),
        4 => at + (rng.pick(cumulative) - at) / 2.0,
        5 => rng.odd_f32(),
        6 => rng.pick(&[-0.0, 0.0, f32::NAN, f32::INFINITY, f32::NEG_INFINITY, f32::MAX, 1e-45, -1e-45, -1.0]),
        7 => at + rng.spread(3e-6),
        8 => -length * rng.unit() as f32,
        9 => length * (1.0 + rng.unit() as f32),
        _ => length * rng.unit() as f32,
    }
}
