//! Polylines, stations and queries by a seed: ordinary ones, and those that stand on a threshold or past every range.

use kartsodi_oracle::gen::random_case;
use kartsodi_oracle::gen::sketch::stations;
use kartsodi_oracle::reader::scan;
use kartsodi_oracle::rng::Rng;

pub type Triple = [f32; 3];

/// Steps around the thresholds: 1e-6 of a length, 1e-9 of its square, and both ways.
const STEPS: [f32; 16] =
    [0.0, 1e-7, 9.9e-7, 1e-6, 1.01e-6, 1.1e-6, 3.1e-5, 3.16e-5, 3.17e-5, 1e-4, 1e-3, 0.5, 1.0, 2.0, -1.0, -2.0];

/// One of them, or one of the floats next to a threshold.
fn step(rng: &mut Rng) -> f32 {
    let near = |rng: &mut Rng, x: f32| f32::from_bits(x.to_bits() + rng.below(9) as u32 - 4);
    match rng.below(4) {
        0 => near(rng, 1e-6),
        1 => near(rng, 3.1622776e-5),
        _ => rng.pick(&STEPS),
    }
}

/// The points of a line, two or more.
pub fn points(rng: &mut Rng) -> Vec<Triple> {
    let count = rng.pick(&[2, 2, 2, 3, 3, 4, 5, 6, 8, 9, 16, 33, 64, 200]);
    match rng.below(12) {
        0..=3 => {
            let step = rng.pick(&[1e-3, 0.1, 1.0, 10.0, 100.0]);
            walk(rng, count, |rng, _| [rng.spread(step), rng.spread(step), rng.spread(step / 8.0)])
        }
        // from the origin, where the last bits of short steps count
        4 | 5 => {
            let mut line = vec![[0.0; 3]; count];
            for i in 1..count {
                line[i] = line[i - 1];
                line[i][rng.pick(&[0, 0, 0, 1, 2])] += step(rng);
                // points that stand again, next to each other or later
                if rng.once_in(4) {
                    line[i] = line[rng.below(i)];
                }
            }
            // a first step whose squares sum to 1e-9 or hardly more or less
            if rng.once_in(4) {
                let x = 3.1622776e-5 * rng.unit() as f32;
                line[1] = [x, (1e-9 - x * x).max(0.0).sqrt(), 0.0];
            }
            line
        }
        // corners and straight turns back; many points as far from two segments
        6 => (0..count).map(|_| [0, 1, 2].map(|_| rng.below(4) as f32)).collect(),
        7 => (0..count).map(|_| [0, 1, 2].map(|_| rng.spread(4096.0))).collect(),
        // a long way, on which short steps no longer count
        8 => {
            let far = rng.below(count);
            let mut line = walk(rng, count, |rng, i| match i < far {
                true => [if i % 2 == 0 { 8192.0 } else { -8192.0 }, rng.spread(1.0), 0.0],
                false => [rng.spread(1e-3), rng.spread(1e-4), 0.0],
            });
            line[0] = [-4096.0, 0.0, 0.0];
            line
        }
        // zeros of both signs, subnormals, the ends of the range
        9 => {
            let small = [0.0, -0.0, 1e-45, -1e-45, 1e-40, 1.1754944e-38, 1e-30, 1e-22, 1e-19, 4096.0, -4096.0, 4095.9998];
            (0..count).map(|_| [0, 1, 2].map(|_| rng.pick(&small))).collect()
        }
        // beyond any plan: squares and sums overflow
        10 => {
            let scale = rng.pick(&[1e10, 1e18, 1.8e19, 1e30, 3e38]);
            (0..count).map(|_| [0, 1, 2].map(|_| rng.spread(scale))).collect()
        }
        _ => {
            let mut line = vec![[rng.spread(100.0), rng.spread(100.0), 0.0]; count];
            if rng.once_in(2) {
                line[rng.below(count)][2] = step(rng);
            }
            line
        }
    }
}

fn walk(rng: &mut Rng, count: usize, mut step: impl FnMut(&mut Rng, usize) -> Triple) -> Vec<Triple> {
    let mut at = [rng.spread(100.0), rng.spread(100.0), rng.spread(5.0)];
    let mut line = vec![at];
    for i in 1..count {
        let by = step(rng, i);
        at = [0, 1, 2].map(|k| at[k] + by[k]);
        line.push(at);
    }
    line
}

/// The lanes of a plan of the oracle's families, with the tangents they give.
pub fn lanes(seed: u64, index: u64) -> Vec<(Vec<Triple>, Option<[Triple; 2]>)> {
    let plan = scan(&random_case(seed, index).file).unwrap_or_default();
    plan.lanes.into_iter().take(8).map(|lane| (lane.points, lane.ends)).collect()
}

/// Tangents at the two ends, or none.
pub fn ends(rng: &mut Rng) -> Option<[Triple; 2]> {
    match rng.below(4) {
        0 => Some([0, 1].map(|_| [0, 1, 2].map(|_| rng.odd_f32()))),
        1 => Some([0, 1].map(|_| [rng.spread(2.0), rng.spread(2.0), rng.spread(1.0)])),
        _ => None,
    }
}

/// Rising stations, one a point: even, uneven, close together, or each the next float.
pub fn rising(rng: &mut Rng, count: usize, length: f32) -> Vec<f64> {
    let mut s: f64 = rng.pick(&[0.0, 1e-300, 1.0, 1000.25, 1_048_000.0]);
    match rng.below(5) {
        0 => {
            let line = (0..count).map(|_| {
                let at = s;
                s = if rng.once_in(8) { s } else { s.next_up() };
                at
            });
            line.collect()
        }
        _ => stations(rng, count, f64::from(length).clamp(1.0, 100_000.0)),
    }
}

/// The ends of a section: its stations', inside or outside them, one place, or any.
pub fn section(rng: &mut Rng, stations: &[f64]) -> (f64, f64) {
    let (first, last) = (stations[0], stations[stations.len() - 1]);
    match rng.below(6) {
        0 => (first + (last - first) * 0.25, last + 3.0),
        1 => (first - 2.0, first + (last - first) * 0.75),
        2 => (first, first),
        3 => (rng.odd_f64(), rng.odd_f64()),
        _ => (first, last),
    }
}

/// A road station: one of the section's, next to one, between, outside, or odd.
pub fn station(rng: &mut Rng, stations: &[f64], (start, end): (f64, f64)) -> f64 {
    let at = rng.pick(stations);
    let last = stations[stations.len() - 1];
    let near = rng.pick(&[at, start, end]);
    match rng.below(10) {
        0 | 1 => near,
        2 => near.next_up(),
        3 => near.next_down(),
        4 => rng.odd_f64(),
        5 => at + (rng.pick(stations) - at) * 0.5,
        6 => at - 10.0 * rng.unit(),
        _ => stations[0] + (last - stations[0]) * (1.1 * rng.unit() - 0.05),
    }
}

/// A place: on the line, near it, as far from two pieces, far off, or odd.
pub fn place(rng: &mut Rng, points: &[Triple]) -> Triple {
    let i = rng.below(points.len() - 1);
    let (a, b) = (points[i], points[i + 1]);
    let anywhere = rng.unit() as f32;
    let t = rng.pick(&[0.0, 0.5, 1.0, anywhere]);
    let on = [0, 1, 2].map(|k| a[k] + (b[k] - a[k]) * t);
    let reach = rng.pick(&[1e-6, 0.01, 1.0, 10.0, 1e4, 1e20]);
    match rng.below(8) {
        0 => on,
        1 => points[rng.below(points.len())],
        2 => [0, 1, 2].map(|k| on[k] + rng.pick(&[0.0, 0.5, 1.0, -0.5, -1.0])),
        3 => {
            let mut p = on;
            p[rng.below(3)] = rng.odd_f32();
            p
        }
        4 => [0, 1, 2].map(|_| rng.odd_f32()),
        _ => on.map(|c| c + rng.spread(reach)),
    }
}
