//! Time per call of each number function of the crate `float` beside Rust's, on the same operands in one run.
//! Both are called through a function that is not inlined. Prints a table in nanoseconds: the least of ten rounds.

use std::hint::black_box;
use std::time::Instant;

const OPERANDS: usize = 4096;
const ROUNDS: usize = 10;
const REPEATS: usize = 200;

/// Declares the port's function `$ours` and Rust's expression beside it, and times both over the same operands.
macro_rules! bench {
    ($label:expr, $operands:expr, $ours:ident ( $($arg:ident : $ty:ty),* ) -> $out:ty, $theirs:expr) => {{
        extern "C" {
            fn $ours($($arg: $ty),*) -> $out;
        }
        #[inline(never)]
        fn port(($($arg,)*): ($($ty,)*)) -> $out {
            unsafe { $ours($($arg),*) }
        }
        #[inline(never)]
        fn rust(($($arg,)*): ($($ty,)*)) -> $out {
            $theirs
        }
        let (ours, theirs) = (time($operands, port), time($operands, rust));
        println!("| {} | {ours:.1} | {theirs:.1} |", $label);
    }};
}

/// Nanoseconds a call of `f` takes: the least over the rounds.
fn time<A: Copy, B>(operands: &[A], f: fn(A) -> B) -> f64 {
    let mut least = f64::INFINITY;
    for _ in 0..ROUNDS {
        let start = Instant::now();
        for _ in 0..REPEATS {
            for &x in operands {
                black_box(f(black_box(x)));
            }
        }
        least = least.min(start.elapsed().as_nanos() as f64);
    }
    least / (REPEATS * operands.len()) as f64
}

/// Finite numbers of every size that coordinates and lengths have, both signs.
fn floats(seed: u64) -> Vec<f64> {
    let mut state = seed;
    let mut next = || {
        state ^= state << 13;
        state ^= state >> 7;
        state ^= state << 17;
        state
    };
    (0..OPERANDS)
        .map(|_| {
            let size = f64::powi(2.0, (next() % 40) as i32 - 20);
            (next() as i64 as f64) / 9.3e18 * size
        })
        .collect()
}

fn main() {
    let doubles = floats(88_172_645_463_325_252);
    let others = floats(1_234_567_890_123_457);
    let one64: Vec<(f64,)> = doubles.iter().map(|&x| (x,)).collect();
    let one: Vec<(f32,)> = doubles.iter().map(|&x| (x as f32,)).collect();
    let plus: Vec<(f32,)> = one.iter().map(|&(x,)| (x.abs(),)).collect();
    let tiny: Vec<(f32,)> = plus.iter().map(|&(x,)| (f32::from_bits(x.to_bits() >> 9 | 1),)).collect();
    let two: Vec<(f32, f32)> = doubles.iter().zip(&others).map(|(&x, &y)| (x as f32, y as f32)).collect();
    let two64: Vec<(f64, f64)> = doubles.iter().zip(&others).map(|(&x, &y)| (x, y)).collect();
    let three: Vec<(f32, f32, f32)> = doubles.iter().map(|&x| (x as f32, 0.0, 1.0)).collect();
    let three64: Vec<(f64, f64, f64)> = doubles.iter().map(|&x| (x, 0.0, 1.0)).collect();
    let bits: Vec<(u32,)> = one.iter().map(|&(x,)| (x.to_bits(),)).collect();
    let bits64: Vec<(u64,)> = one64.iter().map(|&(x,)| (x.to_bits(),)).collect();
    let small: Vec<(usize,)> = (0..OPERANDS).map(|n| (n,)).collect();
    let large: Vec<(usize,)> = bits64.iter().map(|&(n,)| (n as usize,)).collect();

    println!("| function | Kartsodi, ns | Rust, ns |\n|---|---|---|");
    bench!("`sqrt`", &plus, kartsodi_sqrt(x: f32) -> f32, x.sqrt());
    bench!("`sqrt` of a subnormal", &tiny, kartsodi_sqrt(x: f32) -> f32, x.sqrt());
    bench!("`floor`", &one, kartsodi_floor(x: f32) -> f32, x.floor());
    bench!("`ceil`", &one, kartsodi_ceil(x: f32) -> f32, x.ceil());
    bench!("`round64`", &one64, kartsodi_round64(x: f64) -> f64, x.round());
    bench!("`min`", &two, kartsodi_min(x: f32, y: f32) -> f32, x.min(y));
    bench!("`max`", &two, kartsodi_max(x: f32, y: f32) -> f32, x.max(y));
    bench!("`min64`", &two64, kartsodi_min64(x: f64, y: f64) -> f64, x.min(y));
    bench!("`clamp`", &three, kartsodi_clamp(x: f32, lo: f32, hi: f32) -> f32, x.clamp(lo, hi));
    bench!("`clamp64`", &three64, kartsodi_clamp64(x: f64, lo: f64, hi: f64) -> f64, x.clamp(lo, hi));
    bench!("`signum`", &one, kartsodi_signum(x: f32) -> f32, x.signum());
    bench!("`abs`", &one, kartsodi_abs(x: f32) -> f32, x.abs());
    bench!("`abs64`", &one64, kartsodi_abs64(x: f64) -> f64, x.abs());
    bench!("`total_cmp`", &two, kartsodi_total_cmp(x: f32, y: f32) -> i32, x.total_cmp(&y) as i32);
    bench!("`nearest_f64_to_f32`", &one64, kartsodi_nearest_f64_to_f32(x: f64) -> f32, x as f32);
    bench!("`f32_to_f64`", &one, kartsodi_f32_to_f64(x: f32) -> f64, f64::from(x));
    bench!("`saturating_f32_to_usize`", &one, kartsodi_saturating_f32_to_usize(x: f32) -> usize, x as usize);
    bench!("`saturating_f64_to_i64`", &one64, kartsodi_saturating_f64_to_i64(x: f64) -> i64, x as i64);
    bench!("`nearest_usize_to_f32`", &small, kartsodi_nearest_usize_to_f32(n: usize) -> f32, n as f32);
    bench!("`nearest_usize_to_f32` from 2^32 on", &large, kartsodi_nearest_usize_to_f32(n: usize) -> f32, n as f32);
    bench!("`from_bits`", &bits, kartsodi_from_bits(n: u32) -> f32, f32::from_bits(n));
    bench!("`from_bits64`", &bits64, kartsodi_from_bits64(n: u64) -> f64, f64::from_bits(n));
    bench!("`to_bits`", &one, kartsodi_to_bits(x: f32) -> u32, x.to_bits());
    bench!("`to_bits64`", &one64, kartsodi_to_bits64(x: f64) -> u64, x.to_bits());
    bench!("`is_nan`", &one, kartsodi_is_nan(x: f32) -> bool, x.is_nan());
    bench!("`is_finite`", &one, kartsodi_is_finite(x: f32) -> bool, x.is_finite());
}
