//! Compares the number functions of the crate `float` with Rust's own, bit for bit, all NaNs counting as one.
//!
//!     compare-float quick [SEED]   boundaries and a seeded sample, some seconds
//!     compare-float all [SEED]     every f32 pattern for each function of one f32; 10^8 and more cases for the others
//!
//! Where Rust leaves an answer open, the port's choice is written out here: plus zero for the least and the greatest of
//! two zeros; one NaN, above every number, in the total order.

use std::cmp::Ordering;
use std::sync::atomic::{AtomicU64, Ordering as Memory};

extern "C" {
    fn kartsodi_sqrt(x: f32) -> f32;
    fn kartsodi_floor(x: f32) -> f32;
    fn kartsodi_ceil(x: f32) -> f32;
    fn kartsodi_round64(x: f64) -> f64;
    fn kartsodi_abs(x: f32) -> f32;
    fn kartsodi_abs64(x: f64) -> f64;
    fn kartsodi_signum(x: f32) -> f32;
    fn kartsodi_is_nan(x: f32) -> bool;
    fn kartsodi_is_nan64(x: f64) -> bool;
    fn kartsodi_is_finite(x: f32) -> bool;
    fn kartsodi_is_finite64(x: f64) -> bool;
    fn kartsodi_is_sign_negative(x: f32) -> bool;
    fn kartsodi_is_sign_negative64(x: f64) -> bool;
    fn kartsodi_from_bits(n: u32) -> f32;
    fn kartsodi_from_bits64(n: u64) -> f64;
    fn kartsodi_to_bits(x: f32) -> u32;
    fn kartsodi_to_bits64(x: f64) -> u64;
    fn kartsodi_f32_to_f64(x: f32) -> f64;
    fn kartsodi_nearest_f64_to_f32(x: f64) -> f32;
    fn kartsodi_nearest_usize_to_f32(n: usize) -> f32;
    fn kartsodi_saturating_f32_to_usize(x: f32) -> usize;
    fn kartsodi_saturating_f64_to_i64(x: f64) -> i64;
    fn kartsodi_min(x: f32, y: f32) -> f32;
    fn kartsodi_min64(x: f64, y: f64) -> f64;
    fn kartsodi_max(x: f32, y: f32) -> f32;
    fn kartsodi_clamp(x: f32, lo: f32, hi: f32) -> f32;
    fn kartsodi_clamp64(x: f64, lo: f64, hi: f64) -> f64;
    fn kartsodi_total_cmp(x: f32, y: f32) -> i32;
}

/// Declares a safe wrapper for each function: they take numbers by value and have an answer for every input.
macro_rules! ours {
    ($($name:ident = $from:ident ( $($arg:ident : $ty:ty),* ) -> $out:ty;)*) => {
        $(fn $name($($arg: $ty),*) -> $out { unsafe { $from($($arg),*) } })*
    };
}

ours! {
    sqrt = kartsodi_sqrt(x: f32) -> f32;
    floor = kartsodi_floor(x: f32) -> f32;
    ceil = kartsodi_ceil(x: f32) -> f32;
    round64 = kartsodi_round64(x: f64) -> f64;
    abs = kartsodi_abs(x: f32) -> f32;
    abs64 = kartsodi_abs64(x: f64) -> f64;
    signum = kartsodi_signum(x: f32) -> f32;
    is_nan = kartsodi_is_nan(x: f32) -> bool;
    is_nan64 = kartsodi_is_nan64(x: f64) -> bool;
    is_finite = kartsodi_is_finite(x: f32) -> bool;
    is_finite64 = kartsodi_is_finite64(x: f64) -> bool;
    is_sign_negative = kartsodi_is_sign_negative(x: f32) -> bool;
    is_sign_negative64 = kartsodi_is_sign_negative64(x: f64) -> bool;
    from_bits = kartsodi_from_bits(n: u32) -> f32;
    from_bits64 = kartsodi_from_bits64(n: u64) -> f64;
    to_bits = kartsodi_to_bits(x: f32) -> u32;
    to_bits64 = kartsodi_to_bits64(x: f64) -> u64;
    f32_to_f64 = kartsodi_f32_to_f64(x: f32) -> f64;
    nearest_f64_to_f32 = kartsodi_nearest_f64_to_f32(x: f64) -> f32;
    nearest_usize_to_f32 = kartsodi_nearest_usize_to_f32(n: usize) -> f32;
    saturating_f32_to_usize = kartsodi_saturating_f32_to_usize(x: f32) -> usize;
    saturating_f64_to_i64 = kartsodi_saturating_f64_to_i64(x: f64) -> i64;
    min = kartsodi_min(x: f32, y: f32) -> f32;
    min64 = kartsodi_min64(x: f64, y: f64) -> f64;
    max = kartsodi_max(x: f32, y: f32) -> f32;
    clamp = kartsodi_clamp(x: f32, lo: f32, hi: f32) -> f32;
    clamp64 = kartsodi_clamp64(x: f64, lo: f64, hi: f64) -> f64;
    total_cmp = kartsodi_total_cmp(x: f32, y: f32) -> i32;
}

static CASES: AtomicU64 = AtomicU64::new(0);
static DIFFERENCES: AtomicU64 = AtomicU64::new(0);

/// Reports a difference: the function, its operands' bits and what it gave.
fn differs(name: &str, operands: &[u64], gave: u64) {
    if DIFFERENCES.fetch_add(1, Memory::Relaxed) < 20 {
        println!("{name} of {operands:x?} gave {gave:x}");
    }
}

fn same32(name: &str, operands: &[u64], gave: f32, wanted: f32) {
    let equal = if wanted.is_nan() { gave.is_nan() } else { gave.to_bits() == wanted.to_bits() };
    if !equal {
        differs(name, operands, gave.to_bits().into());
    }
}

fn same64(name: &str, operands: &[u64], gave: f64, wanted: f64) {
    let equal = if wanted.is_nan() { gave.is_nan() } else { gave.to_bits() == wanted.to_bits() };
    if !equal {
        differs(name, operands, gave.to_bits());
    }
}

fn same(name: &str, operands: &[u64], gave: u64, wanted: u64) {
    if gave != wanted {
        differs(name, operands, gave);
    }
}

/// Every function of one f32, at one bit pattern.
fn at_pattern(bits: u32) {
    let x = f32::from_bits(bits);
    let op = [u64::from(bits)];
    same32("sqrt", &op, sqrt(x), x.sqrt());
    same32("floor", &op, floor(x), x.floor());
    same32("ceil", &op, ceil(x), x.ceil());
    same32("abs", &op, abs(x), x.abs());
    same32("signum", &op, signum(x), x.signum());
    same32("from_bits", &op, from_bits(bits), x);
    same64("f32_to_f64", &op, f32_to_f64(x), f64::from(x));
    same32("nearest_f64_to_f32 of an f32", &op, nearest_f64_to_f32(f64::from(x)), x);
    same("saturating_f32_to_usize", &op, saturating_f32_to_usize(x) as u64, x as usize as u64);
    same("is_nan", &op, is_nan(x).into(), x.is_nan().into());
    same("is_finite", &op, is_finite(x).into(), x.is_finite().into());
    if x.is_nan() {
        same("to_bits", &op, to_bits(x).into(), 0x7fc0_0000);
    } else {
        same("to_bits", &op, to_bits(x).into(), bits.into());
        same("is_sign_negative", &op, is_sign_negative(x).into(), x.is_sign_negative().into());
    }
}

/// Every function of one f64, at one bit pattern.
fn at_pattern64(bits: u64) {
    CASES.fetch_add(1, Memory::Relaxed);
    let x = f64::from_bits(bits);
    let op = [bits];
    same32("nearest_f64_to_f32", &op, nearest_f64_to_f32(x), x as f32);
    same64("round64", &op, round64(x), x.round());
    same64("abs64", &op, abs64(x), x.abs());
    same64("from_bits64", &op, from_bits64(bits), x);
    same("saturating_f64_to_i64", &op, saturating_f64_to_i64(x) as u64, x as i64 as u64);
    same("is_nan64", &op, is_nan64(x).into(), x.is_nan().into());
    same("is_finite64", &op, is_finite64(x).into(), x.is_finite().into());
    if x.is_nan() {
        same("to_bits64", &op, to_bits64(x), 0x7ff8_0000_0000_0000);
    } else {
        same("to_bits64", &op, to_bits64(x), bits);
        same("is_sign_negative64", &op, is_sign_negative64(x).into(), x.is_sign_negative().into());
    }
}

fn at_whole(n: u64) {
    CASES.fetch_add(1, Memory::Relaxed);
    same32("nearest_usize_to_f32", &[n], nearest_usize_to_f32(n as usize), n as f32);
}

/// Rust's two comparisons, for bounds that `clamp` itself would panic at too.
fn clamped<T: PartialOrd + Copy>(x: T, lo: T, hi: T) -> T {
    let raised = if x < lo { lo } else { x };
    if raised > hi {
        hi
    } else {
        raised
    }
}

/// The one NaN in place of any. Told by its bits: a compiler may take two NaNs for one.
fn one_nan(x: f32) -> f32 {
    let bits = x.to_bits();
    f32::from_bits(if bits & 0x7fff_ffff > 0x7f80_0000 { 0x7fc0_0000 } else { bits })
}

fn order(x: f32, y: f32) -> i32 {
    match one_nan(x).total_cmp(&one_nan(y)) {
        Ordering::Less => -1,
        Ordering::Equal => 0,
        Ordering::Greater => 1,
    }
}

/// The functions of two and three f32.
fn at_three(x: f32, y: f32, z: f32) {
    CASES.fetch_add(1, Memory::Relaxed);
    let op = [x, y, z].map(|v| u64::from(v.to_bits()));
    let zeros = x == 0.0 && y == 0.0;
    same32("min", &op, min(x, y), if zeros { 0.0 } else { x.min(y) });
    same32("max", &op, max(x, y), if zeros { 0.0 } else { x.max(y) });
    same32("clamp", &op, clamp(x, y, z), clamped(x, y, z));
    if y <= z {
        same32("clamp", &op, clamp(x, y, z), x.clamp(y, z));
    }
    same("total_cmp", &op, total_cmp(x, y) as u64, order(x, y) as u64);
}

/// The functions of two and three f64.
fn at_three64(x: f64, y: f64, z: f64) {
    CASES.fetch_add(1, Memory::Relaxed);
    let op = [x, y, z].map(f64::to_bits);
    let zeros = x == 0.0 && y == 0.0;
    same64("min64", &op, min64(x, y), if zeros { 0.0 } else { x.min(y) });
    same64("clamp64", &op, clamp64(x, y, z), clamped(x, y, z));
    if y <= z {
        same64("clamp64", &op, clamp64(x, y, z), x.clamp(y, z));
    }
}

/// A xorshift generator: the same cases for the same seed.
struct Random(u64);

impl Random {
    fn new(seed: u64) -> Self {
        Random(seed.wrapping_mul(0x9e37_79b9_7f4a_7c15) | 1)
    }

    fn next(&mut self) -> u64 {
        self.0 ^= self.0 << 13;
        self.0 ^= self.0 >> 7;
        self.0 ^= self.0 << 17;
        self.0.wrapping_mul(0x2545_f491_4f6c_dd1d)
    }

    fn below(&mut self, n: u64) -> u64 {
        self.next() % n
    }
}

const SIGN64: u64 = 1 << 63;
const FRACTION64: u64 = (1 << 52) - 1;

/// f64 patterns where an answer turns: each exponent with fractions around the digits that an f32 drops.
fn boundaries64() {
    let fractions = [
        0, 1, 2, 0x0fff_ffff, 0x1000_0000, 0x1000_0001, 0x1fff_ffff, 0x2000_0000, 0x3000_0000, 0x8_0000_0000_0000,
        0xf_ffff_e000_0000, 0xf_ffff_efff_ffff, 0xf_ffff_f000_0000, 0xf_ffff_f000_0001, 0xf_ffff_ffff_fffe, FRACTION64,
    ];
    for exponent in 0..2048u64 {
        for fraction in fractions {
            at_pattern64(exponent << 52 | fraction);
            at_pattern64(SIGN64 | exponent << 52 | fraction);
        }
    }
    // ties among the subnormal results, and their neighbours
    for exponent in 870..900u64 {
        let dropped = if exponent < 897 { 926 - exponent } else { 29 };
        for kept in 0..64u64 {
            let tie = (kept << dropped | 1 << (dropped - 1)) & FRACTION64;
            for near in [tie.wrapping_sub(1) & FRACTION64, tie, (tie + 1) & FRACTION64] {
                at_pattern64(exponent << 52 | near);
                at_pattern64(SIGN64 | exponent << 52 | near);
            }
        }
    }
}

/// Random f64: any bits; around f32's range with ties; whole numbers and halves with their neighbours.
fn random64(count: u64, random: &mut Random) {
    for _ in 0..count {
        at_pattern64(random.next());
        let fraction = random.next() & FRACTION64;
        let near_tie = (fraction & !0x1fff_ffff) | 0x1000_0000;
        let digits = [fraction, near_tie, near_tie + 1, near_tie - 1][random.below(4) as usize];
        at_pattern64(random.next() & SIGN64 | (860 + random.below(300)) << 52 | digits);
        let whole = (random.next() >> random.below(64)) as f64;
        let half = (whole + 0.5).to_bits();
        for bits in [whole.to_bits(), half, half.wrapping_add(1), half.wrapping_sub(1)] {
            at_pattern64(bits);
            at_pattern64(SIGN64 | bits);
        }
    }
}

fn wholes(count: u64, random: &mut Random) {
    for k in 0..64 {
        for d in 0..5 {
            at_whole((1u64 << k).wrapping_add(d).wrapping_sub(2));
        }
    }
    at_whole(u64::MAX);
    for _ in 0..count {
        at_whole(random.next());
        at_whole(random.next() >> random.below(64));
        // a tie of 24 digits and its neighbours
        let dropped = 1 + random.below(40);
        let kept = 1 << 23 | random.below(1 << 23);
        at_whole((kept << dropped | 1 << (dropped - 1)).wrapping_add(random.below(3)).wrapping_sub(1));
    }
}

fn pairs(count: u64, random: &mut Random) {
    let special = [
        0u32, 0x8000_0000, 0x7f80_0000, 0xff80_0000, 0x7fc0_0000, 0xffc0_0000, 1, 0x8000_0001, 0x3f80_0000, 0xbf80_0000,
        0x7f7f_ffff, 0xff7f_ffff, 0x7fff_ffff, 0x0080_0000,
    ]
    .map(f32::from_bits);
    for x in special {
        for y in special {
            for z in special {
                at_three(x, y, z);
                at_three64(x.into(), y.into(), z.into());
            }
        }
    }
    for _ in 0..count {
        let (a, b) = (random.next(), random.next());
        let (x, y, z) = (f32::from_bits(a as u32), f32::from_bits((a >> 32) as u32), f32::from_bits(b as u32));
        let near = f32::from_bits((a as u32).wrapping_add((b >> 61) as u32).wrapping_sub(4));
        at_three(x, y, z);
        at_three(x, near, x);
        at_three(x, x, near);
        let (x, y, z) = (f64::from_bits(a), f64::from_bits(b), f64::from_bits(random.next()));
        let near = f64::from_bits(a.wrapping_add(b >> 61).wrapping_sub(4));
        at_three64(x, y, z);
        at_three64(x, near, near);
    }
}

/// Every f32 pattern, the range shared among the cores.
fn all_patterns() {
    let workers = std::thread::available_parallelism().map_or(1, |n| n.get() as u64);
    std::thread::scope(|scope| {
        for k in 0..workers {
            scope.spawn(move || {
                let (from, to) = ((k << 32) / workers, ((k + 1) << 32) / workers);
                for bits in from..to {
                    at_pattern(bits as u32);
                }
                CASES.fetch_add(to - from, Memory::Relaxed);
            });
        }
    });
}

/// Each exponent with its first, middle and last fractions, both signs, and a seeded sample.
fn some_patterns(count: u64, random: &mut Random) {
    for exponent in 0..512u32 {
        for fraction in [0, 1, 2, 3, 0x3f_ffff, 0x40_0000, 0x40_0001, 0x7f_fffd, 0x7f_fffe, 0x7f_ffff] {
            at_pattern(exponent << 23 | fraction);
        }
    }
    for _ in 0..count {
        at_pattern(random.next() as u32);
    }
    CASES.fetch_add(5120 + count, Memory::Relaxed);
}

fn main() {
    let mut words = std::env::args().skip(1);
    let mode = words.next().unwrap_or_default();
    let seed = words.next().map_or(1, |s| s.parse().expect("a seed is a whole number"));
    let mut random = Random::new(seed);
    let count = match mode.as_str() {
        "quick" => {
            some_patterns(2_000_000, &mut random);
            200_000
        }
        "all" => {
            all_patterns();
            40_000_000
        }
        _ => {
            println!("compare-float quick|all [SEED]");
            std::process::exit(2);
        }
    };
    boundaries64();
    random64(count, &mut random);
    wholes(count, &mut random);
    pairs(count, &mut random);
    let (cases, differences) = (CASES.load(Memory::Relaxed), DIFFERENCES.load(Memory::Relaxed));
    println!("float: {cases} cases, seed {seed}, {differences} differences");
    std::process::exit(i32::from(differences != 0));
}
