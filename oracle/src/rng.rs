//! A small generator of random numbers, the same on every machine: splitmix64.

pub struct Rng(u64);

impl Rng {
    pub fn new(seed: u64) -> Self {
        Self(seed)
    }

    /// A generator of its own for the plan `index` of `seed`.
    pub fn of(seed: u64, index: u64) -> Self {
        let mut rng = Self(seed ^ index.wrapping_mul(0xD134_2543_DE82_EF95));
        rng.next();
        rng
    }

    #[allow(clippy::should_implement_trait)]
    pub fn next(&mut self) -> u64 {
        self.0 = self.0.wrapping_add(0x9E37_79B9_7F4A_7C15);
        let mut z = self.0;
        z = (z ^ (z >> 30)).wrapping_mul(0xBF58_476D_1CE4_E5B9);
        z = (z ^ (z >> 27)).wrapping_mul(0x94D0_49BB_1331_11EB);
        z ^ (z >> 31)
    }

    /// Another generator, which draws independently from here on.
    pub fn fork(&mut self) -> Self {
        Self(self.next())
    }

    /// Below `n`, which is above 0.
    pub fn below(&mut self, n: usize) -> usize {
        (self.next() % n as u64) as usize
    }

    /// From `low` to `high`, both possible.
    pub fn between(&mut self, low: usize, high: usize) -> usize {
        low + self.below(high - low + 1)
    }

    /// True once in `n` times.
    pub fn once_in(&mut self, n: usize) -> bool {
        self.below(n) == 0
    }

    pub fn pick<T: Copy>(&mut self, things: &[T]) -> T {
        things[self.below(things.len())]
    }

    /// From 0 up to but not 1.
    pub fn unit(&mut self) -> f64 {
        (self.next() >> 11) as f64 / (1u64 << 53) as f64
    }

    /// From `-scale` to `scale`.
    pub fn spread(&mut self, scale: f32) -> f32 {
        ((self.unit() * 2.0 - 1.0) * f64::from(scale)) as f32
    }

    pub fn shuffle<T>(&mut self, things: &mut [T]) {
        for i in (1..things.len()).rev() {
            things.swap(i, self.below(i + 1));
        }
    }

    /// A float at the end of a range or by a threshold, a zero, an infinity, a NaN, or any bits.
    pub fn odd_f32(&mut self) -> f32 {
        const ODD: [u32; 22] = [
            0x0000_0000,
            0x8000_0000,
            0x0000_0001,
            0x8000_0001,
            0x007F_FFFF,
            0x0080_0000,
            0x3F80_0000,
            0xBF80_0000,
            0x3586_37BD,
            0x3089_705F,
            0x4580_0000,
            0x4580_0001,
            0x457F_FFFF,
            0xC580_0001,
            0x4B80_0000,
            0x5F00_0000,
            0x7F7F_FFFF,
            0xFF7F_FFFF,
            0x7F80_0000,
            0xFF80_0000,
            0x7FC0_0000,
            0xFFC0_0001,
        ];
        if self.once_in(4) {
            f32::from_bits(self.next() as u32)
        } else {
            f32::from_bits(self.pick(&ODD))
        }
    }

    /// The same for an f64.
    pub fn odd_f64(&mut self) -> f64 {
        const ODD: [f64; 20] = [
            0.0,
            -0.0,
            5e-324,
            -5e-324,
            2.2250738585072014e-308,
            1.0,
            -1.0,
            0.0005,
            -0.0005,
            0.00049999999999999,
            4096.0,
            1048576.0,
            9.2e15,
            9.3e15,
            -9.3e15,
            1e300,
            f64::MAX,
            f64::INFINITY,
            f64::NEG_INFINITY,
            f64::NAN,
        ];
        if self.once_in(4) {
            f64::from_bits(self.next())
        } else {
            self.pick(&ODD)
        }
    }
}
