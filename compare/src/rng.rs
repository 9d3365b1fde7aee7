//! The seeded random numbers: splitmix64, enough for jitter.

pub struct SeededRng(u64);

/// What `SeededRng::random` can make.
pub trait Sample {
    fn sample(rng: &mut SeededRng) -> Self;
}

impl SeededRng {
    pub fn new(seed: Option<u64>) -> Self {
        Self(seed.unwrap_or(0))
    }

    pub fn random<T: Sample>(&mut self) -> T {
        T::sample(self)
    }
}

impl Sample for u64 {
    fn sample(rng: &mut SeededRng) -> u64 {
        rng.0 = rng.0.wrapping_add(0x9E37_79B9_7F4A_7C15);
        let z = (rng.0 ^ rng.0 >> 30).wrapping_mul(0xBF58_476D_1CE4_E5B9);
        let z = (z ^ z >> 27).wrapping_mul(0x94D0_49BB_1331_11EB);
        z ^ z >> 31
    }
}

impl Sample for f32 {
    /// In 0 to 1, 1 excluded.
    fn sample(rng: &mut SeededRng) -> f32 {
        (rng.random::<u64>() >> 40) as f32 / (1u32 << 24) as f32
    }
}

impl<const N: usize> Sample for [u8; N] {
    fn sample(rng: &mut SeededRng) -> [u8; N] {
        std::array::from_fn(|_| rng.random::<u64>() as u8)
    }
}
