//! Numbers by chance, from a seed.

/// Splitmix64.
#[derive(Clone, Debug)]
pub struct Rng(u64);

impl Rng {
    pub fn new(seed: u64) -> Rng {
        Rng(seed)
    }

    pub fn next_u64(&mut self) -> u64 {
        self.0 = self.0.wrapping_add(0x9E37_79B9_7F4A_7C15);
        let mut z = self.0;
        z = (z ^ (z >> 30)).wrapping_mul(0xBF58_476D_1CE4_E5B9);
        z = (z ^ (z >> 27)).wrapping_mul(0x94D0_49BB_1331_11EB);
        z ^ (z >> 31)
    }

    /// A number below `bound`, which is above 0.
    pub fn below(&mut self, bound: usize) -> usize {
        (((self.next_u64() >> 32) * bound as u64) >> 32) as usize
    }

    /// A number from `low` to `high`, both included.
    pub fn within(&mut self, low: usize, high: usize) -> usize {
        low + self.below(high - low + 1)
    }

    /// True `k` times in 256.
    pub fn chance(&mut self, k: u32) -> bool {
        (self.next_u64() >> 56) < k as u64
    }

    pub fn pick<T: Copy>(&mut self, choices: &[T]) -> T {
        choices[self.below(choices.len())]
    }

    /// A word with each bit below n set `density` times in 256.
    pub fn bits(&mut self, n: usize, density: u32) -> u32 {
        match density {
            0 => 0,
            256 => low_bits(n),
            _ => (0..n).fold(0, |word, j| word | (self.chance(density) as u32) << j),
        }
    }
}

/// The bits below n.
pub(super) fn low_bits(n: usize) -> u32 {
    ((1u64 << n) - 1) as u32
}
