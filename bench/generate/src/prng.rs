//! A small generator of pseudo-random numbers (splitmix64).

pub struct Prng(u64);

impl Prng {
    /// The stream of numbers for input `index` of `seed`; each input has its
    /// own, so any one can be made again without the others.
    pub fn new(seed: u64, index: u64) -> Prng {
        let mut mix = Prng(seed);
        let start = mix.word() ^ index.wrapping_mul(0xD134_2543_DE82_EF95);
        let mut prng = Prng(start);
        prng.word();
        prng
    }

    pub fn word(&mut self) -> u64 {
        self.0 = self.0.wrapping_add(0x9E37_79B9_7F4A_7C15);
        let mut z = self.0;
        z = (z ^ (z >> 30)).wrapping_mul(0xBF58_476D_1CE4_E5B9);
        z = (z ^ (z >> 27)).wrapping_mul(0x94D0_49BB_1331_11EB);
        z ^ (z >> 31)
    }

    /// A number from 0 to `count`−1.
    pub fn below(&mut self, count: usize) -> usize {
        assert!(count > 0);
        (self.word() % count as u64) as usize
    }

    /// A number from `low` to `high`, both included.
    pub fn between(&mut self, low: usize, high: usize) -> usize {
        low + self.below(high - low + 1)
    }

    /// True in `percent` of a hundred cases.
    pub fn chance(&mut self, percent: usize) -> bool {
        self.below(100) < percent
    }

    pub fn pick<T: Copy>(&mut self, from: &[T]) -> T {
        from[self.below(from.len())]
    }

    /// One of the things, the first of each pair being its weight.
    pub fn weighted<T: Copy>(&mut self, from: &[(usize, T)]) -> T {
        let mut left = self.below(from.iter().map(|(weight, _)| weight).sum());
        for &(weight, thing) in from {
            if left < weight {
                return thing;
            }
            left -= weight;
        }
        unreachable!("the weights add up")
    }
}
