//! Numbers by chance from a seed: splitmix64, the same on every machine.

pub struct Random(u64);

impl Random {
    /// The numbers of one case of one seed.
    pub fn new(seed: u64, case: u64) -> Random {
        let mut start = Random(seed);
        Random(start.number() ^ case.wrapping_mul(0xd134_2543_de82_ef95))
    }

    pub fn number(&mut self) -> u64 {
        self.0 = self.0.wrapping_add(0x9e37_79b9_7f4a_7c15);
        let mut z = self.0;
        z = (z ^ (z >> 30)).wrapping_mul(0xbf58_476d_1ce4_e5b9);
        z = (z ^ (z >> 27)).wrapping_mul(0x94d0_49bb_1331_11eb);
        z ^ (z >> 31)
    }

    /// From 0 to n - 1.
    pub fn below(&mut self, n: usize) -> usize {
        self.between(0, n as i64 - 1) as usize
    }

    /// From least to most, both included.
    pub fn between(&mut self, least: i64, most: i64) -> i64 {
        let span = (most - least) as u128 + 1;
        least + ((u128::from(self.number()) * span) >> 64) as i64
    }

    /// From 1 to most, each order of magnitude as likely as another.
    pub fn spread(&mut self, most: u64) -> u64 {
        let bits = 64 - most.leading_zeros();
        let top = (1u64 << self.between(1, i64::from(bits))).min(most + 1) - 1;
        self.between(1, top as i64) as u64
    }

    /// Yes once in n times.
    pub fn one_in(&mut self, n: usize) -> bool {
        self.below(n) == 0
    }

    /// One of the choices.
    pub fn pick<T: Copy>(&mut self, choices: &[T]) -> T {
        choices[self.below(choices.len())]
    }
}
