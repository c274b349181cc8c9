//! Random numbers from a seed: splitmix64, written here so that a printed seed
//! gives the same case on every machine.

pub struct Random(u64);

impl Random {
    pub fn new(seed: u64) -> Random {
        Random(seed)
    }

    /// The numbers of case `index` under `seed`.
    pub fn of_case(seed: u64, index: u64) -> Random {
        let mut first = Random(seed);
        Random(first.next() ^ index.wrapping_mul(0xD129_0D3A_6D2B_5F1B))
    }

    pub fn next(&mut self) -> u64 {
        self.0 = self.0.wrapping_add(0x9E37_79B9_7F4A_7C15);
        let mut z = self.0;
        z = (z ^ (z >> 30)).wrapping_mul(0xBF58_476D_1CE4_E5B9);
        z = (z ^ (z >> 27)).wrapping_mul(0x94D0_49BB_1331_11EB);
        z ^ (z >> 31)
    }

    /// A whole number from `low` to `high`, both included.
    pub fn whole(&mut self, low: u32, high: u32) -> u32 {
        low + (self.next() % (u64::from(high - low) + 1)) as u32
    }

    /// Yes once in `n`.
    pub fn once_in(&mut self, n: u32) -> bool {
        self.whole(1, n) == 1
    }

    pub fn pick<T: Copy>(&mut self, from: &[T]) -> T {
        from[self.whole(0, from.len() as u32 - 1) as usize]
    }

    /// From `low` up to `high`, evenly.
    pub fn between(&mut self, low: f64, high: f64) -> f64 {
        let unit = (self.next() >> 11) as f64 / 9_007_199_254_740_992.0;
        low + (high - low) * unit
    }

    /// From `low` up to `high`, each doubling about equally likely. (No
    /// logarithm: the library's differ in their last digit.)
    pub fn level(&mut self, low: f64, high: f64) -> f64 {
        let mut doublings = 0;
        let mut x = low;
        while x * 2.0 <= high {
            x *= 2.0;
            doublings += 1;
        }
        let mut level = low * self.between(1.0, 2.0);
        for _ in 0..self.whole(0, doublings) {
            level *= 2.0;
        }
        level.min(high)
    }

    pub fn byte(&mut self) -> u8 {
        self.whole(0, 255) as u8
    }

    pub fn bytes(&mut self, n: usize) -> Vec<u8> {
        (0..n).map(|_| self.byte()).collect()
    }
}
