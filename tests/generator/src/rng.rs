//! A small generator of numbers (splitmix64).

#[derive(Clone, Debug)]
pub struct Rng {
    state: u64,
}

impl Rng {
    pub fn new(seed: u64) -> Rng {
        Rng { state: seed }
    }

    pub fn next(&mut self) -> u64 {
        self.state = self.state.wrapping_add(0x9E37_79B9_7F4A_7C15);
        let mut z = self.state;
        z = (z ^ (z >> 30)).wrapping_mul(0xBF58_476D_1CE4_E5B9);
        z = (z ^ (z >> 27)).wrapping_mul(0x94D0_49BB_1331_11EB);
        z ^ (z >> 31)
    }

    /// 0 to count - 1; 0 if the count is 0.
    pub fn below(&mut self, count: u64) -> u64 {
        self.next() % count.max(1)
    }

    pub fn index(&mut self, count: usize) -> usize {
        self.below(count as u64) as usize
    }

    /// Least to most, both among them.
    pub fn between(&mut self, least: i128, most: i128) -> i128 {
        least + (self.next() as i128) % (most - least + 1)
    }

    pub fn chance(&mut self, percent: u64) -> bool {
        self.below(100) < percent
    }

    pub fn pick<T: Copy>(&mut self, from: &[T]) -> T {
        from[self.index(from.len())]
    }

    /// The numbers below the count in any order.
    pub fn order(&mut self, count: usize) -> Vec<usize> {
        let mut order: Vec<usize> = (0..count).collect();
        for i in (1..count).rev() {
            order.swap(i, self.index(i + 1));
        }
        order
    }

    /// The value, or one beside it.
    pub fn beside(&mut self, value: i128) -> i128 {
        value + self.pick(&[-1, 0, 0, 1])
    }

    /// Within a range, mostly at its ends.
    pub fn spread(&mut self, least: i128, most: i128) -> i128 {
        let value = match self.below(10) {
            0 | 1 => least,
            2 | 3 => most,
            4 => least + 1,
            5 => most - 1,
            6 | 7 => self.between(least, most),
            _ => {
                // Any number of digits.
                let digits = self.below(8) as u32;
                least + self.between(0, 10i128.pow(digits))
            }
        };
        value.clamp(least, most)
    }
}
