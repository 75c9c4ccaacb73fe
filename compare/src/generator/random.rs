//! Pseudo-random numbers (splitmix64).

pub struct Random {
    state: u64,
}

impl Random {
    pub fn new(seed: u64, number: u64) -> Random {
        let mut random = Random { state: seed };
        let mixed = random.next() ^ number;
        Random { state: mixed }
    }

    pub fn next(&mut self) -> u64 {
        self.state = self.state.wrapping_add(0x9E37_79B9_7F4A_7C15);
        let mut z = self.state;
        z = (z ^ (z >> 30)).wrapping_mul(0xBF58_476D_1CE4_E5B9);
        z = (z ^ (z >> 27)).wrapping_mul(0x94D0_49BB_1331_11EB);
        z ^ (z >> 31)
    }

    /// A number below the limit; 0 where the limit is 0.
    pub fn below(&mut self, limit: usize) -> usize {
        if limit == 0 {
            return 0;
        }
        (self.next() % limit as u64) as usize
    }

    /// A number from low to high, both included.
    pub fn between(&mut self, low: usize, high: usize) -> usize {
        low + self.below(high - low + 1)
    }

    /// True in so many of a hundred draws.
    pub fn percent(&mut self, chance: usize) -> bool {
        self.below(100) < chance
    }

    pub fn pick<T: Copy>(&mut self, items: &[T]) -> T {
        items[self.below(items.len())]
    }

    pub fn shuffle<T>(&mut self, items: &mut [T]) {
        for i in (1..items.len()).rev() {
            items.swap(i, self.below(i + 1));
        }
    }

    /// So many different numbers below the limit, in random order.
    pub fn distinct(&mut self, limit: usize, count: usize) -> Vec<usize> {
        let mut numbers: Vec<usize> = (0..limit).collect();
        self.shuffle(&mut numbers);
        numbers.truncate(count);
        numbers
    }

    pub fn byte(&mut self) -> u8 {
        self.next() as u8
    }

    /// A weight from 1 to 4, mostly 1.
    pub fn small_weight(&mut self) -> u16 {
        self.pick(&[1, 1, 1, 1, 2, 2, 3, 4])
    }

    /// A weight of any size.
    pub fn weight(&mut self) -> u16 {
        match self.below(20) {
            0 => self.pick(&[65_535, 65_534, 32_768, 32_767, 256, 257, 255]),
            1 => self.between(1, 65_535) as u16,
            2 => self.between(1, 300) as u16,
            _ => self.small_weight(),
        }
    }

    /// A mark of any size, mostly small.
    pub fn mark(&mut self) -> u32 {
        match self.below(20) {
            0 => self.pick(&[
                u32::MAX,
                u32::MAX - 1,
                1 << 31,
                65_535,
                65_536,
                65_537,
                1 << 16,
            ]),
            1 => self.next() as u32,
            2 => self.between(0, 70_000) as u32,
            3..=9 => 0,
            _ => self.between(0, 5) as u32,
        }
    }

    /// A factor of any size, mostly small.
    pub fn factor(&mut self) -> u16 {
        match self.below(16) {
            0 => 0,
            1 => self.pick(&[65_535, 65_534, 32_768, 256, 257, 4096]),
            2 => self.next() as u16,
            _ => self.between(1, 4) as u16,
        }
    }
}
