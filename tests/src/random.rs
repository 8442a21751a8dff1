//! A small generator of numbers from a fixed seed (xorshift, 64 bits of state).

pub struct Random {
    state: u64,
}

impl Random {
    /// A generator with this seed, which is not 0.
    pub fn new(seed: u64) -> Random {
        assert!(seed != 0, "the generator stays at 0");
        Random { state: seed }
    }

    /// 64 bits.
    pub fn draw(&mut self) -> u64 {
        self.state ^= self.state << 13;
        self.state ^= self.state >> 7;
        self.state ^= self.state << 17;
        self.state
    }

    /// A number below the bound, which is not 0.
    pub fn below(&mut self, bound: usize) -> usize {
        ((self.draw() >> 16) % bound as u64) as usize
    }

    /// A number from low to high, both included.
    pub fn between(&mut self, low: usize, high: usize) -> usize {
        low + self.below(high - low + 1)
    }

    /// One of the list's elements.
    pub fn pick(&mut self, list: &[u32]) -> u32 {
        list[self.below(list.len())]
    }

    /// Puts the list into another order.
    pub fn shuffle(&mut self, list: &mut [u32]) {
        for i in (1..list.len()).rev() {
            list.swap(i, self.below(i + 1));
        }
    }
}
