//! A seeded xorshift generator: one seed gives the same inputs everywhere.

pub struct Rng {
    state: u64,
}

impl Rng {
    /// Near seeds are spread apart first; xorshift would never leave state 0.
    pub fn new(seed: u64) -> Rng {
        let spread = seed.wrapping_add(1).wrapping_mul(0x9E37_79B9_7F4A_7C15);
        let state = spread ^ (spread >> 29);
        Rng { state: if state == 0 { 1 } else { state } }
    }

    pub fn draw(&mut self) -> u64 {
        self.state ^= self.state >> 12;
        self.state ^= self.state << 25;
        self.state ^= self.state >> 27;
        self.state.wrapping_mul(0x2545_F491_4F6C_DD1D)
    }

    /// A number from 0 to `count` - 1; 0 when `count` is 0.
    pub fn below(&mut self, count: usize) -> usize {
        // The high bits of this generator are its good ones.
        let high = self.draw() >> 32;
        ((high * count as u64) >> 32) as usize
    }

    /// A number from `low` to `high`, both counted; `low` when they cross.
    pub fn within(&mut self, low: u32, high: u32) -> u32 {
        let count = (high as usize + 1).saturating_sub(low as usize);
        low + self.below(count) as u32
    }

    pub fn byte(&mut self) -> u8 {
        self.below(256) as u8
    }

    pub fn chance(&mut self, percent: usize) -> bool {
        self.below(100) < percent
    }

    /// One of a list that is known not to be empty.
    pub fn pick<T: Copy>(&mut self, list: &[T]) -> T {
        list[self.below(list.len())]
    }

    /// Every order of the list is as likely as any other.
    pub fn shuffle<T>(&mut self, list: &mut [T]) {
        for last in (1..list.len()).rev() {
            let other = self.below(last + 1);
            list.swap(last, other);
        }
    }
}
