//! Chance for the makers of days and lines, the same from the same seed.

/// A small generator of numbers that look like chance (splitmix).
pub struct Chance(u64);

impl Chance {
    /// Each thing that is made has a generator of its own, so that it does not depend on how many are made.
    pub fn new(seed: u64, number: usize) -> Chance {
        let mut of_seed = Chance(seed);
        Chance(of_seed.draw() ^ number as u64)
    }

    pub fn draw(&mut self) -> u64 {
        self.0 = self.0.wrapping_add(0x9e37_79b9_7f4a_7c15);
        let mut z = self.0;
        z = (z ^ (z >> 30)).wrapping_mul(0xbf58_476d_1ce4_e5b9);
        z = (z ^ (z >> 27)).wrapping_mul(0x94d0_49bb_1331_11eb);
        z ^ (z >> 31)
    }

    /// A number from 0 to one less than `end`.
    pub fn below(&mut self, end: usize) -> usize {
        (self.draw() % end as u64) as usize
    }

    pub fn up_to(&mut self, most: u32) -> u32 {
        self.below(most as usize + 1) as u32
    }

    pub fn one_in(&mut self, times: usize) -> bool {
        self.below(times) == 0
    }

    pub fn pick<T: Copy>(&mut self, list: &[T]) -> T {
        list[self.below(list.len())]
    }
}

/// The one whose turn it is, if they come up one after another.
pub fn of_turn<T: Copy>(list: &[T], turn: usize) -> T {
    list[turn % list.len()]
}
