//! Words, days that are made of them, and chance for both.

use crate::chance::Chance;

pub const MOST_SHEDS: usize = 8;
pub const MOST_LANES_OF_SHED: usize = 8;
pub const MOST_LANES_OF_BOOK: usize = 32;
pub const LOTS: usize = 256;
pub const MOST_WISHES: usize = 12;
pub const WORDS_OF_LONGEST_DAY: usize = 11_593;
pub const HIGHEST_VALUE: u32 = 4095;

pub const SHED: u32 = 1;
pub const LANE: u32 = 2;
pub const RANK: u32 = 3;
pub const NEXT: u32 = 4;
pub const LOT: u32 = 5;
pub const WISH: u32 = 6;

/// The bits of a field that stands lowest in its word.
pub const FIELD: u32 = 0xfff;

pub fn shed(cap: u32) -> u32 {
    SHED << 28 | cap
}

pub fn lane(target: u32, capacity: u32) -> u32 {
    LANE << 28 | target << 12 | capacity
}

pub fn rank(lane: u32) -> u32 {
    RANK << 28 | lane
}

pub fn next(lot: u32) -> u32 {
    NEXT << 28 | lot
}

pub const fn lot(number: u32) -> u32 {
    LOT << 28 | number
}

pub fn wish(lane: u32) -> u32 {
    WISH << 28 | lane
}

pub fn kind(word: u32) -> u32 {
    word >> 28
}

pub fn with_kind(word: u32, kind: u32) -> u32 {
    word & 0x0fff_ffff | kind << 28
}

pub fn lanes_in(words: &[u32]) -> u32 {
    words.iter().filter(|&&word| kind(word) == LANE).count() as u32
}

pub fn with(mut words: Vec<u32>, more: &[u32]) -> Vec<u32> {
    words.extend(more);
    words
}

/// A day whose first word may be wrong.
pub struct Day {
    /// What the first word says.
    pub number: u32,
    /// The book sheet and the slips.
    pub words: Vec<u32>,
}

impl Day {
    pub fn new(sheet: Vec<u32>, slips: Vec<u32>) -> Day {
        Day { number: sheet.len() as u32, words: [sheet, slips].concat() }
    }

    pub fn bytes(&self) -> Vec<u8> {
        [&[self.number], self.words.as_slice()].concat().iter().flat_map(|word| word.to_be_bytes()).collect()
    }
}

impl Chance {
    pub fn any_word(&mut self) -> u32 {
        (self.draw() >> 32) as u32
    }

    pub fn shuffled(&mut self, end: usize) -> Vec<u32> {
        let mut list: Vec<u32> = (0..end as u32).collect();
        for last in (1..end).rev() {
            list.swap(last, self.below(last + 1));
        }
        list
    }

    /// A cap or a capacity: edges, small and any.
    pub fn value(&mut self) -> u32 {
        match self.below(8) {
            0 => 0,
            1 => HIGHEST_VALUE,
            2..=5 => self.up_to(9),
            _ => self.up_to(HIGHEST_VALUE),
        }
    }
}
