//! A set of numbers from 0 to 255: lots, or ranks.

/// One bit for each number, so that the lowest and the highest are found without a search.
#[derive(Clone, Copy, Debug, Default, PartialEq, Eq)]
pub struct Set {
    bits: [u64; 4],
}

impl Set {
    pub fn insert(&mut self, number: u8) {
        self.bits[word(number)] |= bit(number);
    }

    pub fn remove(&mut self, number: u8) {
        self.bits[word(number)] &= !bit(number);
    }

    pub fn contains(&self, number: u8) -> bool {
        self.bits[word(number)] & bit(number) != 0
    }

    pub fn lowest(&self) -> Option<u8> {
        let at = self.bits.iter().position(|&bits| bits != 0)?;
        Some((64 * at as u32 + self.bits[at].trailing_zeros()) as u8)
    }

    pub fn highest(&self) -> Option<u8> {
        let at = self.bits.iter().rposition(|&bits| bits != 0)?;
        Some((64 * at as u32 + 63 - self.bits[at].leading_zeros()) as u8)
    }
}

fn word(number: u8) -> usize {
    usize::from(number / 64)
}

fn bit(number: u8) -> u64 {
    1 << (number % 64)
}
