//! A question to both rules, read from a line of bytes.

use crate::rules::{Card, Terms};

const MOST_LANES: usize = 8;
const HIGHEST_ON_CARD: i64 = 4095;
const HIGHEST_NUMBER: i64 = 65_535;

#[derive(Debug, Default)]
pub struct Question {
    pub card: Card,
    /// One for each lane: its supply for what the rules keep, its filling for what they gain.
    pub numbers: Vec<i64>,
    /// The lanes that a lot is moved from and to. They need not be on the card.
    pub asked_move: Option<(usize, usize)>,
}

/// Why a line is no question. Lanes go by their place on the card.
#[derive(Clone, Copy, Debug, PartialEq, Eq)]
pub enum Complaint {
    NoCap,
    Cap,
    BehindMove,
    Move,
    NinthLane,
    Lane(usize),
    Capacity(usize),
    Target(usize),
    Targets(usize),
}

impl Question {
    pub fn read(line: &[u8]) -> Result<Question, Complaint> {
        let mut words = line.split(|byte| b" \t\r".contains(byte)).filter(|word| !word.is_empty());
        let mut question = Question::default();
        question.card.cap = read_cap(words.next().ok_or(Complaint::NoCap)?)?;
        for word in words {
            question.take(word)?;
        }
        Ok(question)
    }

    /// Takes a word behind the cap. Faults are looked for in the order of their numbers, since of the faults of one
    /// word the first is told.
    fn take(&mut self, word: &[u8]) -> Result<(), Complaint> {
        if self.asked_move.is_some() {
            return Err(Complaint::BehindMove);
        }
        if word.contains(&b'>') {
            self.asked_move = Some(read_move(word).ok_or(Complaint::Move)?);
            return Ok(());
        }
        self.take_lane(word)
    }

    fn take_lane(&mut self, word: &[u8]) -> Result<(), Complaint> {
        let lane = self.card.lanes.len();
        if lane == MOST_LANES {
            return Err(Complaint::NinthLane);
        }
        let [capacity, target, number] = numbers(word, b'/').ok_or(Complaint::Lane(lane))?;
        if capacity > HIGHEST_ON_CARD {
            return Err(Complaint::Capacity(lane));
        }
        if target > capacity {
            return Err(Complaint::Target(lane));
        }
        if self.card.targets() + target > self.card.cap {
            return Err(Complaint::Targets(lane));
        }
        self.card.lanes.push(Terms { capacity, target });
        self.numbers.push(number);
        Ok(())
    }
}

fn read_cap(word: &[u8]) -> Result<i64, Complaint> {
    number(word).filter(|&cap| cap <= HIGHEST_ON_CARD).ok_or(Complaint::Cap)
}

fn read_move(word: &[u8]) -> Option<(usize, usize)> {
    let [a, b] = numbers(word, b'>')?;
    Some((a as usize, b as usize))
}

/// So many numbers, neither more nor fewer, with one separator between each two.
fn numbers<const COUNT: usize>(word: &[u8], separator: u8) -> Option<[i64; COUNT]> {
    let numbers: Option<Vec<i64>> = word.split(|&byte| byte == separator).map(number).collect();
    numbers?.try_into().ok()
}

fn number(digits: &[u8]) -> Option<i64> {
    if digits.is_empty() || !digits.iter().all(u8::is_ascii_digit) {
        return None;
    }
    // Once too high a number stays too high, so it need not grow further, however many digits there are.
    let value = digits.iter().fold(0, |value, digit| (10 * value + i64::from(digit - b'0')).min(HIGHEST_NUMBER + 1));
    (value <= HIGHEST_NUMBER).then_some(value)
}
