//! A day: from bytes to words, and from words to a book and a round. Faults have their place in the whole input here.

use crate::book::{self, Book};
use crate::fault::{Fault, Refusal};
use crate::round::Round;
use crate::rules::Rule;
use crate::slip;

/// The most bytes that a day may have.
pub const LONGEST: usize = 46_372;

/// The first word of a day stands before the book sheet.
const WORDS_BEFORE_SHEET: usize = 1;

pub const MOST_WORDS_BEHIND_FIRST: usize = LONGEST / 4 - WORDS_BEFORE_SHEET;

/// The words behind the first word of a day.
#[derive(Debug)]
pub struct Day {
    sheet: Vec<u32>,
    slips: Vec<u32>,
}

impl Day {
    pub fn read(bytes: &[u8]) -> Result<Day, Fault> {
        cut(bytes).ok_or(Fault { refusal: Refusal::Ragged, place: 0 })
    }

    pub fn open_book(&self) -> Result<Book, Fault> {
        book::open(&self.sheet).map_err(|fault| fault.behind(WORDS_BEFORE_SHEET))
    }

    pub fn slip_words(&self) -> usize {
        self.slips.len()
    }

    /// A round of this book that all slips are entered into, one after the other.
    pub fn begin_round(&self, book: &Book, rule: Rule) -> Result<Round, Fault> {
        let mut round = Round::begin(book, rule);
        for (words_before, slip) in slip::cut(&self.slips) {
            let place = WORDS_BEFORE_SHEET + self.sheet.len() + words_before;
            round.enter(slip).map_err(|fault| fault.behind(place))?;
        }
        Ok(round)
    }
}

/// None if the day is ragged. There is one refusal and one place for all the ways in which it may be.
fn cut(bytes: &[u8]) -> Option<Day> {
    if bytes.len() > LONGEST {
        return None;
    }
    let words = words(bytes)?;
    let (&number, rest) = words.split_first()?;
    let (sheet, slips) = rest.split_at_checked(usize::try_from(number).ok()?)?;
    Some(Day { sheet: sheet.to_vec(), slips: slips.to_vec() })
}

/// Four bytes to a word, the highest first. None if some bytes are left over.
fn words(bytes: &[u8]) -> Option<Vec<u32>> {
    bytes.chunks(4).map(|four| Some(u32::from_be_bytes(four.try_into().ok()?))).collect()
}
