//! Slips: how a run of words is cut into them, and how one is read.

use crate::book::HIGHEST_LOT;
use crate::fault::{Fault, Refusal};
use crate::word::single_field;

pub const MOST_WISHES: usize = 12;

/// A lot's number. Those above 255 are refused before they get here.
pub type Lot = u8;

/// The number of a lane that is in the book.
pub type LaneNumber = u8;

const LOT: u32 = 5;
const WISH: u32 = 6;

/// Cuts a run of words before each word of kind 5, whatever its other bits are. Each slip comes with the number of
/// words before it.
pub fn cut(run: &[u32]) -> impl Iterator<Item = (usize, &[u32])> {
    let mut before = 0;
    run.chunk_by(|_, &next| kind(next) != LOT).map(move |words| {
        let place = before;
        before += words.len();
        (place, words)
    })
}

fn kind(raw: u32) -> u32 {
    raw >> 28
}

#[derive(Debug)]
pub struct Slip {
    pub lot: Lot,
    pub list: List,
}

/// The lanes that a lot wants, the most wanted first. It stands in place, since no list is long.
#[derive(Clone, Copy, Debug)]
pub struct List {
    lanes: [LaneNumber; MOST_WISHES],
    length: usize,
}

impl List {
    pub const EMPTY: List = List { lanes: [0; MOST_WISHES], length: 0 };

    pub fn wishes(&self) -> &[LaneNumber] {
        &self.lanes[..self.length]
    }
}

impl Slip {
    /// Reads a slip. It is judged by the number of lanes in the book and by which lots are entered.
    pub fn read(words: &[u32], lanes: usize, entered: impl Fn(Lot) -> bool) -> Result<Slip, Fault> {
        let at = |place| move |refusal| Fault { refusal, place };
        let (&first, wishes) = words.split_first().ok_or(Refusal::Misplaced).map_err(at(0))?;
        let lot = read_lot(first, entered).map_err(at(0))?;
        let mut list = List::EMPTY;
        for (&raw, place) in wishes.iter().zip(1..) {
            list.take(raw, lanes).map_err(at(place))?;
        }
        Ok(Slip { lot, list })
    }
}

/// A word that may stand on a slip, taken apart.
enum Word {
    Lot { lot: u32 },
    Wish { lane: u32 },
}

impl Word {
    fn read(raw: u32) -> Result<Word, Refusal> {
        match kind(raw) {
            LOT => Ok(Word::Lot { lot: single_field(raw)? }),
            WISH => Ok(Word::Wish { lane: single_field(raw)? }),
            _ => Err(Refusal::Strange),
        }
    }
}

// Both functions check in the order of the refusals' numbers, since at one word the smaller number is told.

fn read_lot(raw: u32, entered: impl Fn(Lot) -> bool) -> Result<Lot, Refusal> {
    let Word::Lot { lot } = Word::read(raw)? else {
        return Err(Refusal::Misplaced);
    };
    Refusal::Unknown.when(lot > HIGHEST_LOT)?;
    let lot = lot as Lot;
    Refusal::Twice.when(entered(lot))?;
    Ok(lot)
}

impl List {
    fn take(&mut self, raw: u32, lanes: usize) -> Result<(), Refusal> {
        let Word::Wish { lane } = Word::read(raw)? else {
            return Err(Refusal::Misplaced);
        };
        Refusal::TooMany.when(self.length == MOST_WISHES)?;
        Refusal::Unknown.when(lane as usize >= lanes)?;
        let lane = lane as LaneNumber;
        Refusal::Twice.when(self.wishes().contains(&lane))?;
        self.lanes[self.length] = lane;
        self.length += 1;
        Ok(())
    }
}
