//! The words of plans, and how offered words are read as a plan.

use crate::fault::{Fault, Refusal};
use crate::round::Issued;
use crate::slip::{LaneNumber, Lot};
use crate::word::{single_field, two_fields};

const PLACED: u32 = 7;
const UNPLACED: u32 = 8;
const COUNT: u32 = 9;

/// The bits of the field of COUNT, which has all bits below the kind.
const COUNT_FIELD: u32 = 0x0fff_ffff;

#[derive(Clone, Copy, Debug, PartialEq, Eq)]
pub enum PlanWord {
    Placed { lane: u32, lot: u32 },
    Unplaced { lot: u32 },
    Count { applications: u32 },
}

impl PlanWord {
    pub fn raw(self) -> u32 {
        match self {
            PlanWord::Placed { lane, lot } => PLACED << 28 | lane << 12 | lot,
            PlanWord::Unplaced { lot } => UNPLACED << 28 | lot,
            PlanWord::Count { applications } => COUNT << 28 | applications,
        }
    }

    /// None if this is no word of a plan.
    fn read(raw: u32) -> Option<PlanWord> {
        match raw >> 28 {
            PLACED => {
                let (lane, lot) = two_fields(raw).ok()?;
                Some(PlanWord::Placed { lane, lot })
            }
            UNPLACED => Some(PlanWord::Unplaced { lot: single_field(raw).ok()? }),
            COUNT => Some(PlanWord::Count { applications: raw & COUNT_FIELD }),
            _ => None,
        }
    }
}

/// Where a plan has one lot.
#[derive(Clone, Copy, Debug, PartialEq, Eq)]
pub struct Placing {
    pub lot: Lot,
    pub lane: Option<LaneNumber>,
}

/// Reads words that are offered as the plan of this round: each entered lot by number with a lane of the book or none,
/// one COUNT with any number, and no more.
pub fn read(words: &[u32], issued: &Issued) -> Result<Vec<Placing>, Fault> {
    let mut offered = Offered { words, place: 0 };
    let mut placings = Vec::new();
    for lot in issued.entered() {
        placings.push(offered.next(|word| placing(word, lot, issued.layout().lanes.len()))?);
    }
    offered.next(|word| matches!(word, PlanWord::Count { .. }).then_some(()))?;
    if offered.place < words.len() {
        return Err(offered.misfit());
    }
    Ok(placings)
}

/// None if the word is not of this lot, or names a lane that is not in the book.
fn placing(word: PlanWord, expected: Lot, lanes: usize) -> Option<Placing> {
    let (lot, lane) = match word {
        PlanWord::Placed { lane, lot } if (lane as usize) < lanes => (lot, Some(lane as LaneNumber)),
        PlanWord::Unplaced { lot } => (lot, None),
        _ => return None,
    };
    (lot == u32::from(expected)).then_some(Placing { lot: expected, lane })
}

/// Offered words, and the place of the next one.
struct Offered<'a> {
    words: &'a [u32],
    place: usize,
}

impl Offered<'_> {
    /// The next word, if it can stand there. Where words stop early this is refused at their length.
    fn next<T>(&mut self, fitting: impl FnOnce(PlanWord) -> Option<T>) -> Result<T, Fault> {
        let word = self.words.get(self.place).and_then(|&raw| PlanWord::read(raw));
        let fit = word.and_then(fitting).ok_or(self.misfit())?;
        self.place += 1;
        Ok(fit)
    }

    fn misfit(&self) -> Fault {
        Fault { refusal: Refusal::Misfit, place: self.place }
    }
}
