//! The book of a day, and how it is read from a book sheet.

use crate::fault::{Fault, Refusal};
use crate::word::Word;

const MOST_SHEDS: usize = 8;
const MOST_LANES_OF_SHED: usize = 8;
const MOST_LANES_OF_BOOK: usize = 32;

/// Lots are numbered from 0.
pub const HIGHEST_LOT: u32 = 255;

#[derive(Debug, Default)]
pub struct Book {
    pub sheds: Vec<Shed>,
}

#[derive(Debug)]
pub struct Shed {
    pub cap: u32,
    pub lanes: Vec<Lane>,
}

#[derive(Debug)]
pub struct Lane {
    pub target: u32,
    pub capacity: u32,
    /// None until a ranking record names the lane. A record without lots is a ranking too: a second one is refused.
    pub ranking: Option<Vec<u32>>,
}

/// Reads a book sheet. Places in the fault count from the first word of the sheet.
pub fn open(sheet: &[u32]) -> Result<Book, Fault> {
    let mut opening = Opening::default();
    for (place, &raw) in sheet.iter().enumerate() {
        opening.take(raw).map_err(|refusal| Fault { refusal, place })?;
    }
    Ok(opening.book)
}

impl Book {
    /// All lanes in the order of their numbers.
    pub fn lanes(&self) -> impl Iterator<Item = &Lane> {
        self.sheds.iter().flat_map(|shed| &shed.lanes)
    }

    fn lane_mut(&mut self, number: u32) -> Option<&mut Lane> {
        self.sheds.iter_mut().flat_map(|shed| &mut shed.lanes).nth(number as usize)
    }
}

impl Shed {
    pub fn targets(&self) -> u32 {
        self.lanes.iter().map(|lane| lane.target).sum()
    }
}

impl Lane {
    pub fn lots_ranked(&self) -> usize {
        self.ranking.as_ref().map_or(0, Vec::len)
    }
}

/// A book that is being read. Each word is judged by what the words before it have left here.
#[derive(Default)]
struct Opening {
    book: Book,
    /// The lane of the last RANK. Once there is one, the sheds and lanes are complete.
    ranked_lane: Option<u32>,
}

/// Every function here checks in the order of the refusals' numbers, since at one word the smaller number is told.
impl Opening {
    fn take(&mut self, raw: u32) -> Result<(), Refusal> {
        match Word::read(raw)? {
            Word::Shed { cap } => self.shed(cap),
            Word::Lane { target, capacity } => self.lane(target, capacity),
            Word::Rank { lane } => self.rank(lane),
            Word::Next { lot } => self.next(lot),
        }
    }

    fn shed(&mut self, cap: u32) -> Result<(), Refusal> {
        Refusal::Misplaced.when(self.ranked_lane.is_some())?;
        Refusal::TooMany.when(self.book.sheds.len() == MOST_SHEDS)?;
        self.book.sheds.push(Shed { cap, lanes: Vec::new() });
        Ok(())
    }

    fn lane(&mut self, target: u32, capacity: u32) -> Result<(), Refusal> {
        Refusal::Misplaced.when(self.ranked_lane.is_some())?;
        let lanes_of_book = self.book.lanes().count();
        let shed = self.book.sheds.last_mut().ok_or(Refusal::Misplaced)?;
        Refusal::TooMany.when(shed.lanes.len() == MOST_LANES_OF_SHED)?;
        Refusal::TooMany.when(lanes_of_book == MOST_LANES_OF_BOOK)?;
        Refusal::Overtargeted.when(target > capacity)?;
        Refusal::Overtargeted.when(shed.targets() + target > shed.cap)?;
        shed.lanes.push(Lane { target, capacity, ranking: None });
        Ok(())
    }

    fn rank(&mut self, number: u32) -> Result<(), Refusal> {
        let lane = self.book.lane_mut(number).ok_or(Refusal::Unknown)?;
        Refusal::Twice.when(lane.ranking.is_some())?;
        lane.ranking = Some(Vec::new());
        self.ranked_lane = Some(number);
        Ok(())
    }

    fn next(&mut self, lot: u32) -> Result<(), Refusal> {
        let ranking = self.last_ranking().ok_or(Refusal::Misplaced)?;
        Refusal::Unknown.when(lot > HIGHEST_LOT)?;
        Refusal::Twice.when(ranking.contains(&lot))?;
        ranking.push(lot);
        Ok(())
    }

    fn last_ranking(&mut self) -> Option<&mut Vec<u32>> {
        let lane = self.book.lane_mut(self.ranked_lane?)?;
        lane.ranking.as_mut()
    }
}
