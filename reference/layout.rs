//! The book as rounds and checks ask for it: a card for each shed, and each lot's rank at a lane without a search.

use crate::book::{Book, Lane, Shed};
use crate::rules::{Card, Terms};
use crate::slip::{LaneNumber, Lot};
use std::ops::Range;

/// How a lane ranks a lot: 0 for its best.
pub type Rank = u8;

#[derive(Clone, Debug)]
pub struct Layout {
    pub sheds: Vec<ShedLayout>,
    pub lanes: Vec<LaneLayout>,
}

#[derive(Clone, Debug)]
pub struct ShedLayout {
    pub card: Card,
    /// The numbers of the shed's lanes, which follow each other.
    pub lanes: Range<usize>,
}

#[derive(Clone, Debug)]
pub struct LaneLayout {
    pub shed: usize,
    /// The lane's place on the card of its shed.
    pub place: usize,
    pub capacity: i64,
    /// The ranked lots, the best first.
    ranking: Vec<Lot>,
    /// The rank of each lot, if it is ranked.
    ranks: [Option<Rank>; 256],
}

impl Layout {
    pub fn of(book: &Book) -> Layout {
        let mut layout = Layout { sheds: Vec::new(), lanes: Vec::new() };
        for (number, shed) in book.sheds.iter().enumerate() {
            let first = layout.lanes.len();
            let lanes = shed.lanes.iter().enumerate();
            layout.lanes.extend(lanes.map(|(place, lane)| LaneLayout::of(lane, number, place)));
            layout.sheds.push(ShedLayout { card: card(shed), lanes: first..layout.lanes.len() });
        }
        layout
    }

    pub fn lane(&self, lane: LaneNumber) -> &LaneLayout {
        &self.lanes[usize::from(lane)]
    }

    pub fn shed_of(&self, lane: LaneNumber) -> &ShedLayout {
        &self.sheds[self.lane(lane).shed]
    }
}

impl LaneLayout {
    fn of(lane: &Lane, shed: usize, place: usize) -> LaneLayout {
        let lots = lane.ranking.as_deref().unwrap_or_default();
        let ranking: Vec<Lot> = lots.iter().map(|&lot| lot as Lot).collect();
        let mut ranks = [None; 256];
        for (&lot, rank) in ranking.iter().zip(0..=Rank::MAX) {
            ranks[usize::from(lot)] = Some(rank);
        }
        LaneLayout { shed, place, capacity: lane.capacity.into(), ranking, ranks }
    }

    pub fn rank(&self, lot: Lot) -> Option<Rank> {
        self.ranks[usize::from(lot)]
    }

    pub fn lot(&self, rank: Rank) -> Lot {
        self.ranking[usize::from(rank)]
    }
}

fn card(shed: &Shed) -> Card {
    let terms = |lane: &Lane| Terms { capacity: lane.capacity.into(), target: lane.target.into() };
    Card { cap: shed.cap.into(), lanes: shed.lanes.iter().map(terms).collect() }
}
