//! The two sharing rules: what the lanes of a shed keep of a supply, and whether the shed gains by a move.

use std::cmp::Ordering;

/// What the book says of one shed, without the rankings. Lanes go by their place here.
#[derive(Clone, Debug, Default)]
pub struct Card {
    pub cap: i64,
    pub lanes: Vec<Terms>,
}

/// The numbers of one lane on a card. The target is at most the capacity, and the targets of a card sum to at most its
/// cap.
#[derive(Clone, Copy, Debug, PartialEq, Eq)]
pub struct Terms {
    pub capacity: i64,
    pub target: i64,
}

#[derive(Clone, Copy, Debug, PartialEq, Eq)]
pub enum Rule {
    Turns,
    Shares,
}

/// A place in the line: the `number`-th of its lane, counted from 1.
#[derive(Clone, Copy, Debug)]
pub struct Place {
    pub lane: usize,
    pub number: i64,
}

impl Card {
    pub fn targets(&self) -> i64 {
        self.lanes.iter().map(|lane| lane.target).sum()
    }

    /// How far a place is beyond its lane's target. Up to the target this is 0 or less.
    fn beyond_target(&self, place: Place) -> i64 {
        place.number - self.lanes[place.lane].target
    }

    /// All places of the shed, one for each lot of the supply that its lane has room for.
    fn places(&self, supply: &[i64]) -> Vec<Place> {
        let mut places = Vec::new();
        for (lane, (terms, &lots)) in self.lanes.iter().zip(supply).enumerate() {
            places.extend((1..=lots.min(terms.capacity)).map(|number| Place { lane, number }));
        }
        places
    }
}

impl Rule {
    /// How many lots each lane keeps. There is one number in the supply for each lane of the card.
    pub fn choice(self, card: &Card, supply: &[i64]) -> Vec<i64> {
        let mut line = card.places(supply);
        line.sort_by(|&one, &other| self.order(card, one, other));
        line.truncate(card.cap as usize);
        let mut kept = vec![0; card.lanes.len()];
        for place in line {
            kept[place.lane] += 1;
        }
        kept
    }

    /// Which of two places comes first. Places up to the target come before all others; how they stand among themselves
    /// does not matter, since the cap has room for all of them.
    pub fn order(self, card: &Card, one: Place, other: Place) -> Ordering {
        let (here, there) = (card.beyond_target(one), card.beyond_target(other));
        if here <= 0 || there <= 0 {
            return (here > 0).cmp(&(there > 0));
        }
        let by_rule = match self {
            Rule::Turns => here.cmp(&there),
            // Lanes with places have a capacity above 0, so this compares two quotients.
            Rule::Shares => (here * card.lanes[other.lane].capacity).cmp(&(there * card.lanes[one.lane].capacity)),
        };
        by_rule.then(one.lane.cmp(&other.lane))
    }

    /// Whether the shed gains by moving one lot from the lane `from` to the lane `to`. There is one number in the
    /// filling for each lane of the card.
    pub fn gain(self, card: &Card, filling: &[i64], from: usize, to: usize) -> bool {
        let (Some(a), Some(b)) = (card.lanes.get(from), card.lanes.get(to)) else {
            return false;
        };
        if from == to || filling[from] == 0 || filling[to] >= b.capacity {
            return false;
        }
        let left = filling[from] - 1 - a.target;
        let entered = filling[to] + 1 - b.target;
        match self {
            Rule::Turns => entered <= left,
            Rule::Shares => entered * a.capacity <= left * b.capacity,
        }
    }
}
