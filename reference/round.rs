//! A round: slips are entered, lots apply, and in the end a plan is issued.

use crate::book::{Book, HIGHEST_LOT};
use crate::fault::{Fault, Refusal};
use crate::layout::{Layout, Rank};
use crate::plan::PlanWord;
use crate::rules::{Card, Place, Rule};
use crate::set::Set;
use crate::slip::{LaneNumber, List, Lot, Slip};

/// An open round. It keeps a copy of the book and its rule.
#[derive(Clone, Debug)]
pub struct Round {
    layout: Layout,
    rule: Rule,
    lots: Vec<Record>,
    /// The lots whose line says looking.
    looking: Set,
    /// For each lane the ranks of the lots that it holds, so that its worst is the highest.
    held: Vec<Set>,
    /// For each lane how many lots it holds.
    filling: Vec<i64>,
    applications: u32,
}

/// A round that is decided. It takes no slip and no application, and has a plan.
#[derive(Debug)]
pub struct Issued {
    round: Round,
}

/// What a round says of one lot.
#[derive(Clone, Copy, Debug, PartialEq, Eq)]
pub enum Line {
    Absent,
    Looking,
    Held,
    Spent,
}

/// What an application came to.
#[derive(Clone, Copy, Debug, PartialEq, Eq)]
pub enum Applied {
    Taken,
    /// Taken, and another lot was dropped for it.
    TakenFor(Lot),
    TurnedAway,
}

#[derive(Clone, Copy, Debug)]
struct Record {
    line: Line,
    list: List,
    /// The wish that the lot looks at, or whose lane holds it: a place on its list.
    wish: usize,
}

impl Record {
    const ABSENT: Record = Record { line: Line::Absent, list: List::EMPTY, wish: 0 };

    fn wished_lane(&self) -> LaneNumber {
        self.list.wishes()[self.wish]
    }

    /// Looks at the wish with this place on the list, or is spent if there is none.
    fn look_at(&mut self, wish: usize) {
        self.wish = wish;
        self.line = if wish < self.list.wishes().len() { Line::Looking } else { Line::Spent };
    }
}

impl Round {
    pub fn begin(book: &Book, rule: Rule) -> Round {
        let layout = Layout::of(book);
        let lanes = layout.lanes.len();
        Round {
            layout,
            rule,
            lots: vec![Record::ABSENT; HIGHEST_LOT as usize + 1],
            looking: Set::default(),
            held: vec![Set::default(); lanes],
            filling: vec![0; lanes],
            applications: 0,
        }
    }

    /// Enters a slip. A refused one leaves the round as it was.
    pub fn enter(&mut self, words: &[u32]) -> Result<(), Fault> {
        let slip = Slip::read(words, self.layout.lanes.len(), |lot| self.line(lot) != Line::Absent)?;
        self.record(slip.lot).list = slip.list;
        self.look_at(slip.lot, 0);
        Ok(())
    }

    /// Applies a looking lot to its next wish. Any number may be given, and one that is no looking lot is refused.
    pub fn apply(&mut self, number: u32) -> Result<Applied, Fault> {
        let lot = Lot::try_from(number).ok().filter(|&lot| self.looking.contains(lot));
        let lot = lot.ok_or(Fault { refusal: Refusal::Idle, place: 0 })?;
        Ok(self.apply_looking(lot))
    }

    /// Applies the lowest looking lot until no lot looks. Answers how many applications it made.
    pub fn settle(&mut self) -> u32 {
        let before = self.applications;
        while let Some(lot) = self.looking.lowest() {
            self.apply_looking(lot);
        }
        self.applications - before
    }

    pub fn issue(mut self) -> Issued {
        self.settle();
        Issued { round: self }
    }

    pub fn line(&self, lot: Lot) -> Line {
        self.lots[usize::from(lot)].line
    }

    /// The entered lots, by number.
    pub fn entered(&self) -> impl Iterator<Item = Lot> + '_ {
        (0..=Lot::MAX).filter(|&lot| self.line(lot) != Line::Absent)
    }

    /// The lot's list. A lot that is not entered has an empty one.
    pub fn wishes(&self, lot: Lot) -> &[LaneNumber] {
        self.lots[usize::from(lot)].list.wishes()
    }

    /// The lane that holds the lot, if one does.
    pub fn lane_of(&self, lot: Lot) -> Option<LaneNumber> {
        let record = &self.lots[usize::from(lot)];
        (record.line == Line::Held).then(|| record.wished_lane())
    }

    pub fn applications(&self) -> u32 {
        self.applications
    }

    fn record(&mut self, lot: Lot) -> &mut Record {
        &mut self.lots[usize::from(lot)]
    }

    fn look_at(&mut self, lot: Lot, wish: usize) {
        let record = self.record(lot);
        record.look_at(wish);
        if record.line == Line::Looking {
            self.looking.insert(lot);
        } else {
            self.looking.remove(lot);
        }
    }

    /// A lot that is turned away looks at its next wish.
    fn turn_away(&mut self, lot: Lot) {
        let next = self.record(lot).wish + 1;
        self.look_at(lot, next);
    }

    /// The lane takes the lot in, and then the shed lets go of what is too much, which may be the same lot.
    fn apply_looking(&mut self, lot: Lot) -> Applied {
        self.applications += 1;
        let lane = self.record(lot).wished_lane();
        let Some(rank) = self.layout.lane(lane).rank(lot) else {
            self.turn_away(lot);
            return Applied::TurnedAway;
        };
        self.take_in(lot, lane, rank);
        let Some(crowded) = self.crowded_lane(lane) else {
            return Applied::Taken;
        };
        let dropped = self.drop_worst(crowded);
        self.turn_away(dropped);
        if dropped == lot {
            Applied::TurnedAway
        } else {
            Applied::TakenFor(dropped)
        }
    }

    fn take_in(&mut self, lot: Lot, lane: LaneNumber, rank: Rank) {
        self.record(lot).line = Line::Held;
        self.looking.remove(lot);
        self.held[usize::from(lane)].insert(rank);
        self.filling[usize::from(lane)] += 1;
    }

    /// The lane that may not keep all its lots now that one has come to the wished lane.
    ///
    /// Before it came, the lanes held what the rule had let them keep. So there is one lot too many at most, and what
    /// the rule keeps of this supply is known without lining up all places: if the wished lane has more lots than
    /// places, there are no more places than before and it loses one lot; if the shed has a place more than its cap,
    /// the last place in the line is not kept.
    fn crowded_lane(&self, wished: LaneNumber) -> Option<usize> {
        let shed = self.layout.shed_of(wished);
        let supply = &self.filling[shed.lanes.clone()];
        let wished = self.layout.lane(wished);
        if supply[wished.place] > wished.capacity {
            return Some(shed.lanes.start + wished.place);
        }
        if supply.iter().sum::<i64>() <= shed.card.cap {
            return None;
        }
        last_in_line(self.rule, &shed.card, supply).map(|place| shed.lanes.start + place)
    }

    /// The lane lets go of its worst lot.
    fn drop_worst(&mut self, lane: usize) -> Lot {
        let held = &mut self.held[lane];
        let worst = held.highest().expect("a crowded lane holds a lot");
        held.remove(worst);
        self.filling[lane] -= 1;
        self.layout.lanes[lane].lot(worst)
    }
}

/// The lane, by its place on the card, that has the last place in the line. No lane has more lots than places, so this
/// is one of the lanes' last places.
fn last_in_line(rule: Rule, card: &Card, supply: &[i64]) -> Option<usize> {
    let lanes = supply.iter().enumerate().filter(|(_, &lots)| lots > 0);
    let last_places = lanes.map(|(lane, &number)| Place { lane, number });
    last_places.max_by(|&one, &other| rule.order(card, one, other)).map(|last| last.lane)
}

impl Issued {
    pub fn entered(&self) -> impl Iterator<Item = Lot> + '_ {
        self.round.entered()
    }

    pub fn layout(&self) -> &Layout {
        &self.round.layout
    }

    pub fn rule(&self) -> Rule {
        self.round.rule
    }

    pub fn wishes(&self, lot: Lot) -> &[LaneNumber] {
        self.round.wishes(lot)
    }

    /// The words of the plan.
    pub fn plan(&self) -> Vec<u32> {
        let lots = self.entered().map(|lot| self.plan_word(lot));
        let count = PlanWord::Count { applications: self.round.applications };
        lots.chain([count]).map(PlanWord::raw).collect()
    }

    fn plan_word(&self, lot: Lot) -> PlanWord {
        match self.round.lane_of(lot) {
            Some(lane) => PlanWord::Placed { lane: lane.into(), lot: lot.into() },
            None => PlanWord::Unplaced { lot: lot.into() },
        }
    }

    /// Writes the words of the plan to the front of the buffer and answers how many they are. If they do not fit, the
    /// buffer is left as it was.
    pub fn write_plan(&self, buffer: &mut [u32]) -> Result<usize, Fault> {
        let plan = self.plan();
        let front = buffer.get_mut(..plan.len()).ok_or(Fault { refusal: Refusal::Short, place: 0 })?;
        front.copy_from_slice(&plan);
        Ok(plan.len())
    }
}
