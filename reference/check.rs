//! The check: judges words that are offered as the plan of an issued round.

use crate::fault::Fault;
use crate::layout::{Layout, Rank};
use crate::plan::{self, Placing};
use crate::round::Issued;
use crate::slip::{LaneNumber, Lot};

/// The first verdict that applies, in this order.
#[derive(Clone, Copy, Debug, PartialEq, Eq)]
pub enum Verdict {
    Unlisted(Lot),
    OverfullLane(usize),
    OverfullShed(usize),
    Pair { lot: Lot, lane: LaneNumber },
    Sound,
}

pub fn check(issued: &Issued, words: &[u32]) -> Result<Verdict, Fault> {
    let plan = plan::read(words, issued)?;
    let checking = Checking { issued, holdings: Holdings::of(&plan, issued.layout()) };
    Ok(checking.verdict(&plan))
}

/// What the lanes hold by the plan.
struct Holdings {
    /// For each lane the number of its lots.
    filling: Vec<i64>,
    /// For each lane the worst rank among its lots. Lots that it does not rank are left out; a plan that has one is
    /// judged unlisted before any rank is asked for.
    worst: Vec<Option<Rank>>,
    /// For each shed the number of its lots.
    stored: Vec<i64>,
}

impl Holdings {
    fn of(plan: &[Placing], layout: &Layout) -> Holdings {
        let lanes = layout.lanes.len();
        let mut holdings =
            Holdings { filling: vec![0; lanes], worst: vec![None; lanes], stored: vec![0; layout.sheds.len()] };
        for placing in plan {
            if let Some(lane) = placing.lane {
                let number = usize::from(lane);
                holdings.filling[number] += 1;
                holdings.stored[layout.lane(lane).shed] += 1;
                holdings.worst[number] = holdings.worst[number].max(layout.lane(lane).rank(placing.lot));
            }
        }
        holdings
    }
}

struct Checking<'a> {
    issued: &'a Issued,
    holdings: Holdings,
}

impl Checking<'_> {
    fn verdict(&self, plan: &[Placing]) -> Verdict {
        let unlisted =
            || plan.iter().find(|placing| !self.listed(placing)).map(|placing| Verdict::Unlisted(placing.lot));
        let pair = || plan.iter().find_map(|placing| self.pair(placing));
        unlisted()
            .or_else(|| self.overfull_lane())
            .or_else(|| self.overfull_shed())
            .or_else(pair)
            .unwrap_or(Verdict::Sound)
    }

    /// Whether the lot's lane is on its list and ranks it. A lot without a lane has nothing to be judged by.
    fn listed(&self, placing: &Placing) -> bool {
        let on_list = |lane| self.issued.wishes(placing.lot).contains(&lane);
        let ranked = |lane| self.layout().lane(lane).rank(placing.lot).is_some();
        placing.lane.is_none_or(|lane| on_list(lane) && ranked(lane))
    }

    fn overfull_lane(&self) -> Option<Verdict> {
        let mut lanes = self.layout().lanes.iter().zip(&self.holdings.filling);
        lanes.position(|(lane, &lots)| lots > lane.capacity).map(Verdict::OverfullLane)
    }

    fn overfull_shed(&self) -> Option<Verdict> {
        let mut sheds = self.layout().sheds.iter().zip(&self.holdings.stored);
        sheds.position(|(shed, &lots)| lots > shed.card.cap).map(Verdict::OverfullShed)
    }

    /// The lot's first pair that is not excused.
    fn pair(&self, placing: &Placing) -> Option<Verdict> {
        let wishes = self.issued.wishes(placing.lot).iter();
        let mut above = wishes.take_while(|&&lane| Some(lane) != placing.lane);
        let lane = *above.find(|&&lane| !self.excused(placing, lane))?;
        Some(Verdict::Pair { lot: placing.lot, lane })
    }

    fn excused(&self, placing: &Placing, lane: LaneNumber) -> bool {
        let Some(rank) = self.layout().lane(lane).rank(placing.lot) else {
            return true;
        };
        let holds_better_alone = self.holdings.worst[usize::from(lane)].is_none_or(|worst| worst < rank);
        holds_better_alone && (self.lane_is_full(lane) || self.shed_is_full_for(placing, lane))
    }

    fn lane_is_full(&self, lane: LaneNumber) -> bool {
        self.holdings.filling[usize::from(lane)] == self.layout().lane(lane).capacity
    }

    /// Whether the shed holds its cap and, if the lot is in it already, does not gain by moving it to the lane.
    fn shed_is_full_for(&self, placing: &Placing, lane: LaneNumber) -> bool {
        let to = self.layout().lane(lane);
        let shed = &self.layout().sheds[to.shed];
        let own = placing.lane.map(|own| self.layout().lane(own)).filter(|own| own.shed == to.shed);
        let filling = &self.holdings.filling[shed.lanes.clone()];
        let gains = own.is_some_and(|from| self.issued.rule().gain(&shed.card, filling, from.place, to.place));
        self.holdings.stored[to.shed] == shed.card.cap && !gains
    }

    fn layout(&self) -> &Layout {
        self.issued.layout()
    }
}
