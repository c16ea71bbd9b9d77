//! Edges of book sheets, made on purpose.

use super::sheets::*;
use super::slips::*;
use super::words::*;
use crate::chance::{of_turn, Chance};

type Sheet = fn(&mut Chance) -> Vec<u32>;

/// Sheets that are just right.
const LAWFUL: &[Sheet] = &[
    // Nothing, sheds without lanes, and as many sheds and lanes as there may be.
    |_| Vec::new(),
    |chance| sheds(&[0], chance),
    |chance| sheds(&[0; MOST_SHEDS], chance),
    |chance| sheds(&lane_numbers(MOST_SHEDS, MOST_LANES_OF_SHED, chance), chance),
    |chance| sheds(&[1, MOST_LANES_OF_SHED, 0], chance),
    all_lanes,
    // The last lane and the last lot.
    |chance| with_last_lane_ranked(some_lanes(chance)),
    |chance| with_last_lane_ranked(all_lanes(chance)),
    |chance| with(some_lanes(chance), &[rank(0), next(255), next(0)]),
    |chance| with(some_lanes(chance), &[rank(0), next(0), next(255)]),
    // All lots, no lots, the same lot in two rankings, lanes out of order.
    all_lots,
    |chance| with(sheds(&[3], chance), &[rank(2), rank(0), rank(1)]),
    |chance| with(sheds(&[2], chance), &[rank(1), next(7), next(3), rank(0), next(3), next(7)]),
    |chance| with(sheds(&[1, 2], chance), &[rank(2), next(9), rank(1), rank(0), next(9)]),
    // Targets that just fit their capacity, their cap, or both. Each shed has a sum of its own.
    |chance| with(small_sheds(chance), &[shed(2), lane(1, 1), lane(1, 1)]),
    |chance| with(small_sheds(chance), &[shed(1), lane(1, 1), shed(1), lane(1, 1)]),
    |chance| with(small_sheds(chance), &[shed(1), lane(0, 1), lane(1, 1), lane(0, 0)]),
    |_| vec![shed(HIGHEST_VALUE), lane(HIGHEST_VALUE, HIGHEST_VALUE), lane(0, HIGHEST_VALUE)],
    |_| with(with(vec![shed(HIGHEST_VALUE)], &[lane(512, 512); 7]), &[lane(511, 512)]),
    |_| with(vec![shed(0)], &[lane(0, HIGHEST_VALUE); 8]),
];

/// A ninth shed, a ninth lane of a shed, a 33rd lane of the book.
pub const TOO_MANY: &[Sheet] = &[
    |chance| with(sheds(&[0; 8], chance), &[shed(chance.value())]),
    |chance| with(sheds(&lane_numbers(8, 8, chance), chance), &[shed(chance.value())]),
    |chance| with(sheds(&[8], chance), &[lane(0, chance.value())]),
    |chance| with(sheds(&[2, 0, 8], chance), &[lane(0, chance.value())]),
    |chance| with(sheds(&[4; 8], chance), &[lane(0, chance.value())]),
    |chance| with(sheds(&[8, 8, 8, 4, 4], chance), &[lane(0, chance.value())]),
    |chance| with(sheds(&[8; 4], chance), &[shed(chance.value()), lane(0, chance.value())]),
    |chance| with(sheds(&[8; 4], chance), &[lane(0, chance.value())]),
];

/// A lane that is not there, a lot above 255.
pub const UNKNOWN: &[Sheet] = &[
    |chance| with(open_ranking(chance), &[next(256)]),
    |chance| with(some_lanes(chance), &[rank(0), next(256)]),
    |chance| with(open_ranking(chance), &[next(chance.pick(&[257, 511, 512, HIGHEST_VALUE]))]),
    |chance| with(all_lots(chance), &[next(256)]),
    |chance| with_absent_lane_ranked(some_lanes(chance)),
    |chance| with_absent_lane_ranked(open_ranking(chance)),
    |chance| with_absent_lane_ranked(all_lanes(chance)),
    |chance| with(some_lanes(chance), &[rank(chance.pick(&[31, 32, 255, 256, HIGHEST_VALUE]))]),
    |chance| with(sheds(&[0, 0], chance), &[rank(0)]),
    |_| vec![rank(0)],
];

/// A lane ranked twice, a lot twice in one ranking.
pub const TWICE: &[Sheet] = &[
    |chance| with(some_lanes(chance), &[rank(0), rank(0)]),
    |chance| with(some_lanes(chance), &[rank(0), next(1), rank(0)]),
    |chance| with(sheds(&[2], chance), &[rank(1), next(5), rank(0), next(5), rank(1)]),
    |chance| with_last_lane_ranked(with_last_lane_ranked(all_lanes(chance))),
    |chance| with_last_word_doubled(open_ranking(chance)),
    |chance| with(some_lanes(chance), &[rank(0), next(8), next(4), next(2), next(8)]),
    |chance| with(some_lanes(chance), &[rank(0), next(255), next(0), next(255)]),
    |chance| with(sheds(&[2], chance), &[rank(0), next(6), rank(1), next(7), next(6), next(7)]),
    |chance| with(all_lots(chance), &[next(chance.up_to(255))]),
];

/// A target above its capacity, targets above the cap of their shed.
pub const OVERTARGETED: &[Sheet] = &[
    |chance| with(small_sheds(chance), &[shed(1), lane(1, 1), lane(1, 1)]),
    |chance| with(small_sheds(chance), &[shed(7), lane(2, 3), lane(2, 2), lane(0, 9), lane(4, 4)]),
    |chance| with(small_sheds(chance), &[shed(5), lane(2, 2), shed(1), lane(2, 2)]),
    |chance| with(small_sheds(chance), &[shed(0), lane(1, 1)]),
    |chance| with(with(small_sheds(chance), &[shed(7)]), &[lane(1, 1); 8]),
    |_| vec![shed(HIGHEST_VALUE), lane(HIGHEST_VALUE, HIGHEST_VALUE), lane(1, 1)],
    |_| vec![shed(HIGHEST_VALUE), lane(HIGHEST_VALUE, HIGHEST_VALUE), lane(HIGHEST_VALUE, HIGHEST_VALUE)],
    |chance| with(small_sheds(chance), &[shed(HIGHEST_VALUE - 1), lane(HIGHEST_VALUE, HIGHEST_VALUE)]),
    |chance| with(small_sheds(chance), &[shed(HIGHEST_VALUE), lane(1, 0)]),
    |chance| with(small_sheds(chance), &[shed(HIGHEST_VALUE), lane(HIGHEST_VALUE, HIGHEST_VALUE - 1)]),
    |chance| with(small_sheds(chance), &[shed(0), lane(1, 0)]),
];

/// Words out of the order of a sheet.
pub const MISPLACED: &[Sheet] = &[
    |chance| with(some_lanes(chance), &[rank(0), shed(chance.value())]),
    |chance| with(open_ranking(chance), &[shed(chance.value())]),
    |chance| with(some_lanes(chance), &[rank(0), lane(0, chance.value())]),
    |chance| with(open_ranking(chance), &[lane(0, chance.value())]),
    |chance| vec![next(chance.up_to(255))],
    |chance| with(sheds(&[0], chance), &[next(chance.up_to(255))]),
    |chance| with(some_lanes(chance), &[next(chance.up_to(255))]),
    |chance| vec![lane(0, chance.value())],
];

/// Words of a kind that no book sheet knows. Bits that must be zero have days of their own.
const STRANGE: &[Sheet] = &[
    |_| vec![0],
    |chance| with(small_sheds(chance), &[strange_kind(chance)]),
    |chance| with(open_ranking(chance), &[strange_kind(chance)]),
    |chance| with(small_sheet(chance), &[lot(chance.up_to(255))]),
    |chance| with(small_sheet(chance), &[wish(0)]),
];

/// Two faults, one after the other. The first is told, whichever number it has.
const TWO_IN_TURN: &[Sheet] = &[
    |chance| with(open_ranking(chance), &[next(256), strange_kind(chance)]),
    |chance| with(open_ranking(chance), &[strange_kind(chance), next(256)]),
    |chance| with(with_last_word_doubled(open_ranking(chance)), &[next(256)]),
    |chance| with_last_word_doubled(with(open_ranking(chance), &[next(256)])),
    |chance| with(some_lanes(chance), &[rank(0), next(1), next(1), rank(0), lane(0, 1)]),
    |chance| with(some_lanes(chance), &[rank(0), rank(0), next(1), next(1)]),
    |chance| with(some_lanes(chance), &[rank(32), next(256)]),
    |chance| with(small_sheds(chance), &[shed(0), lane(1, 1), next(0)]),
    |chance| with(small_sheds(chance), &[next(0), shed(0), lane(1, 1)]),
    |chance| with(with(small_sheds(chance), &[shed(1)]), &[lane(1, 1); 9]),
    |chance| with(sheds(&[8], chance), &[lane(0, 1), shed(0), lane(1, 1)]),
    |chance| with(sheds(&[0; 8], chance), &[shed(0), strange_kind(chance)]),
    |chance| with(sheds(&[0; 8], chance), &[strange_kind(chance), shed(0)]),
];

/// Two faults of one word. The smaller number is told.
const TWO_AT_ONCE: &[Sheet] = &[
    // Strange, and something else.
    |chance| with(sheds(&[0; 8], chance), &[shed(0) | 1 << 12]),
    |chance| with(small_sheds(chance), &[shed(0), lane(1, 0) | 1 << 24]),
    |chance| with(open_ranking(chance), &[lane(0, 1) | 1 << 27]),
    |chance| with(some_lanes(chance), &[rank(32) | 1 << 27]),
    |chance| with(some_lanes(chance), &[rank(0), rank(0) | 1 << 12]),
    |chance| with(some_lanes(chance), &[next(0) | 1 << 20]),
    |chance| with(open_ranking(chance), &[next(256) | 1 << 12]),
    |chance| with(some_lanes(chance), &[rank(0), next(3), next(3) | 1 << 27]),
    // Misplaced, and something else.
    |chance| with(sheds(&[1; 8], chance), &[rank(0), shed(0)]),
    |chance| with(all_lanes(chance), &[rank(0), lane(0, 1)]),
    |_| vec![lane(1, 0)],
    |chance| with(some_lanes(chance), &[rank(0), lane(1, 0)]),
    |chance| with(some_lanes(chance), &[next(256)]),
    // Too many, and overtargeted.
    |chance| with(sheds(&[8], chance), &[lane(1, 0)]),
    |chance| with(sheds(&[4; 8], chance), &[lane(1, 0)]),
    |_| with(with(vec![shed(8)], &[lane(1, 1); 8]), &[lane(1, 1)]),
];

/// All the faulty ones. Each group comes up equally often, however many sheets it has.
const FAULTY: &[&[Sheet]] = &[TOO_MANY, UNKNOWN, TWICE, OVERTARGETED, MISPLACED, STRANGE, TWO_IN_TURN, TWO_AT_ONCE];

pub fn lawful_edge(turn: usize, chance: &mut Chance) -> Day {
    let sheet = of_turn(LAWFUL, turn)(chance);
    let slips = good_slips(lanes_in(&sheet), chance);
    Day::new(sheet, slips)
}

pub fn faulty_edge(turn: usize, chance: &mut Chance) -> Day {
    let group = of_turn(FAULTY, turn);
    with_more_behind(of_turn(group, turn / FAULTY.len())(chance), chance)
}

/// One bit that must be zero is set in a word that would be lawful without it.
pub fn zero_bit_edge(turn: usize, chance: &mut Chance) -> Day {
    let (kind, bit) = of_turn(&zero_bits(), turn);
    let mut sheet = match kind {
        SHED => with(small_sheds(chance), &[shed(chance.value())]),
        LANE => with(sheds(&[0, 2], chance), &[lane(0, chance.value())]),
        RANK => with_last_lane_ranked(some_lanes(chance)),
        _ => open_ranking(chance),
    };
    if let Some(last) = sheet.last_mut() {
        *last |= 1 << bit;
    }
    with_more_behind(sheet, chance)
}

/// The bits that must be zero, with the kind of their word. LANE has two fields and so fewer of them.
fn zero_bits() -> Vec<(u32, u32)> {
    let lowest = |kind| if kind == LANE { 24 } else { 12 };
    (SHED..=NEXT).flat_map(|kind| (lowest(kind)..28).map(move |bit| (kind, bit))).collect()
}

/// What stands behind a fault is not reached, so anything may stand there.
fn with_more_behind(mut sheet: Vec<u32>, chance: &mut Chance) -> Day {
    if chance.one_in(2) {
        let more = chance.below(4);
        sheet.extend((0..more).map(|_| some_word(chance)));
    }
    let slips = unread_slips(lanes_in(&sheet), chance);
    Day::new(sheet, slips)
}

fn with_last_word_doubled(mut sheet: Vec<u32>) -> Vec<u32> {
    sheet.extend(sheet.last().copied());
    sheet
}

fn with_last_lane_ranked(sheet: Vec<u32>) -> Vec<u32> {
    let last = lanes_in(&sheet) - 1;
    with(sheet, &[rank(last)])
}

fn with_absent_lane_ranked(sheet: Vec<u32>) -> Vec<u32> {
    let absent = lanes_in(&sheet);
    with(sheet, &[rank(absent)])
}

fn all_lots(chance: &mut Chance) -> Vec<u32> {
    let sheet = some_lanes(chance);
    let record = ranking_record(any_lane(&sheet, chance), LOTS, chance);
    with(sheet, &record)
}

fn strange_kind(chance: &mut Chance) -> u32 {
    let kind = chance.pick(&[0, 5, 6, 7, 8, 9, 10, 11, 12, 13, 14, 15]);
    with_kind(chance.up_to(9), kind)
}
