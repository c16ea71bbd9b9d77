//! Good book sheets.

use super::words::*;
use crate::chance::Chance;

/// A SHED word and its LANE words. A third of the targets are as large as they can be.
fn shed_record(lanes: usize, chance: &mut Chance) -> Vec<u32> {
    let cap = chance.value();
    let mut left = cap;
    let mut words = vec![shed(cap)];
    for _ in 0..lanes {
        let capacity = chance.value();
        let most = left.min(capacity);
        let target = match chance.below(3) {
            0 => 0,
            1 => most,
            _ => chance.up_to(most),
        };
        left -= target;
        words.push(lane(target, capacity));
    }
    words
}

/// One shed for each number in the list, with that many lanes.
pub fn sheds(lanes: &[usize], chance: &mut Chance) -> Vec<u32> {
    lanes.iter().flat_map(|&lanes| shed_record(lanes, chance)).collect()
}

/// How many lanes each shed is to have, together not too many for a book.
pub fn lane_numbers(sheds: usize, most_lanes: usize, chance: &mut Chance) -> Vec<usize> {
    let mut left = MOST_LANES_OF_BOOK;
    let mut numbers = Vec::new();
    for _ in 0..sheds {
        let lanes = chance.below(most_lanes + 1).min(left);
        left -= lanes;
        numbers.push(lanes);
    }
    numbers
}

/// As many lanes as a book may have, spread over the sheds in a few ways.
pub fn all_lanes(chance: &mut Chance) -> Vec<u32> {
    let numbers: &[usize] = match chance.below(4) {
        0 => &[4; 8],
        1 => &[8; 4],
        2 => &[8, 0, 8, 1, 7, 0, 8],
        _ => &[0, 3, 8, 5, 8, 2, 6],
    };
    sheds(numbers, chance)
}

/// So many lots, each once. Short rankings often take low lots, so that two rankings share some.
pub fn lots(length: usize, chance: &mut Chance) -> Vec<u32> {
    let end = if length <= 6 && chance.one_in(2) { 8 } else { LOTS };
    let mut lots = chance.shuffled(end);
    lots.truncate(length);
    lots
}

pub fn ranking_record(lane: u32, length: usize, chance: &mut Chance) -> Vec<u32> {
    let lots = lots(length, chance).into_iter().map(next);
    [rank(lane)].into_iter().chain(lots).collect()
}

/// Rankings for some of the lanes, in any order of lanes.
pub fn rankings(lanes: u32, most_rankings: usize, most_lots: usize, chance: &mut Chance) -> Vec<u32> {
    let mut ranked = chance.shuffled(lanes as usize);
    ranked.truncate(chance.below(most_rankings + 1));
    ranked.into_iter().flat_map(|lane| ranking_record(lane, chance.below(most_lots + 1), chance)).collect()
}

pub fn good_sheet(chance: &mut Chance) -> Vec<u32> {
    match chance.below(20) {
        0 => long_sheet(chance),
        1..=3 => wide_sheet(chance),
        4..=9 => crowded_sheet(chance),
        _ => small_sheet(chance),
    }
}

pub fn small_sheet(chance: &mut Chance) -> Vec<u32> {
    let mut words = small_sheds(chance);
    words.extend(rankings(lanes_in(&words), 5, 5, chance));
    words
}

/// Many sheds and lanes, few lots.
fn wide_sheet(chance: &mut Chance) -> Vec<u32> {
    let sheds_wanted = chance.below(MOST_SHEDS + 1);
    let numbers = lane_numbers(sheds_wanted, MOST_LANES_OF_SHED, chance);
    let mut words = sheds(&numbers, chance);
    words.extend(rankings(lanes_in(&words), 10, 2, chance));
    words
}

/// One shed or lane more would not fit, so that a little damage makes too many.
fn crowded_sheet(chance: &mut Chance) -> Vec<u32> {
    let mut words = match chance.below(3) {
        0 => sheds(&lane_numbers(MOST_SHEDS, 2, chance), chance),
        1 => sheds(&[MOST_LANES_OF_SHED], chance),
        _ => all_lanes(chance),
    };
    words.extend(rankings(lanes_in(&words), 3, 2, chance));
    words
}

/// A few lanes, of which one ranks many lots or all.
fn long_sheet(chance: &mut Chance) -> Vec<u32> {
    let mut words = some_lanes(chance);
    let length = if chance.one_in(2) { LOTS } else { chance.below(LOTS) };
    words.extend(ranking_record(any_lane(&words, chance), length, chance));
    words
}

/// Up to three sheds with up to three lanes each.
pub fn small_sheds(chance: &mut Chance) -> Vec<u32> {
    let sheds_wanted = chance.below(4);
    let numbers = lane_numbers(sheds_wanted, 3, chance);
    sheds(&numbers, chance)
}

/// Small sheds with one lane at least.
pub fn some_lanes(chance: &mut Chance) -> Vec<u32> {
    let mut words = small_sheds(chance);
    let lanes = 1 + chance.below(3);
    words.extend(shed_record(lanes, chance));
    words
}

pub fn any_lane(sheet: &[u32], chance: &mut Chance) -> u32 {
    chance.below(lanes_in(sheet) as usize) as u32
}

/// Some lanes, and a ranking that may go on. It has one lot at least.
pub fn open_ranking(chance: &mut Chance) -> Vec<u32> {
    let mut words = some_lanes(chance);
    let length = 1 + chance.below(4);
    words.extend(ranking_record(any_lane(&words, chance), length, chance));
    words
}
