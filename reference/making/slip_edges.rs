//! Edges of slips, made on purpose.

use super::sheets::*;
use super::slips::*;
use super::words::*;
use crate::chance::{of_turn, Chance};

type Edge = fn(&mut Chance) -> Day;

/// Days with slips that are just right.
const LAWFUL: &[Edge] = &[
    // Lots without wishes, also where there is no lane to wish for.
    |_| Day::new(Vec::new(), slip(0, [])),
    |chance| Day::new(sheds(&[0, 0], chance), [slip(255, []), slip(0, [])].concat()),
    |chance| behind_others(some_lanes(chance), [slip(1, []), slip(0, [0]), slip(2, [])].concat(), chance),
    |chance| Day::new(small_sheet(chance), (0..256).rev().flat_map(|lot| slip(lot, [])).collect()),
    // The first and the last lane, the first and the last lot.
    |chance| with_last_lane_wanted(some_lanes(chance), chance),
    |chance| with_last_lane_wanted(all_lanes(chance), chance),
    |chance| behind_others(sheds(&[2], chance), [slip(255, [1, 0]), slip(0, [0, 1])].concat(), chance),
    // As many wishes as a list has room for, out of just so many lanes or more.
    |chance| behind_others(sheds(&[8, 4], chance), slip(1, 0..12), chance),
    |chance| behind_others(sheds(&[8, 4], chance), slip(1, (0..12).rev()), chance),
    |chance| behind_others(all_lanes(chance), [slip(1, 20..32), slip(0, 0..12), slip(2, 20..32)].concat(), chance),
    // The same list twice, and lists that share a lane: only on one slip is a lane to stand once.
    |chance| behind_others(sheds(&[3], chance), [slip(4, [2, 0]), slip(3, [2, 0]), slip(5, [0, 1])].concat(), chance),
    // Lots whose numbers have another order than their digits.
    |chance| behind_others(some_lanes(chance), [10, 9, 1, 2, 11].map(|lot| slip(lot, [0])).concat(), chance),
    // All lots, in order and not.
    |chance| Day::new(some_lanes(chance), (0..256).flat_map(|lot| slip(lot, [0])).collect()),
    |chance| {
        let sheet = all_lanes(chance);
        Day::new(sheet, all_long_slips(MOST_LANES_OF_BOOK as u32, chance))
    },
    |chance| {
        let sheet = small_sheet(chance);
        let lots = chance.shuffled(LOTS);
        let slips = slips_of(&lots, lanes_in(&sheet), chance);
        Day::new(sheet, slips)
    },
];

/// Words of a kind that no slip knows, and LOT words with a bit too many. Other bits have days of their own.
const STRANGE: &[Edge] = &[
    |chance| Day::new(small_sheet(chance), vec![0]),
    |chance| Day::new(small_sheet(chance), vec![strange_kind(chance)]),
    |chance| behind_others(small_sheet(chance), vec![strange_kind(chance)], chance),
    |chance| behind_others(some_lanes(chance), vec![lot(1), strange_kind(chance), wish(0)], chance),
    |chance| behind_others(some_lanes(chance), vec![lot(1), wish(0), strange_kind(chance)], chance),
    // The book does not go on behind its end.
    |chance| Day::new(some_lanes(chance), vec![rank(0)]),
    |chance| Day::new(open_ranking(chance), vec![next(255)]),
    |chance| behind_others(open_ranking(chance), vec![shed(1), lane(0, 1)], chance),
    // Words of a plan.
    |chance| behind_others(some_lanes(chance), vec![lot(1), wish(0), 0x7000_0001], chance),
    |chance| behind_others(some_lanes(chance), vec![0x8000_0001, 0x9000_0000], chance),
    // LOT words that are damaged.
    |chance| Day::new(some_lanes(chance), vec![lot(1) | 1 << 12, wish(0)]),
    |chance| Day::new(some_lanes(chance), vec![lot(1), wish(0), lot(2) | 1 << 20, wish(0)]),
    |chance| behind_others(some_lanes(chance), vec![with_kind(chance.any_word() | 1 << 24, LOT)], chance),
    |chance| behind_others(some_lanes(chance), vec![with_kind(u32::MAX, LOT), lot(1), wish(0)], chance),
];

/// Words before the first LOT word.
const MISPLACED: &[Edge] = &[
    |chance| Day::new(some_lanes(chance), vec![wish(0)]),
    |chance| Day::new(some_lanes(chance), vec![wish(0), lot(1), wish(0)]),
    |chance| Day::new(some_lanes(chance), with(vec![wish(0), wish(0)], &slip(256, []))),
    |chance| Day::new(open_ranking(chance), vec![wish(0), strange_kind(chance)]),
    |chance| Day::new(all_lanes(chance), (0..13).map(wish).collect()),
];

/// A 13th wish.
const TOO_MANY: &[Edge] = &[
    |chance| Day::new(sheds(&[8, 5], chance), slip(0, 0..13)),
    |chance| behind_others(sheds(&[8, 5], chance), slip(1, 0..13), chance),
    |chance| behind_others(sheds(&[8, 5], chance), slip(1, (0..13).rev()), chance),
    |chance| behind_others(all_lanes(chance), slip(1, 0..32), chance),
    |chance| behind_others(all_lanes(chance), slip(1, 19..32), chance),
    |chance| behind_others(all_lanes(chance), [slip(1, 0..12), slip(2, 12..25)].concat(), chance),
    |chance| behind_others(all_lanes(chance), [slip(1, 0..13), slip(2, 12..24)].concat(), chance),
];

/// A lot above 255, a lane that is not in the book.
const UNKNOWN: &[Edge] = &[
    |chance| Day::new(small_sheet(chance), slip(256, [])),
    |chance| behind_others(some_lanes(chance), slip(256, [0]), chance),
    |chance| behind_others(some_lanes(chance), slip(chance.pick(&[257, 511, 512, HIGHEST_VALUE]), [0]), chance),
    // To whoever drops high bits, the lot is one that is entered.
    |chance| behind_others(some_lanes(chance), [slip(9, [0]), slip(256 + 9, [0])].concat(), chance),
    |_| Day::new(Vec::new(), slip(0, [0])),
    |chance| Day::new(sheds(&[0, 0], chance), slip(0, [0])),
    |chance| with_absent_lane_wanted(some_lanes(chance), 0, chance),
    |chance| with_absent_lane_wanted(some_lanes(chance), 1, chance),
    |chance| with_absent_lane_wanted(open_ranking(chance), 1, chance),
    |chance| with_absent_lane_wanted(all_lanes(chance), 1, chance),
    |chance| with_absent_lane_wanted(sheds(&[8, 3], chance), 11, chance),
    |chance| behind_others(some_lanes(chance), slip(1, [0, chance.pick(&[32, 255, 256, HIGHEST_VALUE])]), chance),
];

/// A lot that is entered already, a lane twice on a slip.
const TWICE: &[Edge] = &[
    |chance| Day::new(small_sheet(chance), [slip(0, []), slip(0, [])].concat()),
    |chance| behind_others(some_lanes(chance), [slip(1, [0]), slip(1, [0])].concat(), chance),
    |chance| behind_others(some_lanes(chance), [slip(1, []), slip(2, [0]), slip(3, []), slip(1, [0])].concat(), chance),
    |chance| behind_others(some_lanes(chance), [slip(0, [0]), slip(255, []), slip(0, [])].concat(), chance),
    |chance| behind_others(some_lanes(chance), [slip(255, [0]), slip(0, []), slip(255, [])].concat(), chance),
    |chance| {
        let sheet = small_sheet(chance);
        let lots = with(chance.shuffled(LOTS), &[chance.up_to(255)]);
        let slips = slips_of(&lots, lanes_in(&sheet), chance);
        Day::new(sheet, slips)
    },
    |chance| behind_others(some_lanes(chance), slip(1, [0, 0]), chance),
    |chance| behind_others(sheds(&[2], chance), slip(1, [1, 0, 1]), chance),
    |chance| behind_others(all_lanes(chance), slip(1, [31, 0, 5, 31]), chance),
    |chance| behind_others(sheds(&[8, 3], chance), slip(1, (0..11).chain([0])), chance),
    |chance| behind_others(sheds(&[8, 3], chance), slip(1, (0..11).chain([10])), chance),
];

/// Two faults of one word. The smaller number is told.
const TWO_AT_ONCE: &[Edge] = &[
    // Strange, and something else.
    |chance| Day::new(some_lanes(chance), vec![wish(0) | 1 << 12]),
    |chance| behind_others(sheds(&[8, 5], chance), with(slip(1, 0..12), &[wish(12) | 1 << 27]), chance),
    |chance| behind_others(sheds(&[8, 5], chance), with(slip(1, 0..12), &[strange_kind(chance)]), chance),
    |chance| behind_others(some_lanes(chance), vec![lot(256) | 1 << 12], chance),
    |chance| behind_others(some_lanes(chance), vec![lot(1), wish(32) | 1 << 24], chance),
    |chance| behind_others(some_lanes(chance), vec![lot(1), wish(0), lot(1) | 1 << 27], chance),
    |chance| behind_others(some_lanes(chance), vec![lot(1), wish(0), wish(0) | 1 << 16], chance),
    // Misplaced, and unknown.
    |_| Day::new(Vec::new(), vec![wish(0)]),
    |chance| Day::new(some_lanes(chance), vec![wish(32)]),
    |chance| Day::new(some_lanes(chance), vec![wish(HIGHEST_VALUE), lot(1)]),
    // Too many, and unknown or twice.
    |chance| behind_others(sheds(&[8, 4], chance), slip(1, 0..13), chance),
    |chance| behind_others(all_lanes(chance), slip(1, (0..12).chain([HIGHEST_VALUE])), chance),
    |chance| behind_others(sheds(&[8, 4], chance), slip(1, (0..12).chain([0])), chance),
    |chance| behind_others(all_lanes(chance), slip(1, (0..12).chain([11])), chance),
];

/// All the faulty ones. Each group comes up equally often, however many days it has.
const FAULTY: &[&[Edge]] = &[STRANGE, MISPLACED, TOO_MANY, UNKNOWN, TWICE, TWO_AT_ONCE];

pub fn lawful_edge(turn: usize, chance: &mut Chance) -> Day {
    of_turn(LAWFUL, turn)(chance)
}

pub fn faulty_edge(turn: usize, chance: &mut Chance) -> Day {
    let group = of_turn(FAULTY, turn);
    with_more_behind(of_turn(group, turn / FAULTY.len())(chance), chance)
}

/// One bit that must be zero is set in a word that would be lawful without it.
pub fn zero_bit_edge(turn: usize, chance: &mut Chance) -> Day {
    let (kind, bit) = of_turn(&zero_bits(), turn);
    let mut slip = if kind == LOT { vec![lot(1)] } else { vec![lot(1), wish(0)] };
    if let Some(last) = slip.last_mut() {
        *last |= 1 << bit;
    }
    with_more_behind(behind_others(some_lanes(chance), slip, chance), chance)
}

/// The bits that must be zero, with the kind of their word.
fn zero_bits() -> Vec<(u32, u32)> {
    [LOT, WISH].into_iter().flat_map(|kind| (12..28).map(move |bit| (kind, bit))).collect()
}

/// The slip behind a few others of other lots, which are good. Slips here are of lots up to 15 and of 255.
fn behind_others(sheet: Vec<u32>, slip: Vec<u32>, chance: &mut Chance) -> Day {
    let mut lots: Vec<u32> = (16..255).collect();
    lots.rotate_left(chance.below(239));
    lots.truncate(chance.below(4));
    let others = slips_of(&lots, lanes_in(&sheet), chance);
    Day::new(sheet, with(others, &slip))
}

fn with_last_lane_wanted(sheet: Vec<u32>, chance: &mut Chance) -> Day {
    let last = lanes_in(&sheet) - 1;
    behind_others(sheet, slip(1, [last]), chance)
}

/// A lane that is not in the book behind so many that are.
fn with_absent_lane_wanted(sheet: Vec<u32>, wishes_before: u32, chance: &mut Chance) -> Day {
    let absent = lanes_in(&sheet);
    behind_others(sheet, slip(1, (0..wishes_before).chain([absent])), chance)
}

fn strange_kind(chance: &mut Chance) -> u32 {
    let kind = chance.pick(&[0, 1, 2, 3, 4, 7, 8, 9, 10, 11, 12, 13, 14, 15]);
    with_kind(chance.up_to(9), kind)
}

/// What stands behind a fault is not reached, so anything may stand there.
fn with_more_behind(mut day: Day, chance: &mut Chance) -> Day {
    if chance.one_in(2) {
        let lanes = lanes_in(&day.words);
        day.words.extend(unread_slips(lanes, chance));
    }
    day
}

// Two faults, one after the other. The first is told, whichever number it has. All of them stand on a book of 13 lanes,
// behind a slip of lot 0.

/// Slips of this lot with one fault.
const FAULTY_SLIPS: &[fn(u32) -> Vec<u32>] = &[
    |number| vec![lot(number), wish(0), next(0)],
    |number| vec![lot(number), wish(0) | 1 << 12],
    |number| vec![lot(number) | 1 << 20, wish(0)],
    |number| slip(number, 0..13),
    |_| slip(256, [0]),
    |number| slip(number, [0, 13]),
    |_| slip(0, [0]),
    |number| slip(number, [4, 4]),
];

/// First words with one fault. WISH is none of them, since behind another slip it is a wish of that one.
const FAULTY_FIRST_WORDS: &[u32] = &[lot(1) | 1 << 20, lot(256), lot(0)];

/// Later words with one fault.
const FAULTY_WISHES: &[fn() -> Vec<u32>] = &[
    || vec![next(0)],
    || vec![wish(0) | 1 << 12],
    || (0..13).map(wish).collect(),
    || vec![wish(13)],
    || vec![wish(4), wish(4)],
];

pub fn two_faults(turn: usize, chance: &mut Chance) -> Day {
    let all = [faults_of_two_slips(), faults_of_one_slip()].concat();
    let faulty = &all[turn % all.len()];
    let slips = with(long_slip(0, chance.below(13), 13, chance), faulty);
    with_more_behind(Day::new(sheds(&[8, 5], chance), slips), chance)
}

fn faults_of_two_slips() -> Vec<Vec<u32>> {
    let behind = |first: Vec<u32>| FAULTY_SLIPS.iter().map(move |second| with(first.clone(), &second(2)));
    FAULTY_SLIPS.iter().flat_map(|first| behind(first(1))).collect()
}

fn faults_of_one_slip() -> Vec<Vec<u32>> {
    let behind = |front: Vec<u32>| FAULTY_WISHES.iter().map(move |wishes| with(front.clone(), &wishes()));
    let first_words = FAULTY_FIRST_WORDS.iter().map(|&first| vec![first]);
    let first_wishes = FAULTY_WISHES.iter().map(|wishes| with(vec![lot(1)], &wishes()));
    first_words.chain(first_wishes).flat_map(behind).collect()
}
