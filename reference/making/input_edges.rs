//! Edges of the input, made on purpose.

use super::damage::{cut_short, damage, Part};
use super::sheet_edges::{self, MISPLACED, OVERTARGETED, TOO_MANY, TWICE, UNKNOWN};
use super::sheets::*;
use super::slip_edges;
use super::slips::*;
use super::words::*;
use crate::chance::Chance;

type Input = fn(&mut Chance) -> Vec<u8>;

pub const INPUT_EDGES: &[Input] = &[
    // No first word, or nothing but a first word.
    |_| Vec::new(),
    |chance| some_bytes(1 + chance.below(3), chance),
    |_| vec![0; 4],
    |chance| Day { number: chance.pick(&[1, 2, 1 << 30, 1 << 31, u32::MAX]), words: Vec::new() }.bytes(),
    |chance| [vec![0; 4], some_bytes(1 + chance.below(3), chance)].concat(),
    // The first word says more than there is. The larger ones look right to whoever drops their high bits.
    |chance| numbered(good_day(chance), |_, all| all + 1),
    |chance| numbered(good_day(chance), |right, _| right + (1 << 8)),
    |chance| numbered(good_day(chance), |right, _| right + (1 << 16)),
    |chance| numbered(good_day(chance), |right, _| right + (1 << 30)),
    |chance| numbered(good_day(chance), |right, _| right + (1 << 31)),
    |chance| numbered(good_day(chance), |_, _| u32::MAX),
    // The first word takes the slips for the sheet, or the sheet for slips.
    |chance| numbered(good_day(chance), |_, all| all),
    |chance| numbered(good_day(chance), |right, _| right.saturating_sub(1)),
    |chance| numbered(good_day(chance), |right, _| right / 2),
    |chance| numbered(good_day(chance), |_, _| 0),
    fault_behind_the_sheet,
    // Bytes that make no word, also where the sheet or a slip has a fault.
    |chance| cut_short(good_day(chance).bytes(), chance),
    |chance| [good_day(chance).bytes(), some_bytes(1 + chance.below(3), chance)].concat(),
    |chance| cut_short(sheet_edges::faulty_edge(chance.below(100), chance).bytes(), chance),
    |chance| cut_short(slip_edges::faulty_edge(chance.below(100), chance).bytes(), chance),
];

fn some_bytes(length: usize, chance: &mut Chance) -> Vec<u8> {
    (0..length).map(|_| chance.pick(&[0, 1, 0x10, 0xff])).collect()
}

/// The day with another first word, reckoned from the right one and from the number of all words behind it.
fn numbered(day: Day, number: fn(u32, u32) -> u32) -> Vec<u8> {
    Day { number: number(day.number, day.words.len() as u32), ..day }.bytes()
}

/// The first word behind a good sheet would be faulty on the sheet. On a slip it is strange, as all words of a sheet.
fn fault_behind_the_sheet(chance: &mut Chance) -> Vec<u8> {
    let group = chance.pick(&[TOO_MANY, UNKNOWN, TWICE, OVERTARGETED, MISPLACED]);
    let sheet = chance.pick(group)(chance);
    let slips = good_slips(lanes_in(&sheet), chance);
    numbered(Day::new(sheet, slips), |right, _| right - 1)
}

// Days of full size

pub const FULL_SIZE_EDGES: &[Input] = &[
    // The longest day, and one that is a little longer or shorter.
    |chance| longest_day(chance).bytes(),
    |chance| with_words(longest_day(chance), 1, chance).bytes(),
    |chance| [longest_day(chance).bytes(), some_bytes(1, chance)].concat(),
    |chance| without_words(longest_day(chance), 1).bytes(),
    |chance| longest_day(chance).bytes().split_last().map_or(Vec::new(), |(_, rest)| rest.to_vec()),
    // As long as may be, with a fault at the end of the sheet.
    |chance| with_one_lot_more(longest_day(chance), chance.up_to(255)).bytes(),
    |chance| with_one_lot_more(longest_day(chance), 256).bytes(),
    |chance| with_last_lot_twice(longest_day(chance)).bytes(),
    // As long as may be, and the first word is wrong.
    |chance| numbered(longest_day(chance), |_, all| all + 1),
    |chance| numbered(longest_day(chance), |_, all| all),
    |chance| numbered(longest_day(chance), |right, _| right - 1),
    // As long as may be or a word longer, though the sheet is short.
    |chance| stretched(good_day(chance), WORDS_OF_LONGEST_DAY, chance).bytes(),
    |chance| stretched(good_day(chance), WORDS_OF_LONGEST_DAY + 1, chance).bytes(),
    // As long as may be, with a fault in the last slip: at its first word, or at the last word of the day.
    |chance| with_last_slip_of(longest_day(chance), 256).bytes(),
    |chance| {
        let day = longest_day(chance);
        let first_lot = day.words[day.number as usize] & FIELD;
        with_last_slip_of(day, first_lot).bytes()
    },
    |chance| with_last_word(longest_day(chance), |_| wish(MOST_LANES_OF_BOOK as u32)).bytes(),
    |chance| with_last_word(longest_day(chance), |before| before).bytes(),
    |chance| with_last_word(longest_day(chance), |before| before | 1 << 12).bytes(),
    |chance| with_word_behind_last_slip(longest_day(chance), wish(chance.up_to(31))).bytes(),
    |chance| with_word_behind_last_slip(longest_day(chance), lot(chance.up_to(255))).bytes(),
    // Any damage.
    |chance| damaged(longest_day(chance), Part::Sheet, chance).bytes(),
    |chance| damaged(longest_day(chance), Part::Slips, chance).bytes(),
];

fn longest_day(chance: &mut Chance) -> Day {
    let mut sheet = sheds(&[4; MOST_SHEDS], chance);
    for lane in chance.shuffled(MOST_LANES_OF_BOOK) {
        sheet.extend(ranking_record(lane, LOTS, chance));
    }
    let slips = all_long_slips(MOST_LANES_OF_BOOK as u32, chance);
    Day::new(sheet, slips)
}

fn with_words(mut day: Day, words: usize, chance: &mut Chance) -> Day {
    day.words.extend((0..words).map(|_| some_word(chance)));
    day
}

fn without_words(mut day: Day, words: usize) -> Day {
    day.words.truncate(day.words.len() - words);
    day
}

/// A 257th lot in the last ranking. A word of the slips makes room for it.
fn with_one_lot_more(day: Day, lot: u32) -> Day {
    let mut day = without_words(day, 1);
    day.words.insert(day.number as usize, next(lot));
    day.number += 1;
    day
}

/// The last lot of the last ranking stands there already.
fn with_last_lot_twice(mut day: Day) -> Day {
    let last = day.number as usize - 1;
    day.words[last] = day.words[last - 1];
    day
}

/// The last slip, which has as many wishes as may be, is that of another lot.
fn with_last_slip_of(mut day: Day, number: u32) -> Day {
    let first = day.words.len() - 1 - MOST_WISHES;
    day.words[first] = lot(number);
    day
}

/// The day with another last word, made from the one before it.
fn with_last_word(mut day: Day, word: fn(u32) -> u32) -> Day {
    let last = day.words.len() - 1;
    day.words[last] = word(day.words[last - 1]);
    day
}

/// A 13th wish or a 257th slip. The last word of the sheet makes room for it.
fn with_word_behind_last_slip(mut day: Day, word: u32) -> Day {
    day.number -= 1;
    day.words.remove(day.number as usize);
    day.words.push(word);
    day
}

fn damaged(mut day: Day, part: Part, chance: &mut Chance) -> Day {
    damage(&mut day, part, chance);
    day
}

/// The day with so many words behind it that it has `words` words, its first word included.
fn stretched(day: Day, words: usize, chance: &mut Chance) -> Day {
    let missing = words - 1 - day.words.len();
    with_words(day, missing, chance)
}
