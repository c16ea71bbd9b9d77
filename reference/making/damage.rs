//! Damaged days.

use super::slips::*;
use super::words::*;
use crate::chance::Chance;
use std::ops::Range;

/// Where most of the damage is done.
#[derive(Clone, Copy)]
pub enum Part {
    Sheet,
    Slips,
}

pub fn damaged_day(part: Part, chance: &mut Chance) -> Vec<u8> {
    let mut day = match part {
        Part::Sheet => good_day(chance),
        Part::Slips => good_day_with_slips(chance),
    };
    for _ in 0..1 + chance.below(3) {
        damage(&mut day, part, chance);
    }
    let bytes = day.bytes();
    if chance.one_in(30) {
        cut_short(bytes, chance)
    } else {
        bytes
    }
}

pub fn damage(day: &mut Day, part: Part, chance: &mut Chance) {
    if day.words.is_empty() || chance.one_in(40) {
        damage_number(day, chance);
        return;
    }
    let at = place_to_damage(day, part, chance);
    let word = day.words[at];
    match chance.below(12) {
        0 => day.words[at] ^= 1 << chance.below(32),
        1 => drop_word(day, at, chance),
        2 | 3 => insert_word(day, at, word, chance),
        4 => {
            let other = place_to_damage(day, part, chance);
            day.words.swap(at, other);
        }
        5 => day.words[at] = with_kind(word, any_kind(part, chance)),
        6 | 7 => day.words[at] = with_edge_field(word, lanes_in(&day.words), chance),
        8..=10 => {
            for _ in 0..1 + chance.below(2) {
                insert_word(day, at, word_for(part, chance), chance);
            }
        }
        _ => double_slip(day, at),
    }
}

/// Hurts the first word: a bit of it, or one more or less than there is.
fn damage_number(day: &mut Day, chance: &mut Chance) {
    day.number = match chance.below(3) {
        0 => day.number ^ 1 << chance.below(32),
        1 => day.number.wrapping_add(1),
        _ => day.number.wrapping_sub(1),
    };
}

/// Mostly in the part, if it has words.
fn place_to_damage(day: &Day, part: Part, chance: &mut Chance) -> usize {
    let places = places_of(day, part);
    if places.is_empty() || chance.one_in(20) {
        chance.below(day.words.len())
    } else {
        places.start + chance.below(places.len())
    }
}

fn places_of(day: &Day, part: Part) -> Range<usize> {
    let sheet = day.words.len().min(day.number as usize);
    match part {
        Part::Sheet => 0..sheet,
        Part::Slips => sheet..day.words.len(),
    }
}

/// Mostly the first word is made to fit again.
fn drop_word(day: &mut Day, at: usize, chance: &mut Chance) {
    day.words.remove(at);
    if at < day.number as usize && !chance.one_in(16) {
        day.number -= 1;
    }
}

/// Mostly the first word is made to fit again.
fn insert_word(day: &mut Day, at: usize, word: u32, chance: &mut Chance) {
    day.words.insert(at, word);
    if at < day.number as usize && !chance.one_in(16) {
        day.number = day.number.saturating_add(1);
    }
}

/// Mostly a word that the part knows.
fn word_for(part: Part, chance: &mut Chance) -> u32 {
    match part {
        Part::Slips if !chance.one_in(4) => with_kind(chance.up_to(31), chance.pick(&[LOT, WISH])),
        _ => some_word(chance),
    }
}

/// Mostly a kind that the part knows.
fn any_kind(part: Part, chance: &mut Chance) -> u32 {
    if chance.one_in(4) {
        return chance.up_to(15);
    }
    match part {
        Part::Sheet => chance.pick(&[SHED, LANE, RANK, NEXT]),
        Part::Slips => chance.pick(&[LOT, WISH]),
    }
}

/// The word with one of its fields on an edge. Only LANE has a field above bit 11.
fn with_edge_field(word: u32, lanes: u32, chance: &mut Chance) -> u32 {
    let value = chance.pick(&[0, 255, 256, 31, 32, HIGHEST_VALUE, lanes]);
    if kind(word) == LANE && chance.one_in(2) {
        word & !(FIELD << 12) | value << 12
    } else {
        word & !FIELD | value
    }
}

/// The slip that the word at this place belongs to stands at the end of the day once more. From a book sheet it is the
/// words up to the first slip.
fn double_slip(day: &mut Day, at: usize) {
    let start = day.words[..=at].iter().rposition(|&word| kind(word) == LOT).unwrap_or(at);
    let length = 1 + day.words[start + 1..].iter().take_while(|&&word| kind(word) != LOT).count();
    day.words.extend_from_within(start..start + length);
}

pub fn cut_short(mut bytes: Vec<u8>, chance: &mut Chance) -> Vec<u8> {
    bytes.truncate(bytes.len() - 1 - chance.below(3));
    bytes
}
